//! What each call must have done, by the rosters before and behind it.

use super::*;

/// A refusal's line.
fn refusal(number: u32) -> Vec<String> {
    vec![hex(number)]
}

impl Call<'_> {
    /// It printed these lines and no others.
    fn printed(&self, lines: &[String], rule: u8) -> Held {
        must(self.lines.iter().eq(lines), rule, || {
            format!("command {} printed {:?}, not {lines:?}", self.command, self.lines)
        })
    }
}

impl Walk<'_> {
    pub fn judge(&mut self, call: &Call, after: &Roster) -> Held {
        match call.command {
            START => return self.start(call, after),
            SIGN_OFF => self.sign_off(call, after)?,
            ADMIT => self.admit(call, after)?,
            RECEIVE => self.receive(call, after)?,
            NEXT => self.next(call, after)?,
            READ | FREE => self.cell(call, after)?,
            _ => {
                call.printed(&[], 2)?;
                self.unchanged(after)?;
            }
        }
        sendings::name_boats(call, after)?;
        self.hears_of_nobody(call, after)
    }

    /// Rule 2: what is refused, and what only reads, leaves the roster as it was.
    pub fn unchanged(&self, after: &Roster) -> Held {
        must(*after == self.before, 2, || {
            format!(
                "the call changes nothing, and the roster is another: {}",
                self.before.difference(after)
            )
        })
    }

    fn start(&mut self, call: &Call, after: &Roster) -> Held {
        call.printed(&[], 2)?;
        let settings = payload(call.words).ok().and_then(|b| Settings::from_bytes(&b));
        let Some((settings, cells)) = settings else {
            return broken(0, "a start that no day has");
        };
        self.miss_limit = settings.miss_limit;
        self.cells = vec![None; (cells as usize).min(MAX_CELLS)];
        self.stays.clear();
        self.left.clear();
        self.before = Roster {
            boats: BTreeMap::new(),
            totals: vec![0; 5],
        };
        self.unchanged(after)
    }

    /// Rules 1 and 2.
    fn sign_off(&mut self, call: &Call, after: &Roster) -> Held {
        let slot = call.rest as u8;
        let refused = if slot as usize >= MAX_MEMBERS {
            Some(8)
        } else if !self.before.boats.contains_key(&slot) {
            Some(21)
        } else {
            None
        };
        call.printed(&refused.map_or(Vec::new(), refusal), 2)?;
        if refused.is_some() {
            self.tally.refused += 1;
            return self.unchanged(after);
        }
        let mut left = self.before.clone();
        left.boats.remove(&slot);
        for b in left.boats.values_mut() {
            b.hears.remove(&slot);
            if b.relay == slot {
                b.lose_relay(self.miss_limit);
                self.tally.orphans += 1;
            }
        }
        must(*after == left, 1, || {
            format!("behind the sign-off of slot {slot}: {}", left.difference(after))
        })?;
        self.stays.remove(&slot);
        self.left.insert(slot);
        for c in &mut self.cells {
            c.take_if(|(s, _)| *s == slot);
        }
        self.tally.signed_off += 1;
        Ok(())
    }

    /// Rule 3, a direct admission.
    fn admit(&mut self, call: &Call, after: &Roster) -> Held {
        let Ok(f) = one_frame(call.words) else {
            return broken(0, "an admission that no day has");
        };
        let (name, relay) = (unpack_call(&f.payload), f.flags);
        let known = self.before.knows(&name);
        let free = self.before.lowest_free();
        let refused = match relay {
            ALL => None,
            62 | 64.. => Some(8),
            r if !self.before.boats.contains_key(&r) => Some(21),
            _ => None,
        };
        let refused = refused.or((!known && free.is_none()).then_some(23));
        if let Some(number) = refused {
            call.printed(&refusal(number), 3)?;
            return self.unchanged(after);
        }
        let Some(slot) = free.filter(|_| !known) else {
            call.printed(&[], 3)?;
            return self.unchanged(after);
        };
        let event = |kind: u32| hex(kind << 28 | (relay as u32) << 6 | slot as u32);
        let events = if relay == ALL {
            vec![event(1)]
        } else {
            vec![event(4), event(1)]
        };
        call.printed(&events, 3)?;
        let queue = after.boats.get(&slot).map_or(0, |b| b.queue.len());
        let heard = format!("{:016x}", self.now.to_bits());
        let mut joined = self.before.clone();
        joined.boats.insert(slot, Boat::fresh(&name, relay, heard, queue));
        must(*after == joined, 3, || {
            format!("behind the admission to slot {slot}: {}", joined.difference(after))
        })?;
        self.comes(slot);
        Ok(())
    }

    /// A stay begins.
    pub fn comes(&mut self, slot: u8) {
        self.stays.insert(slot, Stay::default());
        self.tally.admitted += 1;
    }

    /// A decision: nobody comes or goes.
    fn next(&mut self, call: &Call, after: &Roster) -> Held {
        let words = call
            .lines
            .iter()
            .all(|l| u32::from_str_radix(l, 16).is_ok_and(|w| w >> 28 != 0));
        must(words, 0, || format!("a decision printed {:?}", call.lines))?;
        self.same_boats(after)
    }

    pub fn same_boats(&self, after: &Roster) -> Held {
        let boats = |r: &Roster| r.boats.iter().map(|(s, b)| (*s, b.call.clone())).collect::<Vec<_>>();
        must(boats(&self.before) == boats(after), 3, || {
            "boats came or went without being admitted or signed off".into()
        })
    }

    /// Rule 7: a cell reads as the message that landed in it, until it is freed or its boat signs off.
    fn cell(&mut self, call: &Call, after: &Roster) -> Held {
        let cell = call.rest as usize;
        let lines = match self.cells.get(cell) {
            None => refusal(6),
            Some(None) => refusal(22),
            Some(Some(_)) if call.command == FREE => Vec::new(),
            Some(Some((_, data))) => {
                let bytes: String = data.iter().map(|b| format!("{b:02X}")).collect();
                // Blanks at a line's end do not count.
                vec![format!("R {bytes}").trim_end().to_string()]
            }
        };
        call.printed(&lines, 7)?;
        if call.command == FREE && cell < self.cells.len() {
            self.cells[cell] = None;
        }
        self.unchanged(after)
    }

    /// Rule 1: a slot where nobody is comes into a boat's `hears` only by a report of that boat.
    fn hears_of_nobody(&self, call: &Call, after: &Roster) -> Held {
        let named = burst::reported(call);
        for (slot, b) in &after.boats {
            let before = self.before.boats.get(slot);
            let new = |h: &&u8| !before.is_some_and(|b| b.hears.contains_key(*h));
            let nobody = b.hears.keys().filter(|h| !after.boats.contains_key(h));
            for h in nobody.filter(new) {
                must(named.contains(&(*slot, *h)), 1, || {
                    format!("slot {slot} hears slot {h}, where nobody is, and reported no such thing")
                })?;
            }
        }
        Ok(())
    }
}
