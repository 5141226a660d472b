//! A reception: who comes by it, and which messages land.

use super::*;

/// Pairs of slots that reports name: whose, and whom it hears.
pub fn reported(call: &Call) -> BTreeSet<(u8, u8)> {
    let mut named = BTreeSet::new();
    if call.command == RECEIVE
        && let Some(b) = parse_burst(call.words)
    {
        for f in b.frames.iter().flatten().filter(|f| is_control(f, C_REPORT)) {
            let pairs = f.payload.get(12..).unwrap_or(&[]).as_chunks::<2>().0;
            named.extend(pairs.iter().map(|p| (f.payload[1], p[0])));
        }
    }
    named
}

fn is_control(f: &Frame, kind: u8) -> bool {
    f.flags >> 6 == T_CTRL && f.payload.first() == Some(&kind)
}

/// What is expected of a reception, frame by frame.
struct Expected {
    /// Boats by slot: those before, then those that come. The calls as printed.
    boats: BTreeMap<u8, String>,
    /// Events 1 and 2 in their order: the slot, and of a message number and bytes.
    events: Vec<(u8, Option<(u32, Vec<u8>)>)>,
    /// By call as printed, capability and version that the burst names.
    told: BTreeMap<String, Vec<(String, String)>>,
}

impl Walk<'_> {
    pub fn receive(&mut self, call: &Call, after: &Roster) -> Held {
        let Some(b) = parse_burst(call.words) else {
            return broken(0, "a burst that no day has");
        };
        let (events, mask) = answer(call.lines).map_or_else(|| broken(0, "lines that are no reception's"), Ok)?;
        let expected = self.expect(&b, mask);
        self.come_and_land(&expected, &events)?;
        let calls = after.boats.iter().map(|(s, b)| (*s, b.call.clone())).collect();
        must(expected.boats == calls, 3, || {
            format!("the roster has {calls:?}, not {:?}", expected.boats)
        })?;
        let new = after.boats.iter().filter(|(s, _)| !self.before.boats.contains_key(s));
        for (&slot, boat) in new {
            blank(slot, boat, &b, &expected)?;
        }
        Ok(())
    }

    /// Reads the frames in order: unknown calls take the lowest free slot, kept pieces make messages.
    fn expect(&mut self, b: &Burst, mask: u64) -> Expected {
        let mut e = Expected {
            boats: self.before.boats.iter().map(|(s, b)| (*s, b.call.clone())).collect(),
            events: Vec::new(),
            told: BTreeMap::new(),
        };
        let frames = if b.code == TINY { &[][..] } else { &b.frames[..] };
        for (i, f) in frames.iter().enumerate() {
            let Some(f) = f else { continue };
            let slot = f.flags & 63;
            if is_control(f, C_CHECKIN) && f.payload.len() >= 10 {
                let p = &f.payload;
                self.newcomer(&mut e, &p[1..6], p[7], p[9]);
            } else if is_control(f, C_OVERHEARD) {
                for p in f.payload[1..].as_chunks::<8>().0 {
                    self.newcomer(&mut e, &p[..5], p[6], p[7]);
                }
            } else if f.flags >> 6 == T_UP
                && mask >> i & 1 == 0
                && e.boats.contains_key(&slot)
                && let Some(landed) = self.stays.entry(slot).or_default().piece(f.field, &f.payload)
            {
                e.events.push((slot, Some(landed)));
            }
        }
        e
    }

    fn newcomer(&mut self, e: &mut Expected, packed: &[u8], caps: u8, version: u8) {
        let call = roster::printed(&unpack_call(packed));
        let told = (format!("{:02x}", caps & 31), format!("{version:02x}"));
        e.told.entry(call.clone()).or_default().push(told);
        let free = (0..MAX_MEMBERS as u8).find(|s| !e.boats.contains_key(s));
        if let Some(slot) = free.filter(|_| e.boats.values().all(|c| *c != call)) {
            e.boats.insert(slot, call);
            e.events.push((slot, None));
            self.comes(slot);
        }
    }

    /// Rules 3 and 7: the events 1 and 2 are those expected, and no others.
    fn come_and_land(&mut self, expected: &Expected, events: &[u32]) -> Held {
        let mut events = events.iter().filter(|w| matches!(**w >> 28, 1 | 2));
        for (slot, message) in &expected.events {
            let event = events.next().copied().unwrap_or(0);
            let (kind, rule) = if message.is_some() { (2, 7) } else { (1, 3) };
            let its = event >> 28 == kind && event as u8 & 63 == *slot;
            must(its, rule, || {
                format!("event {kind} of slot {slot} expected, not {event:08X}")
            })?;
            if let Some((number, data)) = message {
                self.land(*slot, *number, data, event)?;
            }
        }
        match events.next() {
            None => Ok(()),
            Some(w) => broken(if w >> 28 == 1 { 3 } else { 7 }, format!("event {w:08X} of nothing")),
        }
    }

    fn land(&mut self, slot: u8, number: u32, data: &[u8], event: u32) -> Held {
        let cell = (event >> 6 & 127) as usize;
        must(event >> 13 & 255 == number & 255, 7, || {
            format!("{event:08X} is of another number than {number}")
        })?;
        let free = self.cells.get(cell).is_some_and(Option::is_none);
        must(free, 7, || format!("{event:08X}: no such cell, or one not freed"))?;
        self.cells[cell] = Some((slot, data.to_vec()));
        self.tally.landed += 1;
        self.tally.zeros += (number == 0 && self.left.contains(&slot)) as usize;
        Ok(())
    }
}

/// Rule 3: a boat that came by a burst has nothing but what that burst says.
fn blank(slot: u8, boat: &Boat, b: &Burst, e: &Expected) -> Held {
    let frames = || b.frames.iter().flatten();
    let reports = frames().any(|f| is_control(f, C_REPORT) && f.payload.get(1) == Some(&slot));
    let overhears = frames().any(|f| is_control(f, C_OVERHEARD) && f.flags & 63 == slot);
    let children = frames().any(|f| is_control(f, C_KIDS));
    let told = (boat.caps.clone(), boat.version.clone());
    let faults = [
        (boat.burst != 0, "a burst number"),
        (boat.missed != 0 && !children, "missed turns"),
        (!boat.hears.is_empty() && !reports && !overhears, "boats it hears"),
        (boat.queue.iter().any(|&n| n != 0) && !reports, "posted bytes"),
        (!e.told[&boat.call].contains(&told), "another capability or version"),
    ];
    let fault = faults.iter().find(|f| f.0);
    must(fault.is_none(), 3, || {
        format!("slot {slot} is new and has {}: {boat:?}", fault.unwrap().1)
    })
}

/// A reception's words, and its mask.
fn answer(lines: &[&str]) -> Option<(Words, u64)> {
    let (words, masks) = lines.split_at_checked(lines.len().checked_sub(2)?)?;
    let words: Words = words
        .iter()
        .map(|l| u32::from_str_radix(l, 16).ok())
        .collect::<Option<_>>()?;
    let half = |l: &str| u64::from_str_radix(l.strip_prefix("M ")?, 16).ok();
    let events = words.into_iter().take_while(|w| w >> 28 != 8).collect();
    Some((events, half(masks[0])? << 32 | half(masks[1])?))
}
