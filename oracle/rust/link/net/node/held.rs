//! `oracle held`: a script of `oracle day` and a program's lines for it, held to what must be so after each call
//! (README.md, rules 1 to 8), read off the roster dumps alone. The Rust has no sign-off, so it plays no part here.

use super::drive::command::*;
use super::settings::{MAX_CELLS, Settings};
use super::words::*;
use super::*;

mod burst;
mod calls;
pub mod damaged;
mod roster;
mod sendings;
mod stay;

use roster::{Boat, Roster};
use stay::Stay;

/// The panel's question for the silent boats, and its answer before the number.
pub const SILENT: u32 = 7 << 28 | 15;
const SILENT_BOATS: &str = "silent boats: ";

/// A rule that does not hold; 0 where the lines do not fit the script.
#[derive(Debug, PartialEq)]
pub struct Broken {
    pub rule: u8,
    pub what: String,
}

type Held = Result<(), Broken>;

fn broken<T>(rule: u8, what: impl Into<String>) -> Result<T, Broken> {
    let what = what.into();
    Err(Broken { rule, what })
}

fn must(holds: bool, rule: u8, what: impl FnOnce() -> String) -> Held {
    if holds { Ok(()) } else { broken(rule, what()) }
}

/// What a script had.
#[derive(Debug, Default)]
pub struct Tally {
    calls: usize,
    signed_off: usize,
    refused: usize,
    admitted: usize,
    most: usize,
    /// Messages landed, and those of number 0 of a boat whose slot had another before it.
    landed: usize,
    zeros: usize,
    /// Boats whose relay signed off.
    orphans: usize,
    most_silent: usize,
}

/// A call, and the lines behind it up to its roster.
struct Call<'a> {
    command: u32,
    rest: u32,
    words: &'a [u32],
    lines: &'a [&'a str],
}

struct Walk<'a> {
    /// Lines not read yet.
    lines: &'a [&'a str],
    call: Option<Call<'a>>,
    now: f64,
    miss_limit: u32,
    /// By cell, the slot and the bytes of the message that landed there.
    cells: Vec<Option<(u8, Vec<u8>)>>,
    before: Roster,
    stays: BTreeMap<u8, Stay>,
    /// Slots that somebody has left.
    left: BTreeSet<u8>,
    tally: Tally,
}

/// What the script had, or the first rule broken and where its command stands, in words.
pub fn held(script: &[u32], answers: &str) -> Result<Tally, (usize, Broken)> {
    let lines: Vec<&str> = answers.lines().map(str::trim_end).collect();
    let mut walk = Walk::new(&lines);
    let mut at = 0;
    for part in script.chunk_by(|_, next| !is_command(*next)) {
        walk.command(part[0], &part[1..]).map_err(|b| (at, b))?;
        at += part.len();
    }
    walk.end().map_err(|b| (at, b))?;
    Ok(walk.tally)
}

/// The program: whether all rules hold; the last line says so, or which one does not.
pub fn run(script: &str, answers: &str) -> bool {
    let script = std::fs::read(script).expect(script);
    let words: Words = script
        .as_chunks::<4>()
        .0
        .iter()
        .map(|w| u32::from_be_bytes(*w))
        .collect();
    let answers = String::from_utf8_lossy(&std::fs::read(answers).expect(answers)).into_owned();
    match held(&words, &answers) {
        Ok(t) => {
            println!(
                "{} sign-offs refused, {} boats lost their relay, most silent {}; {} messages, {} of number 0 of a slot's later holder",
                t.refused, t.orphans, t.most_silent, t.landed, t.zeros
            );
            println!(
                "{} calls, {} sign-offs, {} admissions, most boats at once {}; 0 broken",
                t.calls, t.signed_off, t.admitted, t.most
            );
            true
        }
        Err((at, b)) => {
            println!(
                "rule {} broken, command at word {at} (byte {}): {}",
                b.rule,
                4 * at,
                b.what
            );
            false
        }
    }
}

impl<'a> Walk<'a> {
    fn new(lines: &'a [&'a str]) -> Self {
        Self {
            lines,
            call: None,
            now: 0.0,
            miss_limit: Settings::tape().miss_limit,
            cells: vec![None; 10],
            before: Roster::default(),
            stays: BTreeMap::new(),
            left: BTreeSet::new(),
            tally: Tally::default(),
        }
    }

    fn command(&mut self, word: u32, words: &'a [u32]) -> Held {
        match (word >> 28, word & 15) {
            (14, _) => self.now = (word & 0x0FFF_FFFF) as f64 / 8.0,
            (7, CLOCK) => self.now = clock_of(words).map_or_else(|| broken(0, "no clock"), Ok)?,
            (15, _) | (7, LEVEL) => {}
            (7, ROSTER) => return self.roster(),
            (7, 15) if word == SILENT => return self.silent(),
            (7, NEXT..=FREE | START | SIGN_OFF) => return self.open(word, words),
            _ => return broken(0, "a word that no day has"),
        }
        Ok(())
    }

    /// A call: its lines end where its roster begins.
    fn open(&mut self, word: u32, words: &'a [u32]) -> Held {
        must(self.call.is_none(), 0, || "no roster behind the call before".into())?;
        let ends = |l: &&str| l.starts_with("S ") || l.starts_with("T ");
        let n = self.lines.iter().position(ends).unwrap_or(self.lines.len());
        let (lines, rest) = self.lines.split_at(n);
        self.lines = rest;
        self.call = Some(Call {
            command: word & 15,
            rest: word >> 4 & 0xFF_FFFF,
            words,
            lines,
        });
        self.tally.calls += 1;
        Ok(())
    }

    /// A roster: what the call before it must have done, then what must hold of any.
    fn roster(&mut self) -> Held {
        let n = self.lines.iter().take_while(|l| l.starts_with("S ")).count();
        must(n < self.lines.len(), 0, || "a roster is missing".into())?;
        let (mine, rest) = self.lines.split_at(n + 1);
        self.lines = rest;
        let after = Roster::parse(mine).map_or_else(|| broken(0, "lines that are no roster"), Ok)?;
        match self.call.take() {
            Some(call) => self.judge(&call, &after)?,
            None => self.unchanged(&after)?,
        }
        self.links_end(&after)?;
        self.totals_grow(&after)?;
        self.own_messages(&after)?;
        self.tally.most = self.tally.most.max(after.boats.len());
        self.tally.most_silent = self.tally.most_silent.max(self.silent_boats(&after));
        self.before = after;
        Ok(())
    }

    fn silent_boats(&self, roster: &Roster) -> usize {
        roster.boats.values().filter(|b| b.missed >= self.miss_limit).count()
    }

    /// Rule 5.
    fn silent(&mut self) -> Held {
        must(self.call.is_none(), 0, || "no roster before the question".into())?;
        let Some((first, rest)) = self.lines.split_first() else {
            return broken(0, "the silent boats are missing");
        };
        self.lines = rest;
        let n = self.silent_boats(&self.before);
        must(*first == format!("{SILENT_BOATS}{n}"), 5, || {
            format!("`{first}`, and {n} boats are at the miss limit")
        })
    }

    fn end(&mut self) -> Held {
        must(self.call.is_none(), 0, || "no roster behind the last call".into())?;
        must(self.lines.is_empty(), 0, || "lines behind the last command's".into())
    }

    /// Rule 4: relays lead from boat to boat to one without a relay.
    fn links_end(&self, after: &Roster) -> Held {
        for &from in after.boats.keys() {
            let mut at = from;
            let ends = (0..MAX_MEMBERS).any(|_| {
                at = after.boats.get(&at).map_or(at, |b| b.relay);
                at == ALL
            });
            must(ends, 4, || {
                format!("relays from slot {from} lead to nobody, or round: slot {at}")
            })?;
        }
        Ok(())
    }

    /// Rule 6.
    fn totals_grow(&self, after: &Roster) -> Held {
        let grown = self.before.totals.iter().zip(&after.totals).all(|(a, b)| a <= b);
        must(grown, 6, || {
            format!("totals {:x?} behind {:x?}", after.totals, self.before.totals)
        })
    }

    /// Rule 7: bytes and numbers are those of the messages that landed since the boat came.
    fn own_messages(&self, after: &Roster) -> Held {
        for (slot, b) in &after.boats {
            let stay = self.stays.get(slot).map_or_else(Stay::default, Clone::clone);
            let (own, shown) = (stay.shown(), (b.bytes_in, b.next, b.bitmap));
            must(own == shown, 7, || {
                format!("slot {slot} shows bytes, next and bitmap {shown:x?}, its messages make {own:x?}")
            })?;
        }
        Ok(())
    }
}

fn clock_of(words: &[u32]) -> Option<f64> {
    let bytes = payload(words).ok()?;
    Some(f64::from_le_bytes(bytes.try_into().ok()?))
}
