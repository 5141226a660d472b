//! A roster dump, read back (DRIVE.md).

use super::super::compare::MEMBER_FIELDS;
use super::*;

/// A boat's line. Levels, the clock, capability and version stay as they are printed.
#[derive(Clone, Debug, PartialEq)]
pub struct Boat {
    /// 14 digits.
    pub call: String,
    pub relay: u8,
    pub up: String,
    pub down: String,
    pub heard: String,
    pub missed: u32,
    pub bytes_in: u64,
    pub next: u32,
    pub bitmap: u8,
    pub burst: u8,
    pub caps: String,
    pub version: String,
    pub hears: BTreeMap<u8, String>,
    /// posted, kept and reported, where the program has the directed queue.
    pub queue: Vec<u32>,
}

#[derive(Clone, Debug, Default, PartialEq)]
pub struct Roster {
    pub boats: BTreeMap<u8, Boat>,
    pub totals: Vec<u32>,
}

const DASH: &str = "-";

fn byte(s: &str) -> Option<u8> {
    u8::from_str_radix(s, 16).ok()
}

fn number(s: &str) -> Option<u32> {
    u32::from_str_radix(s, 16).ok()
}

impl Boat {
    /// As of a fresh boat.
    pub fn fresh(call: &str, relay: u8, heard: String, queue: usize) -> Self {
        let dash = || DASH.to_string();
        Self {
            call: printed(call),
            relay,
            up: dash(),
            down: dash(),
            heard: if relay == ALL { heard } else { dash() },
            missed: 0,
            bytes_in: 0,
            next: 0,
            bitmap: 0,
            burst: 0,
            caps: dash(),
            version: dash(),
            hears: BTreeMap::new(),
            queue: vec![0; queue],
        }
    }

    /// A line: `S`, the slot, the boat's fields in DRIVE.md's order.
    fn parse(line: &str) -> Option<(u8, Self)> {
        let all: Vec<&str> = line.split(' ').collect();
        let (f, queue) = all.split_at_checked(MEMBER_FIELDS)?;
        let text = |i: usize| f[i].to_string();
        let boat = Self {
            call: text(2),
            relay: byte(f[3])?,
            up: text(4),
            down: text(5),
            heard: text(6),
            missed: number(f[7])?,
            bytes_in: u64::from_str_radix(f[8], 16).ok()?,
            next: number(f[9])?,
            bitmap: byte(f[10])?,
            burst: byte(f[11])?,
            caps: text(12),
            version: text(13),
            hears: heard_boats(f[14])?,
            queue: queue.iter().map(|s| number(s)).collect::<Option<_>>()?,
        };
        Some((byte(f[1])?, boat))
    }

    /// The boat's relay has signed off.
    pub fn lose_relay(&mut self, miss_limit: u32) {
        self.relay = ALL;
        self.up = DASH.to_string();
        self.missed = miss_limit;
    }
}

/// A call as the dump has it.
pub fn printed(call: &str) -> String {
    format!("{call:7}").bytes().map(|b| format!("{b:02x}")).collect()
}

fn heard_boats(field: &str) -> Option<BTreeMap<u8, String>> {
    if field == DASH {
        return Some(BTreeMap::new());
    }
    let pairs = field.split(',').map(|h| {
        let (slot, level) = h.split_once(':')?;
        Some((byte(slot)?, level.to_string()))
    });
    pairs.collect()
}

impl Roster {
    pub fn parse(lines: &[&str]) -> Option<Self> {
        let (last, boats) = lines.split_last()?;
        let boats: Vec<(u8, Boat)> = boats.iter().map(|l| Boat::parse(l)).collect::<Option<_>>()?;
        let in_order = boats.windows(2).all(|w| w[0].0 < w[1].0);
        let last: Vec<&str> = last.split(' ').collect();
        let ["T", ref totals @ ..] = last[..] else {
            return None;
        };
        let totals: Vec<u32> = totals.iter().map(|s| number(s)).collect::<Option<_>>()?;
        (in_order && totals.len() == 5).then(|| Self {
            boats: boats.into_iter().collect(),
            totals,
        })
    }

    pub fn lowest_free(&self) -> Option<u8> {
        (0..MAX_MEMBERS as u8).find(|s| !self.boats.contains_key(s))
    }

    pub fn knows(&self, call: &str) -> bool {
        let call = printed(call);
        self.boats.values().any(|b| b.call == call)
    }

    /// The first boat that is not the same in both, in words.
    pub fn difference(&self, other: &Self) -> String {
        let slots = (0..=255).filter(|s| self.boats.get(s) != other.boats.get(s));
        match slots.into_iter().next() {
            Some(s) => format!("slot {s}: {:?}, not {:?}", other.boats.get(&s), self.boats.get(&s)),
            None => format!("totals {:x?}, not {:x?}", other.totals, self.totals),
        }
    }
}
