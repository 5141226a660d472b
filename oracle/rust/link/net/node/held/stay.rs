//! The messages of one boat since it came: what has arrived of them, and which have landed.

use super::*;

#[derive(Clone, Debug, Default)]
pub struct Stay {
    landed: BTreeSet<u32>,
    bytes: u64,
    /// By number, the bytes that have arrived, by offset.
    filling: BTreeMap<u32, BTreeMap<usize, u8>>,
}

impl Stay {
    /// The first number that has not landed.
    fn next(&self) -> u32 {
        (0..).find(|n| !self.landed.contains(n)).unwrap()
    }

    /// Bytes, next and bitmap as a roster has them.
    pub fn shown(&self) -> (u64, u32, u8) {
        let next = self.next();
        let marks = (0..8).filter(|i| self.landed.contains(&(next + 1 + i)));
        (self.bytes, next, marks.fold(0, |a, i| a | 1 << i))
    }

    /// A piece that is kept. If its message is whole now, it lands: number and bytes.
    pub fn piece(&mut self, field: u32, data: &[u8]) -> Option<(u32, Vec<u8>)> {
        let next = self.next();
        let ahead = (field >> 16).wrapping_sub(next) & 255;
        let number = next + ahead;
        // From 128 on it is an older number.
        if ahead > 127 || self.landed.contains(&number) {
            return None;
        }
        let message = self.filling.entry(number).or_default();
        let offset = (field & 0xFFFF) as usize;
        message.extend(data.iter().enumerate().map(|(i, &b)| (offset + i, b)));
        let whole = whole(message)?;
        self.filling.remove(&number);
        self.landed.insert(number);
        self.bytes += whole.len() as u64;
        Some((number, whole))
    }
}

/// The message without its two bytes of length, if all of it is there.
fn whole(message: &BTreeMap<usize, u8>) -> Option<Vec<u8>> {
    let length = u16::from_le_bytes([*message.get(&0)?, *message.get(&1)?]) as usize;
    (2..2 + length).map(|i| message.get(&i).copied()).collect()
}
