//! `outbox` (DRIVE.md): the sending end over the Rust's `Outbox`.

use super::cells::MAX_MESSAGE;
use super::player::Program;
use super::words::*;
use super::*;

/// The command words of `outbox`, bits 3-0.
pub mod command {
    pub const POST: u32 = 0;
    pub const TAKE: u32 = 1;
    pub const STALE: u32 = 2;
    pub const ACK: u32 = 3;
    pub const HELD: u32 = 4;
    pub const PENDING: u32 = 5;
    pub const HAS_NEW: u32 = 6;
}
use command::*;

/// Messages held at once.
pub const MAX_HELD: usize = 8;
/// Pieces in one burst.
pub const MAX_PIECES: usize = 64;

#[derive(Default)]
pub struct Sender {
    outbox: Outbox,
    /// The pieces taken last, for the generator: message, offset, bytes.
    pub burst: Vec<(u32, usize, Vec<u8>)>,
}

impl Program for Sender {
    fn takes_words(&self, command: u32) -> bool {
        matches!(named(command), Some((POST | ACK | HELD, _)))
    }

    fn is_call(&self, command: u32) -> bool {
        named(command).is_some()
    }

    fn run(&mut self, command: u32, words: &[u32]) -> Result<Vec<String>, Refusal> {
        let (command, rest) = named(command).ok_or(MALFORMED)?;
        match command {
            POST => self.post(words)?,
            TAKE => return self.take((rest & 255) as usize, (rest >> 8) as usize),
            STALE => self.outbox.stale(),
            ACK => {
                let [seq, off] = <[u32; 2]>::try_from(numbers(words)?).map_err(|_| MALFORMED)?;
                self.outbox.ack(seq, off as usize);
            }
            HELD => {
                let numbers = numbers(words)?;
                let (&next, also) = numbers.split_first().ok_or(MALFORMED)?;
                self.outbox.held(next, also);
            }
            PENDING => return Ok(vec![format!("P {:08X}", self.outbox.pending())]),
            _ => return Ok(vec![format!("N {}", self.outbox.has_new() as u8)]),
        }
        Ok(Vec::new())
    }
}

impl Sender {
    fn post(&mut self, words: &[u32]) -> Result<(), Refusal> {
        let (flags, data) = message(words)?;
        if flags != 0 {
            return Err(MALFORMED);
        }
        if data.len() > MAX_MESSAGE {
            return Err(29);
        }
        if self.messages() == MAX_HELD {
            return Err(28);
        }
        self.outbox.push_msg(&data);
        Ok(())
    }

    fn take(&mut self, max: usize, wanted: usize) -> Result<Vec<String>, Refusal> {
        if max == 0 || wanted > MAX_PIECES {
            return Err(5);
        }
        self.burst = self.outbox.take(max, wanted);
        let words: Words = self
            .burst
            .iter()
            .flat_map(|(seq, off, data)| frame_words(0, msg_field(*seq, *off), data))
            .collect();
        Ok(hex_lines(&words))
    }

    /// How many messages are held. `Outbox` tells it in its Debug form only.
    fn messages(&self) -> usize {
        format!("{:?}", self.outbox).matches("OutMsg {").count()
    }
}

/// A command word's number and its other bits, if it is well formed.
fn named(word: u32) -> Option<(u32, u32)> {
    let (command, rest) = (word & 15, word >> 4 & 0xFF_FFFF);
    let named = word >> 28 == 7
        && match command {
            TAKE => rest < 1 << 16,
            POST..=HAS_NEW => rest == 0,
            _ => false,
        };
    named.then_some((command, rest))
}

/// A command's argument: one frame of numbers, lowest byte first.
fn numbers(words: &[u32]) -> Result<Vec<u32>, Refusal> {
    let payload = payload(words)?;
    let (numbers, rest) = payload.as_chunks::<4>();
    if !rest.is_empty() {
        return Err(MALFORMED);
    }
    Ok(numbers.iter().map(|b| u32::from_le_bytes(*b)).collect())
}
