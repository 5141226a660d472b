//! The station for a shore set in Rust: a safe wrapper over `libshore.a` (docs/HOST.md).
//!
//! A [`Station`] owns its block, its store, its directed queue and its output; a [`Sender`] is the sending end as a boat has it.
//! What they say, events and bursts, is read from their words by [`Words`]; what was heard is written by [`Heard`].
mod ffi;
mod refusal;
mod sender;
mod station;
mod words;

pub use ffi::{Counts, Totals};
pub use refusal::Refusal;
pub use sender::Sender;
pub use station::{Dues, Entry, Plan, Received, Station};
pub use words::{Burst, Event, Frame, Frames, Heard, Item, Sending, Words};

/// Bytes of store for each message cell.
pub const CELL: usize = 6400;
/// Cells that are used at most.
pub const CELLS: usize = 64;
/// Words of output.
pub const OUT: usize = 8192;
/// Bytes of the directed queue.
pub const QUEUE: usize = 126976;
/// Bytes of the sheet of short calls.
pub const SHEET: usize = 9849;
/// Boats in a net: slots 0 to 61.
pub const SLOTS: u8 = 62;
/// A frame to everyone.
pub const EVERYONE: u8 = 63;

/// Whether the turns of a log keep to the lists of its rounds.
pub fn turn_check(words: &[u32]) -> Result<bool, Refusal> {
    let c = unsafe { ffi::shore_turn_check(words.as_ptr(), words.len()) };
    Refusal::check(c.refusal)?;
    Ok(c.accepted != 0)
}

/// The sheet of short calls, to the front of an output of at least [`SHEET`] bytes.
pub fn short_calls(out: &mut [u8]) -> Result<(), Refusal> {
    Refusal::check(unsafe { ffi::shore_short_calls(out.as_mut_ptr(), out.len()) })
}
