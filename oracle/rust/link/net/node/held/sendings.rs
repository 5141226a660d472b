//! Rule 8: what the station says names only boats that are there.

use super::*;

/// The events and the sending of a call, against the roster behind it.
pub fn name_boats(call: &Call, after: &Roster) -> Held {
    let words: Words = call
        .lines
        .iter()
        .filter_map(|l| u32::from_str_radix(l, 16).ok())
        .collect();
    let n = words.iter().position(|w| w >> 28 == 8).unwrap_or(words.len());
    let (events, sending) = words.split_at(n);
    for &w in events.iter().filter(|w| *w >> 28 != 0) {
        let relay = if matches!(w >> 28, 1 | 4 | 5) {
            w >> 6 & 63
        } else {
            ALL as u32
        };
        let there = is_boat(after, w as u8 & 63) && (relay == ALL as u32 || is_boat(after, relay as u8));
        must(there, 8, || format!("event {w:08X} names nobody"))?;
    }
    if sending.is_empty() {
        return Ok(());
    }
    let burst: Words = sending.iter().copied().filter(|w| w >> 28 != 9).collect();
    let b = parse_burst(&burst).map_or_else(|| broken(0, "words that are no sending"), Ok)?;
    if b.code == TINY {
        return tiny(&b, after);
    }
    let control = b.frames.iter().flatten().filter(|f| f.flags >> 6 == T_CTRL);
    control.map(|f| &f.payload[..]).try_for_each(|p| rows(p, after))
}

fn is_boat(roster: &Roster, slot: u8) -> bool {
    roster.boats.contains_key(&slot)
}

/// A burst without frames: whom it polls, acknowledges, or asks for.
fn tiny(b: &Burst, after: &Roster) -> Held {
    let (slot, source) = (b.extra as u8 & 63, (b.extra >> 6) as u8 & 63);
    let there = match b.hi {
        K_CLOSE => true,
        K_RELAY => is_boat(after, slot) && is_boat(after, source),
        _ => is_boat(after, slot),
    };
    must(there, 8, || format!("a sending {} names nobody: {:04X}", b.hi, b.extra))
}

/// Rows of members, of what was received, and of the tree.
fn rows(payload: &[u8], after: &Roster) -> Held {
    let Some((kind, rest)) = payload.split_first() else {
        return Ok(());
    };
    let size = match *kind {
        C_ACKS => 6,
        C_RXLIST => 3,
        C_TREE => 2,
        _ => return Ok(()),
    };
    for row in rest.chunks(size) {
        let true_of = |b: &Boat| match *kind {
            C_ACKS => b.call == roster::printed(&unpack_call(&row[1..6])),
            C_TREE => b.relay == row[1],
            _ => true,
        };
        must(after.boats.get(&row[0]).is_some_and(true_of), 8, || {
            format!("a list's row {row:x?} is of no boat, or not true of it")
        })?;
    }
    Ok(())
}
