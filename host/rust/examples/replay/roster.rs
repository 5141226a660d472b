//! The roster as `drive` prints it: a line for each member, then the totals.
use shore::Station;

/// What is known, by its digits, or a dash.
fn known<T>(x: Option<T>, digits: impl Fn(T) -> String) -> String {
    x.map_or("-".to_string(), digits)
}

/// Every NaN has the digits of one.
fn bits32(x: f32) -> String {
    format!("{:08x}", if x.is_nan() { 0x7fc0_0000 } else { x.to_bits() })
}

fn bits64(x: f64) -> String {
    format!("{:016x}", if x.is_nan() { 0x7ff8_0000_0000_0000 } else { x.to_bits() })
}

fn byte(x: u8) -> String {
    format!("{x:02x}")
}

/// Whom the boat in a slot hears, members or not.
fn hears(s: &Station, slot: u8) -> Option<String> {
    let heard = (0..shore::SLOTS).map(|a| (a, s.hears_field(slot, a)));
    let list: Vec<String> = heard
        .filter(|(_, q)| *q < 63)
        .map(|(a, q)| format!("{a:02x}:{}", bits32(f32::from(q) - 24.0)))
        .collect();
    (!list.is_empty()).then(|| list.join(","))
}

fn boat(s: &Station, slot: u8) -> Option<String> {
    let (e, c) = (s.entry(slot)?, s.numbers(slot));
    let fields = [
        byte(slot),
        e.call.map(byte).concat(),
        byte(e.relay.unwrap_or(shore::EVERYONE)),
        known(e.up, bits32),
        known(e.down, bits32),
        known(e.last_heard, bits64),
        format!("{:08x} {:016x}", e.missed, e.bytes_in),
        format!("{:08x} {:02x} {:02x}", c.next, c.bitmap, c.burst),
        known(e.capability, byte),
        known(e.version, byte),
        known(hears(s, slot), |list| list),
        format!("{:08x} {:08x} {:08x}", c.posted, c.kept, c.reported),
    ];
    Some(format!("S {}", fields.join(" ")))
}

pub fn lines(s: &Station) -> Vec<String> {
    let t = s.totals();
    let totals = format!(
        "T {:08x} {:08x} {:08x} {:08x} {:08x}",
        t.polls, t.relays, t.rxlists, t.rounds, t.replies
    );
    (0..shore::SLOTS)
        .filter_map(|slot| boat(s, slot))
        .chain([totals])
        .collect()
}
