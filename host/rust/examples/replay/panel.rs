//! What `panel` says of the station in plain words: the silent boats, the boat in a slot, who hears whom, the worst level, the month's dues.
use crate::Lines;
use shore::{Entry, Refusal, Station};

/// A word asks a question of the panel's: its bits above the lowest four.
pub fn is_asked(rest: u32) -> bool {
    match rest & 15 {
        0 | 3 => rest < 16,
        1 | 4 => rest < 1 << 12,
        2 => rest < 1 << 20,
        5 => true,
        _ => false,
    }
}

fn level(x: Option<f32>) -> String {
    let Some(d) = x else {
        return "unheard".to_string();
    };
    let hundredths = (f64::from(d).abs() * 100.0).round() as u16;
    let sign = if d.is_sign_negative() { "-" } else { "" };
    format!("{sign}{}.{:02} dB", hundredths / 100, hundredths % 100)
}

/// A slot and its boat's call, as far as its first space.
fn named(slot: u8, e: &Entry) -> String {
    let call = e.call.split(|b| *b == b' ').next().unwrap_or(&[]);
    format!("slot {slot} ({})", String::from_utf8_lossy(call))
}

fn boat(s: &Station, slot: u8, now: f64) -> String {
    let Some(e) = s.entry(slot) else {
        return format!("slot {slot}: nobody");
    };
    let relay = e.relay.map_or("direct".to_string(), |r| format!("by relay {r}"));
    let heard = e.last_heard.map_or("never heard".to_string(), |t| {
        format!("last heard {} s ago", (now - t).round() as u16)
    });
    let capability = e.capability.map_or(String::new(), |c| format!(", capability {c}"));
    let version = e.version.map_or(String::new(), |v| format!(", version {v}"));
    let levels = format!("up {}, down {}, level cap {}", level(e.up), level(e.down), e.cap);
    let counts = format!("missed {}, bytes in {}", e.missed, e.bytes_in);
    format!(
        "{}: {relay}, {levels}, {heard}, {counts}{capability}{version}",
        named(slot, &e)
    )
}

/// The answer to a question of one word.
pub fn answer(s: &Station, rest: u32, now: f64) -> Lines {
    let (slot, other) = ((rest >> 4) as u8, (rest >> 12) as u8);
    Ok(vec![match rest & 15 {
        0 => format!("silent boats: {}", s.silent()),
        1 => boat(s, slot, now),
        2 => format!("slot {slot} hears slot {other}: {}", level(s.hears(slot, other))),
        _ => format!("slot {slot}: worst of the last 32 levels: {}", level(s.worst(slot)?)),
    }])
}

/// So often a message of 2,046 zeros is posted to a boat, which then reports, with no level, that it has all that was posted to it.
pub fn fill(s: &mut Station, rest: u32, level: f32, time: f64) -> Lines {
    let slot = (rest >> 4) as u8;
    let frame = 0xa000_800c | u32::from(slot & 63) << 8;
    let report = 0xc003_003f | u32::from(slot) << 8;
    let words = [0x8060_0000, frame, 0xb000_0000, report, 0xc000_0000, 0xc000_0000, 0xc0ff_ffff];
    for _ in 0..rest >> 12 {
        s.post(slot, &[0; 2046])?;
        // A report that is refused, for its clock or level, is no answer of the filling's.
        let _ = s.receive(&words, level, time);
    }
    Ok(Vec::new())
}

/// The dues, a line for each boat, then the port's takings.
pub fn dues(s: &Station, figures: &[u32]) -> Result<Vec<String>, Refusal> {
    let d = s.dues(figures)?;
    let due = |slot: u8| {
        let (e, i) = (s.entry(slot)?, usize::from(slot));
        Some(format!(
            "{}: charge {} cents, credit {} cents",
            named(slot, &e),
            d.charges[i],
            d.credits[i]
        ))
    };
    Ok((0..shore::SLOTS)
        .filter_map(due)
        .chain([format!("takings: {} cents", d.takings)])
        .collect())
}
