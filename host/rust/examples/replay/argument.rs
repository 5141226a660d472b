//! The frames that are a command's argument, and the numbers in them, lowest byte first.
use shore::{Frame, Frames, Heard, Plan};

/// The frame that stands at the front of words, if it is well formed, and the words behind it.
fn frame_in(words: &[u32]) -> Option<(Frame, &[u32])> {
    let mut frames = Frames::new(words);
    let f = frames.next()?;
    let rest = frames.raw();
    let written = Heard::burst(0, 0).frame(f.flags, f.field, &f.payload);
    (words[..words.len() - rest.len()] == written.words()[1..]).then_some((f, rest))
}

/// The one frame that the words are.
pub fn only_frame(words: &[u32]) -> Option<Frame> {
    frame_in(words).filter(|(_, rest)| rest.is_empty()).map(|(f, _)| f)
}

/// Its payload, where flags and field are 0.
pub fn payload(words: &[u32]) -> Option<Vec<u8>> {
    only_frame(words)
        .filter(|f| f.flags == 0 && f.field == 0)
        .map(|f| f.payload)
}

/// The frames' payloads joined, 2,300 bytes at most, and the flags that all of them have.
pub fn message(words: &[u32]) -> Option<(u8, Vec<u8>)> {
    let (first, _) = frame_in(words)?;
    let (mut message, mut left) = (Vec::new(), words);
    while !left.is_empty() {
        let (f, rest) = frame_in(left)?;
        message.extend(&f.payload);
        if f.flags != first.flags || f.field != 0 || message.len() > 2300 {
            return None;
        }
        left = rest;
    }
    Some((first.flags, message))
}

/// The numbers of four bytes that a payload is.
pub fn numbers(p: &[u8]) -> Option<Vec<u32>> {
    let number = |b: &[u8]| u32::from_le_bytes([b[0], b[1], b[2], b[3]]);
    (p.len() % 4 == 0).then(|| p.chunks_exact(4).map(number).collect())
}

/// None for a NaN's pattern.
pub fn f64_at(p: &[u8], at: usize) -> Option<f64> {
    let x = f64::from_le_bytes(p.get(at..at + 8)?.try_into().ok()?);
    Some(x).filter(|x| !x.is_nan())
}

pub fn f32_at(p: &[u8], at: usize) -> Option<f32> {
    let x = f32::from_le_bytes(p.get(at..at + 4)?.try_into().ok()?);
    Some(x).filter(|x| !x.is_nan())
}

/// The settings of a start, 199 bytes; durations and payloads of data bursts are those of `held`.
pub fn plan(p: &[u8], held: &Plan) -> Option<Plan> {
    let mut plan = held.clone();
    plan.turnaround = f64_at(p, 0)?;
    plan.max_burst = f64_at(p, 8)?;
    plan.reply_slack = f64_at(p, 16)?;
    plan.detect = f64_at(p, 24)?;
    plan.beacon_every = f64_at(p, 32)?;
    plan.quick_beacon = f64_at(p, 40)?;
    plan.idle_round_gap = f64_at(p, 48)?;
    for (i, d) in plan.durations.iter_mut().enumerate() {
        *d = f64_at(p, 56 + 8 * i)?;
    }
    for (i, t) in plan.thresholds.iter_mut().enumerate() {
        *t = f32_at(p, 88 + 4 * i)?;
    }
    plan.margin = f32_at(p, 156)?;
    plan.relay_snr = f32_at(p, 160)?;
    plan.miss_limit = u32::from_le_bytes(p[164..168].try_into().ok()?);
    plan.beacon_level = p[168];
    plan.window_slots = p[169];
    plan.call = p[170..175].try_into().ok()?;
    plan.name = p[175..181].try_into().ok()?;
    plan.prime = p[182] != 0;
    plan.lead = f64_at(p, 183)?;
    plan.latency = f64_at(p, 191)?;
    Some(plan)
}
