//! The sheet of short calls: what `edges` says of it, in outputs of 9,848 and 9,856 bytes.
use shore::short_calls;

/// What is in an output of so many bytes: calls of seven, a byte 255 where nothing was written.
fn written(bytes: usize) -> (u8, Vec<String>) {
    let mut out = vec![255; bytes];
    let refusal = short_calls(&mut out).map_or_else(|r| r.number(), |()| 0);
    let calls = out.chunks_exact(7).take_while(|c| c[0] != 255);
    (
        refusal,
        calls.map(|c| format!("  \"{}\"", String::from_utf8_lossy(c))).collect(),
    )
}

pub fn run() -> Vec<String> {
    let mut out = Vec::new();
    for bytes in [9848, 9856] {
        let (refusal, calls) = written(bytes);
        out.push(format!("  {bytes} bytes: {refusal}, calls written: {}", calls.len()));
        out.extend(calls.iter().take(3).chain(calls.last()).cloned());
    }
    out
}
