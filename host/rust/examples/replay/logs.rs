//! The turn check of logs: lines of eight hexadecimal digits, an empty line behind each log.
use shore::turn_check;

/// A line that is no word counts as a malformed one.
fn word(line: &str) -> u32 {
    let digits = line.len() == 8 && line.bytes().all(|b| b.is_ascii_hexdigit());
    if digits {
        u32::from_str_radix(line, 16).unwrap_or(0)
    } else {
        0
    }
}

fn verdict(log: &[u32]) -> String {
    match turn_check(log) {
        Ok(true) => "accepted".to_string(),
        Ok(false) => "not accepted".to_string(),
        Err(r) => format!("refused, {}", r.number()),
    }
}

pub fn run(text: &str) -> Vec<String> {
    let (mut log, mut out) = (Vec::new(), Vec::new());
    for line in text.lines() {
        if line.is_empty() {
            out.push(verdict(&log));
            log.clear();
        } else {
            log.push(word(line));
        }
    }
    if !log.is_empty() {
        out.push(verdict(&log));
    }
    out
}
