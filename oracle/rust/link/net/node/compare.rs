//! `oracle compare`: the oracle's answers to a script against another program's.

use super::drive::LOOP_DIFFERENCE;
use super::options::Options;
use super::words::Lines;
use super::*;

/// Fields of a member's line in the roster before those of the queue.
pub const MEMBER_FIELDS: usize = 15;

/// Case and blanks at the end do not count, and without posts the queue's fields of the roster.
fn normal(line: &str, options: &Options) -> String {
    let line = line.trim_end().to_ascii_uppercase();
    if options.noposts && line.starts_with("S ") {
        let fields: Vec<&str> = line.split(' ').take(MEMBER_FIELDS).collect();
        return fields.join(" ");
    }
    line
}

/// Whether they are equal, up to a line of the oracle's that ends the comparison; then how many calls the script has is printed last.
pub fn compare(options: &Options, script: &str, answers: &str) -> bool {
    let (ours, calls) = options.program.counted(&std::fs::read(script).expect(script));
    let alike = alike(options, &ours, answers);
    if alike {
        println!("{calls} calls");
    }
    alike
}

fn alike(options: &Options, ours: &Lines, answers: &str) -> bool {
    let theirs = String::from_utf8_lossy(&std::fs::read(answers).expect(answers)).into_owned();
    let theirs: Vec<&str> = theirs.lines().collect();
    let mut at = 0;
    for i in 0..ours.len().max(theirs.len()) {
        let (ours, theirs) = (ours.get(i), theirs.get(i));
        if let Some((_, line)) = ours
            && line.starts_with("# ")
        {
            // A sign-off is asked for, the other is a find.
            if line == LOOP_DIFFERENCE {
                println!("  compared up to {line}, line {}", i + 1);
            }
            return true;
        }
        if let Some((a, _)) = ours {
            at = *a;
        }
        let (a, b) = (ours.map(|o| normal(&o.1, options)), theirs.map(|t| normal(t, options)));
        if a != b {
            let show = |l: Option<String>| l.unwrap_or("(no more lines)".to_string());
            println!("  line {}, command at word {at} (byte {}):", i + 1, 4 * at);
            println!("    oracle {}", show(a));
            println!("    other  {}", show(b));
            return false;
        }
    }
    true
}

/// The script's words, one a line, with their positions, to read it by eye.
pub fn words(script: &str) {
    let input = std::fs::read(script).expect(script);
    let mut out = std::io::BufWriter::new(std::io::stdout().lock());
    for (i, w) in input.as_chunks::<4>().0.iter().enumerate() {
        if writeln!(out, "{i}: {:08X}", u32::from_be_bytes(*w)).is_err() {
            return;
        }
    }
}
