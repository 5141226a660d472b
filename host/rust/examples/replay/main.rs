//! Runs a stored script of one of the project's programs on the linked library and prints what that program prints:
//! `replay drive`, `tape` or `panel` (docs/WORDS.md, oracle/DRIVE.md) and `replay sender` (the sending end); `replay logs`: of what `turncheck` says of each
//! log only the verdict; `replay sheet`: what `edges` says of the sheet of short calls.
mod argument;
mod logs;
mod panel;
mod roster;
mod sender;
mod sheet;
mod station;

use shore::Refusal;
use station::Program;
use std::io::{self, Read, Write};

/// What is printed: a refusal is one line.
type Lines = Result<Vec<String>, Refusal>;

fn word_lines(words: &[u32]) -> Vec<String> {
    words.iter().map(|w| format!("{w:08X}")).collect()
}

fn no_lines(r: Result<(), Refusal>) -> Lines {
    r.map(|()| Vec::new())
}

/// The lines of an answer, behind those before it.
fn say(out: &mut Vec<String>, answer: Lines) {
    out.extend(answer.unwrap_or_else(|r| word_lines(&[r.number().into()])));
}

/// The words of a script, highest byte first, and whether the last one was cut short.
fn words_in(script: &[u8]) -> (Vec<u32>, bool) {
    let words = script.chunks_exact(4);
    let cut = !words.remainder().is_empty();
    (
        words.map(|w| u32::from_be_bytes([w[0], w[1], w[2], w[3]])).collect(),
        cut,
    )
}

fn main() -> Result<(), Box<dyn std::error::Error>> {
    let mut script = Vec::new();
    io::stdin().read_to_end(&mut script)?;
    let lines = match std::env::args().nth(1).as_deref() {
        Some("tape") => station::run(Program::Tape, &script)?,
        Some("drive") => station::run(Program::Drive, &script)?,
        Some("panel") => station::run(Program::Panel, &script)?,
        Some("sender") => sender::run(&script),
        Some("logs") => logs::run(&String::from_utf8(script)?),
        Some("sheet") => sheet::run(),
        _ => return Err("replay tape, drive, panel, sender, logs or sheet".into()),
    };
    let mut out = io::stdout().lock();
    Ok(lines.iter().try_for_each(|l| writeln!(out, "{l}"))?)
}
