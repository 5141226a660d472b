//! `oracle damaged`: whether `held` refuses what it should. A short script, its answers, and copies of them with one
//! line damaged by hand, at least one for each rule.

use super::*;

mod answers;

use answers::{ANSWERS, DAMAGES};

fn admission(relay: u8, call: &str) -> Words {
    let mut w = vec![7 << 28 | ADMIT];
    w.extend(frame_words(relay, 0, &pack_call(call)));
    w
}

/// A burst that is no reply.
fn reception(frames: &[Words]) -> Words {
    let mut w = vec![7 << 28 | RECEIVE, head_word(0, ASIDE, 0)];
    w.extend(frames.concat());
    w
}

fn piece(slot: u8, message: &[u8]) -> Words {
    let mut data = (message.len() as u16).to_le_bytes().to_vec();
    data.extend(message);
    frame_words(T_UP << 6 | slot, 0, &data)
}

fn checkin(call: &str) -> Words {
    let mut p = vec![C_CHECKIN];
    p.extend(pack_call(call));
    p.extend([30, 4, PROTOCOL, 1]);
    frame_words(T_CTRL << 6 | ALL, 0, &p)
}

/// The calls of the script. Slot 0 has GULL, then AUK, who sends number 0 again; TERN comes by GULL, SKUA hears it.
fn calls() -> Vec<Words> {
    let mut s = Settings::tape();
    s.miss_limit = 2;
    let start = [vec![7 << 28 | START], frame_words(0, 0, &s.to_bytes(3))].concat();
    let mut report = vec![C_REPORT, 2, 30];
    report.extend([0; 9]);
    report.extend([0, 30]);
    let report = frame_words(T_CTRL << 6 | 2, 0, &report);
    let one = |command: u32, rest: u32| vec![7 << 28 | rest << 4 | command];
    vec![
        start,
        [vec![14 << 28 | 16], admission(ALL, "GULL")].concat(),
        admission(0, "TERN"),
        admission(ALL, "SKUA"),
        reception(&[report, piece(0, b"Hold")]),
        one(READ, 0),
        one(SIGN_OFF, 62),
        one(SIGN_OFF, 9),
        one(SIGN_OFF, 0),
        one(READ, 0),
        admission(ALL, "AUK"),
        reception(&[piece(0, b"Ho")]),
        one(READ, 0),
        one(NEXT, 0),
        one(SENT, 0),
        vec![14 << 28 | 8 * 60, 7 << 28 | NEXT],
        one(SENT, 0),
        one(NEXT, 0),
        one(NEXT, 0),
        reception(&[checkin("FULMAR")]),
    ]
}

/// The script for `panel`: the roster and its question behind every call.
fn script() -> Words {
    let behind = |c: Words| [c, vec![7 << 28 | ROSTER, SILENT]].concat();
    calls().into_iter().flat_map(behind).collect()
}

pub fn bytes() -> Vec<u8> {
    script().iter().flat_map(|w| w.to_be_bytes()).collect()
}

/// The answers with line `at`, counted from 1, made another: `from` in it made `to`.
fn damaged(at: usize, from: &str, to: &str) -> String {
    let change = |(i, line): (usize, &str)| {
        if i + 1 != at {
            return format!("{line}\n");
        }
        assert!(line.contains(from), "line {at}: {line}");
        // An empty line is none.
        let line = line.replacen(from, to, 1);
        if line.is_empty() { line } else { format!("{line}\n") }
    };
    ANSWERS.lines().enumerate().map(change).collect()
}

/// Whether the answers are held to be good, and each damage is refused by its rule.
pub fn run() -> bool {
    let script = script();
    let mut wrong = 0;
    if let Err((at, b)) = held(&script, ANSWERS) {
        println!("good answers are refused by rule {} at word {at}: {}", b.rule, b.what);
        wrong += 1;
    }
    for &(rule, at, from, to) in DAMAGES {
        let by = held(&script, &damaged(at, from, to)).map_err(|(_, b)| b.rule).err();
        if by != Some(rule) {
            println!("line {at}, `{from}` made `{to}`: rule {rule} must refuse it, and {by:?} does");
            wrong += 1;
        }
    }
    println!("{} damaged answers, {wrong} judged wrongly", DAMAGES.len());
    wrong == 0
}
