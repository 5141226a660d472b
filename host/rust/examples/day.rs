//! A day of a small net, as in host/example.c: one boat checks in, is polled, sends a message in two pieces of which one is lost and sent again; it lands
//! and is read. A message goes out to the boat. What the station gives is said in plain text.
use shore::{Burst, Event, Frame, Heard, Item, Plan, Refusal, Sending, Station};

// ---- what the station says

fn route(relay: Option<u8>) -> String {
    relay.map_or("direct".to_string(), |r| format!("by slot {r}"))
}

fn say_event(e: Event) {
    match e {
        Event::CheckedIn { slot, relay } => println!("  event: slot {slot} checked in, {}", route(relay)),
        Event::Landed { slot, cell, number } => println!("  event: message {number} of slot {slot} is in cell {cell}"),
        Event::MissedTurn { slot } => println!("  event: slot {slot} missed its turn"),
        Event::CameByRelay { slot, relay } => {
            println!("  event: messages of slot {slot} came by relay, {}", route(relay))
        }
        Event::OtherRoute { slot, relay } => println!("  event: slot {slot} has another route, {}", route(relay)),
    }
}

fn kind_of(f: &Frame) -> &'static str {
    match (f.flags >> 6, f.payload.first()) {
        (1, _) => "data for the boat",
        (_, Some(1)) => "beacon",
        (_, Some(5)) => "members",
        (_, Some(6)) => "received",
        (_, Some(8)) => "tree",
        _ => "control",
    }
}

fn say_frame(f: Frame) {
    print!("    {}, {} bytes:", kind_of(&f), f.payload.len());
    for b in f.payload {
        match b {
            32..127 => print!(" {}", b as char),
            _ => print!(" {b:02X}"),
        }
    }
    println!();
}

fn say_acknowledgement(slot: u8, heard: u8, again: bool) {
    print!(
        " acknowledgement{} of slot {slot}",
        if again { ", and another poll" } else { "" }
    );
    for i in (0..8).filter(|i| heard >> i & 1 != 0) {
        print!(", frame {i} heard");
    }
    println!();
}

fn say_sending(s: Sending) {
    print!("  send at level {}:", s.level);
    match s.burst {
        Burst::Poll { slot, .. } => println!(" poll of slot {slot}"),
        Burst::PollByRelay { slot, .. } => println!(" poll by relay of slot {slot}"),
        Burst::Acknowledgement { slot, heard, again, .. } => say_acknowledgement(slot, heard, again),
        Burst::Closing => println!(" closing"),
        Burst::Frames(frames) => {
            println!();
            frames.for_each(say_frame);
        }
    }
}

/// Says what a call gave back: pieces not kept, events, the burst to send. Gives back whether there is one.
fn say(what: &str, time: f64, answer: Result<(Vec<Item>, u64), Refusal>) -> bool {
    let (items, not_kept) = match answer {
        Ok(given) => given,
        Err(r) => {
            println!("{time:5.1} s, {what}:\n  refused, {}", r.number());
            return false;
        }
    };
    println!("{time:5.1} s, {what}{}", if items.is_empty() { "." } else { ":" });
    if not_kept != 0 {
        println!("  pieces not kept: {not_kept:X}");
    }
    let mut sends = false;
    for item in items {
        match item {
            Item::Event(e) => say_event(e),
            Item::Sending(s) => {
                sends = true;
                say_sending(s);
            }
        }
    }
    sends
}

// ---- the calls, each with what it gives said

fn decide(s: &mut Station, time: f64) -> Result<(), Refusal> {
    if say("next decision", time, s.next(time).map(|w| (w.collect(), 0))) {
        s.sent(time + 1.0)?;
    }
    Ok(())
}

fn receive(s: &mut Station, what: &str, heard: Heard, time: f64) -> Result<(), Refusal> {
    let answer = s.receive(heard.words(), 10.0, time);
    if say(what, time, answer.map(|r| (r.words.collect(), r.not_kept))) {
        s.sent(time + 1.0)?;
    }
    Ok(())
}

fn done(what: &str, time: f64, answer: Result<(), Refusal>) {
    say(what, time, answer.map(|()| (Vec::new(), 0)));
}

fn read_cell(s: &Station, cell: usize) {
    match s.read(cell) {
        Ok(m) => println!("         cell {cell}: \"{}\"", String::from_utf8_lossy(m)),
        Err(r) => println!("         cell {cell}: refused, {}", r.number()),
    }
}

fn show(s: &Station, slot: u8) -> Result<(), Refusal> {
    if let Some(e) = s.entry(slot) {
        let (call, up, worst) = (
            String::from_utf8_lossy(&e.call),
            e.up.unwrap_or(0.0),
            s.worst(slot)?.unwrap_or(0.0),
        );
        let (landed, missed, silent) = (e.bytes_in, e.missed, s.silent());
        println!("         slot {slot}: {call}, up {up:.1} dB, worst {worst:.1} dB, {landed} bytes landed, {missed} turns missed; {silent} boats silent");
    }
    Ok(())
}

// ---- the day

const CHECK_IN: [u8; 10] = [2, 0xd0, 0x88, 0x21, 0x80, 0x0c, 30, 12, 2, 1];
const MESSAGE: &[u8; 28] = b"\x1a\x00Anchored at Cape Farewell.";

/// The boat's report: slot 0 hears us at 6 dB, and got so many bytes of ours.
fn report(heard: Heard, got: u8) -> Heard {
    heard.frame(0x80, 0, &[3, 0, 30, 0, 0, 0, 0, 0, 0, got, 0, 0])
}

fn morning(s: &mut Station) -> Result<(), Refusal> {
    decide(s, 0.0)?;
    receive(s, "GULL checks in", Heard::burst(8, 0).frame(0xbf, 0, &CHECK_IN), 2.0)?;
    decide(s, 20.0)?;
    decide(s, 22.0)?;
    let first = report(Heard::burst(3, 0), 0).lost().frame(0, 14, &MESSAGE[14..]);
    receive(s, "its answer, the first piece lost", first, 24.0)?;
    decide(s, 40.0)?;
    let second = report(Heard::burst(3, 1), 0).frame(0, 0, &MESSAGE[..14]);
    receive(s, "its answer, the first piece once more", second, 42.0)?;
    read_cell(s, 0);
    done("cell 0 is free", 43.0, s.free(0));
    read_cell(s, 0);
    show(s, 0)
}

fn evening(s: &mut Station) -> Result<(), Refusal> {
    done("posted: Gale at six", 50.0, s.post(0, b"Gale at six"));
    decide(s, 60.0)?;
    decide(s, 62.0)?;
    decide(s, 64.0)?;
    receive(
        s,
        "its report: 13 bytes of ours got",
        report(Heard::burst(3, 0), 13),
        66.0,
    )?;
    show(s, 0)?;
    decide(s, -1.0)?;
    done("the net closes", 100.0, s.close(1));
    decide(s, 101.0)?;
    decide(s, 110.0)
}

fn main() -> Result<(), Refusal> {
    let plan = Plan::new([0x40, 0x3e, 0x77, 0xb3, 0], *b"PORT  ");
    let mut s = Station::start(&plan, 10)?;
    done("start", 0.0, Ok(()));
    morning(&mut s)?;
    // The set is switched off and on again: what was saved goes on.
    let mut s = Station::load(&s.save()).expect("it was saved whole");
    evening(&mut s)
}
