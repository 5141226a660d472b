//! The sending end joined with the station, as in host/sending.c: a boat's messages are taken in pieces, received, lost, acknowledged, sent again; they land
//! and are read back. Then what the sending end refuses.
use shore::{Burst, Event, Frame, Heard, Item, Plan, Refusal, Sender, Station};

/// The boat's slot.
const SLOT: u8 = 1;

/// Both ends, and the number that the boat was last polled with.
struct Ends {
    station: Station,
    boat: Sender,
    number: u8,
}

/// What the boat hears of the station's burst: the number it is polled with, the frames acknowledged, the messages received.
enum Told {
    Polled(u8),
    Acknowledged(u8),
    Received { next: u32, after: u8 },
    Nothing,
}

// ---- the boat

fn state(boat: &Sender) {
    println!(
        "  boat: {} bytes pending, {}",
        boat.pending(),
        if boat.has_new() { "some new" } else { "none new" }
    );
}

fn post(boat: &mut Sender, message: &[u8]) {
    match boat.post(message) {
        Ok(()) => println!("boat: posts {} bytes", message.len()),
        Err(r) => println!("boat: posts {} bytes: refused, {}", message.len(), r.number()),
    }
    state(boat);
}

/// The pieces of its next burst.
fn take(boat: &mut Sender, max: usize, pieces: usize) -> Vec<Frame> {
    let frames: Vec<Frame> = match boat.take(max, pieces) {
        Ok(frames) => frames.collect(),
        Err(r) => {
            println!("boat: takes {pieces} pieces of {max} bytes: refused, {}", r.number());
            return Vec::new();
        }
    };
    println!("boat: takes {pieces} pieces of {max} bytes, gets {}", frames.len());
    for f in &frames {
        println!(
            "  piece of message {}: {} bytes from {}",
            f.field >> 16,
            f.payload.len(),
            f.field & 0xffff
        );
    }
    frames
}

// ---- the station

/// The received list of our slot: the first message missing, and which of the eight after it are there.
fn received(frames: impl Iterator<Item = Frame>) -> Told {
    for f in frames {
        if let [6, SLOT, next, after] = f.payload[..] {
            println!("  station: received all below message {next}, after it {after:02X}");
            return Told::Received {
                next: next.into(),
                after,
            };
        }
    }
    println!("  station: sends other frames");
    Told::Nothing
}

/// Says an item of the station's.
fn say(item: Item) -> Told {
    match item {
        Item::Event(Event::CheckedIn { slot, .. }) => println!("  station: slot {slot} checked in"),
        Item::Event(Event::Landed { cell, number, .. }) => println!("  station: message {number} is in cell {cell}"),
        Item::Event(_) => println!("  station: another event"),
        Item::Sending(s) => match s.burst {
            Burst::Poll { slot, number, .. } => {
                println!("  station: polls slot {slot}");
                return Told::Polled(number);
            }
            Burst::Acknowledgement { heard, .. } => {
                println!("  station: heard frames {heard:02X}");
                return Told::Acknowledged(heard);
            }
            Burst::Frames(frames) => return received(frames),
            _ => println!("  station: another burst"),
        },
    }
    Told::Nothing
}

impl Ends {
    /// The boat does what the station's burst tells it; `frames` are those of its last burst.
    fn heed(&mut self, told: Told, frames: &[Frame]) {
        match told {
            Told::Polled(number) => self.number = number,
            Told::Acknowledged(heard) => {
                for (_, f) in frames.iter().enumerate().filter(|(i, _)| heard >> i & 1 != 0) {
                    self.boat.ack(f.field >> 16, f.field as usize & 0xffff);
                }
            }
            Told::Received { next, after } => {
                let also: Vec<u32> = (0..8).filter(|i| after >> i & 1 != 0).map(|i| next + 1 + i).collect();
                self.boat.held(next, &also);
                state(&self.boat);
            }
            Told::Nothing => {}
        }
    }

    fn decide(&mut self, time: f64) -> Result<(), Refusal> {
        println!("{time:.0} s, next decision");
        let told: Vec<Told> = self.station.next(time)?.map(say).collect();
        told.into_iter().for_each(|t| self.heed(t, &[]));
        self.station.sent(time + 1.0)
    }

    /// The boat answers with these pieces, the first `lost` of them unheard, and is told what was acknowledged.
    fn answer(&mut self, frames: &[Frame], lost: usize, time: f64) -> Result<(), Refusal> {
        println!("{time:.0} s, the boat answers, {lost} of {} pieces lost", frames.len());
        let mut burst = Heard::burst(3, self.number);
        for (i, f) in frames.iter().enumerate() {
            burst = if i < lost {
                burst.lost()
            } else {
                burst.frame(f.flags | SLOT, f.field, &f.payload)
            };
        }
        let told: Vec<Told> = self
            .station
            .receive(burst.words(), 10.0, time)?
            .words
            .map(say)
            .collect();
        told.into_iter().for_each(|t| self.heed(t, frames));
        self.station.sent(time + 1.0)?;
        state(&self.boat);
        Ok(())
    }

    /// The boat hears us at 6 dB and has nothing to send.
    fn idle(&mut self, time: f64) -> Result<(), Refusal> {
        println!("{time:.0} s, the boat has nothing to send");
        self.station
            .receive(Heard::idle(SLOT, 30).words(), 10.0, time)?
            .words
            .map(say)
            .for_each(drop);
        println!(
            "  station: slot {SLOT} hears it at {:.1} dB",
            self.station.entry(SLOT).and_then(|e| e.down).unwrap_or(0.0)
        );
        Ok(())
    }

    fn read(&mut self, cell: usize) -> Result<(), Refusal> {
        println!(
            "  cell {cell}: \"{}\"",
            String::from_utf8_lossy(self.station.read(cell)?)
        );
        self.station.free(cell)
    }

    // ---- the run

    /// Two boats are admitted and the first signs off: ours is in slot 1.
    fn enter(&mut self) -> Result<(), Refusal> {
        for call in [[1, 0, 0, 0, 0], [0xd0, 0x88, 0x21, 0x80, 0x0c]] {
            self.station.admit(&call, None, 0.0)?.map(say).for_each(drop);
        }
        self.station.sign_off(0)?;
        self.decide(0.0)?;
        self.decide(10.0)
    }

    fn joined(&mut self) -> Result<(), Refusal> {
        state(&self.boat);
        post(&mut self.boat, b"Anchored at Cape Farewell.");
        let pieces = take(&mut self.boat, 14, 4);
        self.answer(&pieces, 1, 12.0)?;
        post(&mut self.boat, b"Two aboard.");
        // No answer to a burst: its pieces go behind new ones.
        self.boat.stale();
        self.decide(30.0)?;
        let pieces = take(&mut self.boat, 20, 1);
        self.answer(&pieces, 0, 32.0)?;
        self.decide(50.0)?;
        self.decide(52.0)?;
        let pieces = take(&mut self.boat, 20, 4);
        self.answer(&pieces, 0, 54.0)?;
        self.read(0)?;
        self.read(1)?;
        self.decide(70.0)?;
        self.idle(72.0)
    }
}

/// What is refused changes nothing; what the far end holds is gone.
fn refused(boat: &mut Sender) {
    post(boat, &[b'.'; 2047]);
    for _ in 0..9 {
        post(boat, b"Under way.");
    }
    take(boat, 0, 1);
    take(boat, 256, 1);
    take(boat, 20, 65);
    take(boat, 20, 3);
    boat.held(4, &[6]);
    println!("boat: messages below 4 are held, and 6");
    state(boat);
    boat.held(10, &[]);
    println!("boat: messages below 10 are held");
    state(boat);
}

fn main() -> Result<(), Refusal> {
    let plan = Plan::new([0x40, 0x3e, 0x77, 0xb3, 0], *b"PORT  ");
    let mut ends = Ends {
        station: Station::start(&plan, 10)?,
        boat: Sender::new(),
        number: 0,
    };
    ends.enter()?;
    ends.joined()?;
    refused(&mut ends.boat);
    Ok(())
}
