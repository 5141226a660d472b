//! `oracle day`: a script of boats that come and go, for what the Rust cannot do (signing off). No station runs behind
//! it: it keeps the clock, and who is where by the rule that an unknown call takes the lowest free slot. Behind every
//! call stands the roster, for `oracle held`; for the program `panel` also the question how many boats are silent.

use super::drive::command::*;
use super::generate::rng::Rng;
use super::held::SILENT;
use super::settings::{PLAIN_BYTES, Settings};
use super::words::*;
use super::*;

mod frames;

/// Calls that the boats have: more than there are slots. Behind a closing fewer, now and then.
const FLEET: u64 = 90;
const FLEETS: [u64; 4] = [5, 20, FLEET, FLEET];
/// Most messages of one boat, so that no number comes round again.
const MOST_NUMBERS: u32 = 90;

pub fn script(seed: u64, n: usize, panel: bool) -> Vec<u8> {
    let mut rng = Rng::new(seed.wrapping_mul(0xD134_2543_DE82_EF95) ^ 0xDA7);
    let salt = rng.next();
    let mut day = Day {
        rng,
        panel,
        salt,
        script: Vec::new(),
        calls: 0,
        now: 0.0,
        settings: Settings::tape(),
        cells: 10,
        fleet: FLEET,
        slots: [const { None }; MAX_MEMBERS],
        stays: 0,
        mood: MOODS[0],
        mood_left: 0,
    };
    day.run(n);
    day.script.iter().flat_map(|w| w.to_be_bytes()).collect()
}

/// A boat, as far as what it sends depends on it.
#[derive(Clone)]
struct Boat {
    call: u64,
    /// As it was admitted.
    relay: u8,
    /// Which stay of the day it is: no two say the same.
    stay: u64,
    /// The message it is at, and how much of it has been sent.
    number: u32,
    sent: usize,
}

/// How often a step is what, of the sum of them.
#[derive(Clone, Copy)]
struct Mood {
    admission: u64,
    checkins: u64,
    traffic: u64,
    turn: u64,
    host: u64,
    sign_off: u64,
}

const fn mood(admission: u64, checkins: u64, traffic: u64, turn: u64, host: u64, sign_off: u64) -> Mood {
    Mood {
        admission,
        checkins,
        traffic,
        turn,
        host,
        sign_off,
    }
}

const MOODS: [Mood; 7] = [
    // Boats come.
    mood(12, 12, 2, 1, 1, 1),
    // The net runs.
    mood(4, 4, 8, 8, 4, 6),
    mood(4, 2, 16, 4, 8, 6),
    mood(2, 1, 8, 16, 3, 4),
    // They come and go.
    mood(20, 8, 4, 2, 2, 24),
    mood(16, 10, 6, 4, 3, 20),
    // They go.
    mood(2, 1, 4, 4, 2, 10),
];

struct Day {
    rng: Rng,
    panel: bool,
    salt: u64,
    script: Words,
    calls: usize,
    now: f64,
    settings: Settings,
    cells: u8,
    fleet: u64,
    slots: [Option<Boat>; MAX_MEMBERS],
    stays: u64,
    mood: Mood,
    mood_left: u64,
}

impl Day {
    fn run(&mut self, n: usize) {
        self.start();
        while self.calls < n {
            if self.mood_left == 0 {
                // At first, and often, boats come.
                let first = self.calls < 2;
                let which = if first { 0 } else { self.rng.below(9).saturating_sub(2) };
                self.mood = MOODS[which as usize];
                self.mood_left = self.rng.range(if first { 70 } else { 20 }, 90);
            }
            self.mood_left -= 1;
            self.step();
        }
    }

    fn step(&mut self) {
        if self.rng.once(400) {
            return self.closing();
        }
        let m = self.mood;
        let mut x = self
            .rng
            .below(m.admission + m.checkins + m.traffic + m.turn + m.host + m.sign_off);
        let mut is = |weight: u64| {
            let here = x < weight;
            x = x.wrapping_sub(weight);
            here
        };
        if is(m.admission) {
            self.admission()
        } else if is(m.checkins) {
            self.checkins()
        } else if is(m.traffic) {
            self.traffic()
        } else if is(m.turn) {
            self.turn()
        } else if is(m.host) {
            self.host()
        } else {
            self.sign_off()
        }
    }

    // Writing.

    /// A call, and the roster behind it.
    fn call(&mut self, command: u32, words: &[u32]) {
        self.script.push(7 << 28 | command);
        self.script.extend(words);
        self.script.push(7 << 28 | ROSTER);
        if self.panel {
            self.script.push(SILENT);
        }
        self.calls += 1;
    }

    /// The clock goes on by so much, to an eighth of a second.
    fn tick(&mut self, dt: f64) {
        self.now += (dt * 8.0).floor() / 8.0;
        self.script.push(14 << 28 | (self.now * 8.0) as u32);
    }

    // Boats.

    fn packed(call: u64) -> [u8; 5] {
        pack_call(&format!("SB{call}"))
    }

    fn members(&self) -> Vec<u8> {
        (0..MAX_MEMBERS as u8)
            .filter(|&s| self.slots[s as usize].is_some())
            .collect()
    }

    /// Nearly always one where a boat is.
    fn any_slot(&mut self) -> u8 {
        let m = self.members();
        if m.is_empty() || self.rng.once(25) {
            self.rng.below(MAX_MEMBERS as u64) as u8
        } else {
            self.rng.pick(&m)
        }
    }

    /// The relay of some boat, as it was admitted.
    fn any_relay(&mut self) -> u8 {
        let relays = self.slots.iter().flatten().map(|b| b.relay);
        let relays: Vec<u8> = relays.filter(|r| self.members().contains(r)).collect();
        if relays.is_empty() {
            self.any_slot()
        } else {
            self.rng.pick(&relays)
        }
    }

    /// An unknown call takes the lowest free slot.
    fn comes(&mut self, call: u64, relay: u8) {
        if self.slots.iter().flatten().any(|b| b.call == call) {
            return;
        }
        if let Some(slot) = self.slots.iter().position(Option::is_none) {
            self.stays += 1;
            self.slots[slot] = Some(Boat {
                call,
                relay,
                stay: self.stays,
                number: 0,
                sent: 0,
            });
        }
    }

    // Steps.

    fn start(&mut self) {
        let r = &mut self.rng;
        let mut s = Settings::tape();
        // Eighths of a second, so that clocks fall on the deadlines.
        s.secs = [
            r.pick(&[0.25, 0.5, 0.0]),
            r.pick(&[8.0, 4.0, 2.5]),
            r.pick(&[1.0, 0.5, 0.0]),
            r.pick(&[1.0, 0.5]),
            r.pick(&[300.0, 120.0, 900.0]),
            r.pick(&[45.0, 90.0, 300.0]),
            r.pick(&[15.0, 5.0, 0.0]),
        ];
        s.miss_limit = r.pick(&[1, 1, 2, 2, 3]);
        s.window_slots = r.pick(&[4, 1, 0, 2]);
        s.relay_snr = r.pick(&[-20.0, -8.0, 0.0]);
        self.cells = r.pick(&[3, 10, 30, 64, 64]);
        let bytes = &s.to_bytes(self.cells)[..PLAIN_BYTES];
        self.settings = s;
        self.slots = [const { None }; MAX_MEMBERS];
        self.call(START, &frame_words(0, 0, bytes));
    }

    fn admission(&mut self) {
        let call = self.rng.below(self.fleet);
        let relay = match self.rng.below(20) {
            0..=9 => ALL,
            10..=17 => self.any_slot(),
            18 => self.rng.below(64) as u8,
            _ => self.rng.pick(&[61, 62, 64, 128, 255]),
        };
        let is_member = |r: u8| self.slots.get(r as usize).is_some_and(Option::is_some);
        if relay == ALL || is_member(relay) {
            self.comes(call, relay);
        }
        self.call(ADMIT, &frame_words(relay, 0, &Self::packed(call)));
    }

    /// Boats check in, several in a burst; newcomers may send at once.
    fn checkins(&mut self) {
        let mut frames = Vec::new();
        for _ in 0..self.rng.pick(&[1, 1, 2, 3, 6]) {
            frames.push(self.checkin());
        }
        if self.rng.once(4) {
            let slot = self.any_slot();
            frames.push(self.piece(slot));
        }
        let hi = ASIDE | self.rng.below(8) as u8;
        self.burst(0, hi, 0, frames);
    }

    /// A burst of a boat: a reply, where a reply is waited for, or one to its relay.
    fn traffic(&mut self) {
        if self.rng.once(4) {
            return self.idle();
        }
        let slot = self.any_slot();
        let hi = self.rng.below(8) as u8 | if self.rng.chance(35) { ASIDE } else { 0 };
        self.reply(slot, hi);
    }

    /// Decisions, their sendings, and answers or none.
    fn turn(&mut self) {
        for _ in 0..self.rng.range(1, 6) {
            self.call(NEXT, &[]);
            if self.rng.chance(90) {
                self.tick(1.0);
                self.call(SENT, &[]);
            }
            if self.rng.once(10) {
                self.sign_off();
            }
            if self.rng.chance(30) {
                // Without a report it counts as the polled boat's, whoever that is.
                let slot = self.any_slot();
                let hi = self.rng.below(8) as u8;
                self.reply(slot, hi);
                self.tick(1.0);
                if self.rng.chance(80) {
                    self.call(SENT, &[]);
                }
            } else {
                let wait = self.wait();
                self.tick(wait);
            }
        }
    }

    /// How long until a deadline, or an eighth less, or past it.
    fn wait(&mut self) -> f64 {
        let [turnaround, burst, slack, detect, beacon, quick, gap] = self.settings.secs;
        let r = &mut self.rng;
        let t = match r.below(16) {
            0 | 1 => turnaround + detect + slack,
            2..=8 => turnaround + burst + slack,
            9 => 3.0 * turnaround + burst + detect + 2.0 * slack + 1.0,
            // Past a check-in window.
            10..=12 => 15.0,
            13 => gap,
            14 => beacon,
            _ => quick,
        };
        match r.below(6) {
            0 => t - 0.125,
            1 => t + r.range(1, 40) as f64 / 8.0,
            _ => t,
        }
        .max(0.0)
    }

    /// The host reads cells and frees them.
    fn host(&mut self) {
        for _ in 0..self.rng.range(1, 4) {
            let past = self.rng.once(30);
            let c = if past {
                self.cells as u64
            } else {
                self.rng.below(self.cells as u64)
            };
            if self.rng.chance(80) {
                self.call(READ | (c as u32) << 4, &[]);
            }
            if self.rng.chance(80) {
                self.call(FREE | (c as u32) << 4, &[]);
            }
        }
    }

    fn sign_off(&mut self) {
        let slot = match self.rng.below(12) {
            0 => self.rng.pick(&[62, 63, 64, 128, 255]),
            1 => self.rng.below(MAX_MEMBERS as u64) as u8,
            2..=5 => self.any_relay(),
            _ => self.any_slot(),
        };
        if let Some(boat) = self.slots.get_mut(slot as usize) {
            let gone = boat.take();
            self.call(SIGN_OFF | (slot as u32) << 4, &[]);
            // The same call again, now and then.
            if let Some(gone) = gone.filter(|_| self.rng.once(6)) {
                self.comes(gone.call, ALL);
                self.call(ADMIT, &frame_words(ALL, 0, &Self::packed(gone.call)));
            }
        } else {
            self.call(SIGN_OFF | (slot as u32) << 4, &[]);
        }
    }

    /// Closed: boats still come and go; then a fresh start.
    fn closing(&mut self) {
        let n = self.rng.below(4) as u32;
        self.call(CLOSE | n << 4, &[]);
        for _ in 0..self.rng.range(3, 12) {
            match self.rng.below(4) {
                0 => self.turn(),
                1 => self.sign_off(),
                2 => self.admission(),
                _ => self.traffic(),
            }
        }
        self.fleet = self.rng.pick(&FLEETS);
        self.start();
    }
}
