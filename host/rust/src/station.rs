use crate::{ffi, Refusal, Words, CELL, CELLS, EVERYONE, OUT, QUEUE};

/// What a net is started with; the spans are in docs/HOST.md. Times are seconds, levels decibels.
#[derive(Clone, Debug)]
pub struct Plan {
    /// The net's call, packed in five bytes.
    pub call: [u8; 5],
    pub name: [u8; 6],
    pub turnaround: f64,
    pub max_burst: f64,
    pub reply_slack: f64,
    pub detect: f64,
    pub beacon_every: f64,
    pub quick_beacon: f64,
    pub idle_round_gap: f64,
    /// Bursts of 1 to 4 control frames.
    pub durations: [f64; 4],
    /// What each level of the ladder needs.
    pub thresholds: [f32; 17],
    pub margin: f32,
    pub relay_snr: f32,
    /// Missed turns that make a boat silent.
    pub miss_limit: u32,
    pub beacon_level: u8,
    /// Check-in slots behind a beacon.
    pub window_slots: u8,
    /// The beacon tells the check-in slots' times, with `lead` and `latency`.
    pub prime: bool,
    pub lead: f64,
    pub latency: f64,
    /// A burst of n frames of data at a level, at 64 * level + n - 1.
    pub times: [f64; 1088],
    /// The largest payload of a frame at each level.
    pub payloads: [u8; 17],
}

impl Plan {
    /// A call and a name, and the settings of the program `tape` (docs/WORDS.md): replace those that your modem has otherwise.
    pub fn new(call: [u8; 5], name: [u8; 6]) -> Plan {
        Plan {
            call,
            name,
            turnaround: 0.3,
            max_burst: 8.0,
            reply_slack: 1.0,
            detect: 1.0,
            beacon_every: 300.0,
            quick_beacon: 45.0,
            idle_round_gap: 15.0,
            durations: [1.0; 4],
            thresholds: std::array::from_fn(|i| -20.0 + 2.0 * i as f32),
            margin: 1.0,
            relay_snr: -8.0,
            miss_limit: 2,
            beacon_level: 0,
            window_slots: 4,
            prime: false,
            lead: 0.0,
            latency: 0.0,
            times: [1.0; 1088],
            payloads: std::array::from_fn(|i| if i < 5 { 22 } else { 170 }),
        }
    }

    fn setup(&self) -> ffi::Setup {
        ffi::Setup {
            turnaround: self.turnaround,
            maxburst: self.max_burst,
            replyslack: self.reply_slack,
            detect: self.detect,
            beaconevery: self.beacon_every,
            quickbeacon: self.quick_beacon,
            idleroundgap: self.idle_round_gap,
            durations: self.durations,
            thresholds: self.thresholds,
            margin: self.margin,
            relaysnr: self.relay_snr,
            misslimit: self.miss_limit,
            beaconlevel: self.beacon_level,
            windowslots: self.window_slots,
            call: [0; 7],
            name: self.name,
            prime: self.prime.into(),
            lead: self.lead,
            latency: self.latency,
            rooms: [0; 17],
            payloads: [0; 17],
        }
    }

    fn lent(&self) -> ffi::Plan {
        ffi::Plan {
            settings: self.setup(),
            times: self.times,
            call: self.call,
            payloads: self.payloads,
        }
    }
}

/// What a reception gives.
#[derive(Clone, Copy, Debug)]
pub struct Received<'a> {
    pub words: Words<'a>,
    /// Bit n is set where frame n was a piece that was not kept.
    pub not_kept: u64,
}

/// A boat of the roster.
#[derive(Clone, Debug)]
pub struct Entry {
    pub call: [u8; 7],
    pub relay: Option<u8>,
    /// How we hear it, and how it hears us, in decibels.
    pub up: Option<f32>,
    pub down: Option<f32>,
    /// Its level cap.
    pub cap: u32,
    pub last_heard: Option<f64>,
    /// Turns missed in a row.
    pub missed: u32,
    pub bytes_in: u32,
    pub capability: Option<u8>,
    pub version: Option<u8>,
}

/// A month's dues in cents.
#[derive(Clone, Debug)]
pub struct Dues {
    /// The port's.
    pub takings: u64,
    pub charges: [u32; 62],
    pub credits: [u32; 62],
}

/// The station, with the memory that it is lent. Where a call is refused nothing has changed.
#[derive(Clone)]
pub struct Station {
    block: Box<ffi::Block>,
    store: Box<[u8]>,
    queue: Box<[u8]>,
    out: Box<[u32]>,
}

fn level(r: ffi::Reading) -> Option<f32> {
    (r.heard != 0).then_some(r.decibels)
}

fn known(flag: u8, value: u8) -> Option<u8> {
    (flag != 0).then_some(value)
}

impl Station {
    /// A fresh start, with room for so many messages: 1 to 64.
    pub fn start(plan: &Plan, cells: usize) -> Result<Station, Refusal> {
        let mut s = Station {
            block: Box::new(ffi::Block { held: [0; 3102] }),
            store: vec![0; CELL * cells.min(CELLS)].into(),
            queue: vec![0; QUEUE].into(),
            out: vec![0; OUT].into(),
        };
        let d = unsafe { ffi::shore_start(*s.block, plan.lent(), s.store.as_ptr(), s.store.len()) };
        s.take_back(d)?;
        Ok(s)
    }

    /// The block to go on with, and how many words there are.
    fn take_back(&mut self, d: ffi::Done) -> Result<usize, Refusal> {
        *self.block = d.block;
        Refusal::check(d.refusal)?;
        Ok(d.words)
    }

    fn words(&self, count: usize) -> Words<'_> {
        Words::new(&self.out[..count])
    }

    /// A boat is admitted by hand: its packed call, and its relay.
    pub fn admit(&mut self, call: &[u8; 5], relay: Option<u8>, time: f64) -> Result<Words<'_>, Refusal> {
        let relay = relay.unwrap_or(EVERYONE);
        let out = &mut self.out;
        let d = unsafe { ffi::shore_admit(*self.block, call.as_ptr(), relay, time, out.as_mut_ptr(), out.len()) };
        let n = self.take_back(d)?;
        Ok(self.words(n))
    }

    /// A burst was received at a level; `time` is its end.
    pub fn receive(&mut self, words: &[u32], snr: f32, time: f64) -> Result<Received<'_>, Refusal> {
        let (store, out) = (&mut self.store, &mut self.out);
        let d = unsafe {
            ffi::shore_receive(
                *self.block,
                words.as_ptr(),
                words.len(),
                snr,
                time,
                store.as_mut_ptr(),
                store.len(),
                out.as_mut_ptr(),
                out.len(),
            )
        };
        let not_kept = d.mask;
        let n = self.take_back(d)?;
        Ok(Received {
            words: self.words(n),
            not_kept,
        })
    }

    /// What to do now: events, and the burst to send, if any.
    pub fn next(&mut self, time: f64) -> Result<Words<'_>, Refusal> {
        let (queue, out) = (&self.queue, &mut self.out);
        let d = unsafe {
            ffi::shore_next(
                *self.block,
                time,
                queue.as_ptr(),
                queue.len(),
                out.as_mut_ptr(),
                out.len(),
            )
        };
        let n = self.take_back(d)?;
        Ok(self.words(n))
    }

    /// The burst that was given to send has gone out.
    pub fn sent(&mut self, time: f64) -> Result<(), Refusal> {
        let d = unsafe { ffi::shore_sent(*self.block, time) };
        self.take_back(d).map(drop)
    }

    /// The net closes, with so many closing bursts, 15 at most.
    pub fn close(&mut self, count: u32) -> Result<(), Refusal> {
        let d = unsafe { ffi::shore_close(*self.block, count) };
        self.take_back(d).map(drop)
    }

    /// The message in a cell.
    pub fn read(&self, cell: usize) -> Result<&[u8], Refusal> {
        let p = unsafe { ffi::shore_read(*self.block, self.store.as_ptr(), self.store.len(), cell) };
        Refusal::check(p.refusal)?;
        Ok(&self.store[p.offset..p.offset + p.length])
    }

    /// The cell of a message that was read may be used again.
    pub fn free(&mut self, cell: usize) -> Result<(), Refusal> {
        let d = unsafe { ffi::shore_free(*self.block, cell) };
        self.take_back(d).map(drop)
    }

    /// A message for the boat in a slot.
    pub fn post(&mut self, slot: u8, message: &[u8]) -> Result<(), Refusal> {
        let queue = &mut self.queue;
        let d = unsafe {
            ffi::shore_post(
                *self.block,
                slot,
                message.as_ptr(),
                message.len(),
                queue.as_mut_ptr(),
                queue.len(),
            )
        };
        self.take_back(d).map(drop)
    }

    /// The boat in a slot leaves the net.
    pub fn sign_off(&mut self, slot: u8) -> Result<(), Refusal> {
        let d = unsafe { ffi::shore_sign_off(*self.block, slot) };
        self.take_back(d).map(drop)
    }

    /// The lowest of a boat's last 32 levels.
    pub fn worst(&self, slot: u8) -> Result<Option<f32>, Refusal> {
        let p = unsafe { ffi::shore_worst(*self.block, slot) };
        Refusal::check(p.refusal)?;
        Ok(level(p.level))
    }

    /// How many boats are silent.
    pub fn silent(&self) -> u32 {
        unsafe { ffi::shore_silent(*self.block) }
    }

    pub fn totals(&self) -> ffi::Totals {
        unsafe { ffi::shore_totals(*self.block) }
    }

    /// The boat in a slot.
    pub fn entry(&self, slot: u8) -> Option<Entry> {
        let e = unsafe { ffi::shore_entry(*self.block, slot) };
        (e.here != 0).then(|| Entry {
            call: e.call,
            relay: Some(e.via).filter(|r| *r != EVERYONE),
            up: level(e.snrup),
            down: level(e.snrdown),
            cap: e.cap,
            last_heard: (e.lastheard.known != 0).then_some(e.lastheard.seconds),
            missed: e.missed,
            bytes_in: e.bytesin,
            capability: known(e.hascaps, e.caps),
            version: known(e.hasversion, e.version),
        })
    }

    /// The numbers of the boat in a slot; they are no boat's where it has none.
    pub fn numbers(&self, slot: u8) -> ffi::Counts {
        unsafe { ffi::shore_numbers(*self.block, slot) }
    }

    /// The level at which the boat in slot `r` hears the one in slot `a`.
    pub fn hears(&self, r: u8, a: u8) -> Option<f32> {
        level(unsafe { ffi::shore_hears(*self.block, r, a) })
    }

    /// The level field at which the boat in slot `r` said that it hears slot `a`, whoever is there: decibels plus 24, 63 for nothing.
    pub fn hears_field(&self, r: u8, a: u8) -> u8 {
        unsafe { ffi::shore_hears_field(*self.block, r, a) }
    }

    /// The month's dues, from the bytes landed of each slot.
    pub fn dues(&self, figures: &[u32]) -> Result<Dues, Refusal> {
        let m = unsafe { ffi::shore_dues(*self.block, figures.as_ptr(), figures.len()) };
        Refusal::check(m.refusal)?;
        Ok(Dues {
            takings: m.takings,
            charges: m.charges,
            credits: m.credits,
        })
    }

    /// The whole state as bytes, to be kept across a restart.
    pub fn save(&self) -> Vec<u8> {
        let block = self.block.held.iter().flat_map(|w| w.to_ne_bytes());
        block
            .chain(self.queue.iter().copied())
            .chain(self.store.iter().copied())
            .collect()
    }

    /// The station that was saved; none where the bytes are too few, or no whole cells are left.
    pub fn load(bytes: &[u8]) -> Option<Station> {
        let (block, lent) = bytes.split_at_checked(8 * 3102)?;
        let (queue, store) = lent.split_at_checked(QUEUE)?;
        let mut held = [0; 3102];
        for (w, b) in held.iter_mut().zip(block.chunks_exact(8)) {
            *w = u64::from_ne_bytes(b.try_into().ok()?);
        }
        (store.len() % CELL == 0).then(|| Station {
            block: Box::new(ffi::Block { held }),
            store: store.into(),
            queue: queue.into(),
            out: vec![0; OUT].into(),
        })
    }
}
