//! The C functions of libshore.a and their structs, as host/include/shore.h has them. host/check holds the structs to the library's own.
#[repr(C)]
#[derive(Clone, Copy)]
pub struct Block {
    pub held: [u64; 3102],
}

#[repr(C)]
#[derive(Clone, Copy)]
pub struct Setup {
    pub turnaround: f64,
    pub maxburst: f64,
    pub replyslack: f64,
    pub detect: f64,
    pub beaconevery: f64,
    pub quickbeacon: f64,
    pub idleroundgap: f64,
    pub durations: [f64; 4],
    pub thresholds: [f32; 17],
    pub margin: f32,
    pub relaysnr: f32,
    pub misslimit: u32,
    pub beaconlevel: u8,
    pub windowslots: u8,
    pub call: [u8; 7],
    pub name: [u8; 6],
    pub prime: u8,
    pub lead: f64,
    pub latency: f64,
    pub rooms: [u8; 17],
    pub payloads: [u8; 17],
}

#[repr(C)]
#[derive(Clone, Copy)]
pub struct Plan {
    pub settings: Setup,
    pub times: [f64; 1088],
    pub call: [u8; 5],
    pub payloads: [u8; 17],
}

#[repr(C)]
pub struct Done {
    pub block: Block,
    pub words: usize,
    pub mask: u64,
    pub refusal: u8,
}

#[repr(C)]
pub struct Part {
    pub offset: usize,
    pub length: usize,
    pub refusal: u8,
}

#[repr(C)]
pub struct Reading {
    pub heard: u8,
    pub decibels: f32,
}

#[repr(C)]
pub struct Time {
    pub known: u8,
    pub seconds: f64,
}

#[repr(C)]
pub struct Poorest {
    pub level: Reading,
    pub refusal: u8,
}

#[repr(C)]
pub struct Shown {
    pub lastheard: Time,
    pub snrup: Reading,
    pub snrdown: Reading,
    pub cap: u32,
    pub missed: u32,
    pub bytesin: u32,
    pub here: u8,
    pub call: [u8; 7],
    pub via: u8,
    pub hascaps: u8,
    pub caps: u8,
    pub hasversion: u8,
    pub version: u8,
}

/// The numbers of a boat: its messages landed, and the bytes posted to it.
#[repr(C)]
#[derive(Clone, Copy, Debug)]
pub struct Counts {
    /// Its first message that has not landed.
    pub next: u32,
    /// How many bytes were posted to it.
    pub posted: u32,
    /// The first of them that is still kept.
    pub kept: u32,
    /// How many of them it reported.
    pub reported: u32,
    /// Which of the eight messages after `next` have landed.
    pub bitmap: u8,
    /// The number of the burst that it is polled with.
    pub burst: u8,
}

/// What the station has counted since its start.
#[repr(C)]
#[derive(Clone, Copy, Debug)]
pub struct Totals {
    pub polls: u32,
    /// Polls by relay.
    pub relays: u32,
    /// Received lists.
    pub rxlists: u32,
    pub rounds: u32,
    pub replies: u32,
    /// Boats that are silent now.
    pub silent: u32,
}

#[repr(C)]
pub struct Month {
    pub takings: u64,
    pub charges: [u32; 62],
    pub credits: [u32; 62],
    pub refusal: u8,
}

#[repr(C)]
pub struct Checked {
    pub refusal: u8,
    pub accepted: u8,
}

#[repr(C)]
#[derive(Clone, Copy)]
pub struct Outgoing {
    pub count: usize,
    pub next: u32,
    pub seqs: [u32; 8],
    pub totals: [u16; 8],
    pub cuts: [u16; 8],
}

#[repr(C)]
pub struct Left {
    pub sender: Outgoing,
    pub words: usize,
    pub refusal: u8,
}

#[repr(C)]
pub struct Unsent {
    pub bytes: usize,
    pub refusal: u8,
}

// A pointer is followed by how many elements it has.
#[link(name = "shore", kind = "static")]
extern "C" {
    pub fn shore_start(b: Block, p: Plan, store: *const u8, bytes: usize) -> Done;
    pub fn shore_admit(b: Block, call: *const u8, relay: u8, time: f64, out: *mut u32, room: usize) -> Done;
    pub fn shore_receive(
        b: Block,
        words: *const u32,
        count: usize,
        snr: f32,
        time: f64,
        store: *mut u8,
        bytes: usize,
        out: *mut u32,
        room: usize,
    ) -> Done;
    pub fn shore_next(b: Block, time: f64, queue: *const u8, bytes: usize, out: *mut u32, room: usize) -> Done;
    pub fn shore_sent(b: Block, time: f64) -> Done;
    pub fn shore_close(b: Block, count: u32) -> Done;
    pub fn shore_free(b: Block, cell: usize) -> Done;
    pub fn shore_post(b: Block, slot: u8, message: *const u8, length: usize, queue: *mut u8, bytes: usize) -> Done;
    pub fn shore_sign_off(b: Block, slot: u8) -> Done;

    pub fn shore_read(b: Block, store: *const u8, bytes: usize, cell: usize) -> Part;
    pub fn shore_worst(b: Block, slot: u8) -> Poorest;
    pub fn shore_silent(b: Block) -> u32;
    pub fn shore_totals(b: Block) -> Totals;
    pub fn shore_entry(b: Block, slot: u8) -> Shown;
    pub fn shore_hears(b: Block, r: u8, a: u8) -> Reading;
    pub fn shore_hears_field(b: Block, r: u8, a: u8) -> u8;
    pub fn shore_numbers(b: Block, slot: u8) -> Counts;
    pub fn shore_dues(b: Block, figures: *const u32, count: usize) -> Month;

    pub fn shore_turn_check(words: *const u32, count: usize) -> Checked;
    pub fn shore_short_calls(out: *mut u8, bytes: usize) -> u8;

    pub fn shore_sender_new() -> Outgoing;
    pub fn shore_sender_post(o: Outgoing, bytes: *mut u8, size: usize, body: *const u8, length: usize) -> Left;
    pub fn shore_sender_take(
        o: Outgoing,
        bytes: *const u8,
        size: usize,
        marks: *mut u8,
        marked: usize,
        max: usize,
        pieces: usize,
        out: *mut u32,
        room: usize,
    ) -> Left;
    pub fn shore_sender_ack(
        o: Outgoing,
        bytes: *mut u8,
        size: usize,
        marks: *mut u8,
        marked: usize,
        seq: u32,
        off: usize,
    ) -> Left;
    pub fn shore_sender_held(
        o: Outgoing,
        bytes: *mut u8,
        size: usize,
        marks: *mut u8,
        marked: usize,
        next: u32,
        also: *const u32,
        count: usize,
    ) -> Left;
    pub fn shore_sender_stale(o: Outgoing, marks: *mut u8, marked: usize) -> u8;
    pub fn shore_sender_pending(o: Outgoing, marks: *const u8, marked: usize) -> Unsent;
    pub fn shore_sender_has_new(o: Outgoing) -> u8;
}
