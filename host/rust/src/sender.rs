use crate::{ffi, Frames, Refusal, OUT};

/// Bytes of each of the two memories.
const ROOM: usize = 16384;
/// `new` lends both memories whole, the only thing that these calls ask for.
const LENT: &str = "the memories are lent whole";

/// The sending end, as a boat has it: messages, cut into pieces, kept until the far end holds them.
pub struct Sender {
    numbers: ffi::Outgoing,
    bytes: Box<[u8]>,
    marks: Box<[u8]>,
    out: Box<[u32]>,
}

impl Default for Sender {
    fn default() -> Sender {
        Sender::new()
    }
}

impl Sender {
    /// A fresh start.
    pub fn new() -> Sender {
        Sender {
            numbers: unsafe { ffi::shore_sender_new() },
            bytes: vec![0; ROOM].into(),
            marks: vec![0; ROOM].into(),
            out: vec![0; OUT].into(),
        }
    }

    fn take_back(&mut self, l: ffi::Left) -> Result<usize, Refusal> {
        self.numbers = l.sender;
        Refusal::check(l.refusal)?;
        Ok(l.words)
    }

    /// A message is queued.
    pub fn post(&mut self, message: &[u8]) -> Result<(), Refusal> {
        let bytes = &mut self.bytes;
        let l = unsafe {
            ffi::shore_sender_post(
                self.numbers,
                bytes.as_mut_ptr(),
                bytes.len(),
                message.as_ptr(),
                message.len(),
            )
        };
        self.take_back(l).map(drop)
    }

    /// Up to `pieces` pieces of at most `max` bytes, as frames with flags 0: put the slot into them.
    pub fn take(&mut self, max: usize, pieces: usize) -> Result<Frames<'_>, Refusal> {
        let (bytes, marks, out) = (&self.bytes, &mut self.marks, &mut self.out);
        let l = unsafe {
            ffi::shore_sender_take(
                self.numbers,
                bytes.as_ptr(),
                bytes.len(),
                marks.as_mut_ptr(),
                marks.len(),
                max,
                pieces,
                out.as_mut_ptr(),
                out.len(),
            )
        };
        let n = self.take_back(l)?;
        Ok(Frames::new(&self.out[..n]))
    }

    /// The piece of message `seq` at offset `off` was acknowledged.
    pub fn ack(&mut self, seq: u32, off: usize) {
        let (bytes, marks) = (&mut self.bytes, &mut self.marks);
        let l = unsafe {
            ffi::shore_sender_ack(
                self.numbers,
                bytes.as_mut_ptr(),
                bytes.len(),
                marks.as_mut_ptr(),
                marks.len(),
                seq,
                off,
            )
        };
        self.take_back(l).expect(LENT);
    }

    /// The far end holds every message below `next`, and those in `also`.
    pub fn held(&mut self, next: u32, also: &[u32]) {
        let (bytes, marks) = (&mut self.bytes, &mut self.marks);
        let l = unsafe {
            ffi::shore_sender_held(
                self.numbers,
                bytes.as_mut_ptr(),
                bytes.len(),
                marks.as_mut_ptr(),
                marks.len(),
                next,
                also.as_ptr(),
                also.len(),
            )
        };
        self.take_back(l).expect(LENT);
    }

    /// The last burst got no answer at all.
    pub fn stale(&mut self) {
        let marks = &mut self.marks;
        Refusal::check(unsafe { ffi::shore_sender_stale(self.numbers, marks.as_mut_ptr(), marks.len()) }).expect(LENT);
    }

    /// How many bytes are not sent yet, or in flight.
    pub fn pending(&self) -> usize {
        let u = unsafe { ffi::shore_sender_pending(self.numbers, self.marks.as_ptr(), self.marks.len()) };
        Refusal::check(u.refusal).expect(LENT);
        u.bytes
    }

    /// Whether there are bytes never sent yet.
    pub fn has_new(&self) -> bool {
        unsafe { ffi::shore_sender_has_new(self.numbers) != 0 }
    }
}
