//! The words that the station gives and takes (docs/WORDS.md).

/// What stands in the words of a call, in order: events, and at most one burst to send.
#[derive(Clone, Copy, Debug)]
pub enum Item<'a> {
    Event(Event),
    Sending(Sending<'a>),
}

/// What happened. A relay is a slot, none where the boat is direct.
#[derive(Clone, Copy, Debug, PartialEq, Eq)]
pub enum Event {
    CheckedIn {
        slot: u8,
        relay: Option<u8>,
    },
    /// A message is complete: [`crate::Station::read`] its cell, then free it.
    Landed {
        slot: u8,
        cell: usize,
        number: u8,
    },
    MissedTurn {
        slot: u8,
    },
    CameByRelay {
        slot: u8,
        relay: Option<u8>,
    },
    OtherRoute {
        slot: u8,
        relay: Option<u8>,
    },
}

/// A burst to send now, at a level of the ladder; tell [`crate::Station::sent`] when it is out.
#[derive(Clone, Copy, Debug)]
pub struct Sending<'a> {
    pub level: u8,
    pub burst: Burst<'a>,
    /// Its words, head and wave first.
    pub words: &'a [u32],
}

#[derive(Clone, Copy, Debug)]
pub enum Burst<'a> {
    Poll {
        slot: u8,
        cap: u8,
        number: u8,
    },
    /// A poll that asks a relay, `slot`, for another boat, `source`.
    PollByRelay {
        slot: u8,
        source: u8,
        cap: u8,
    },
    /// The lowest bit of `heard` is the first frame; `again`: it is another poll too.
    Acknowledgement {
        slot: u8,
        number: u8,
        heard: u8,
        again: bool,
    },
    Closing,
    Frames(Frames<'a>),
}

/// A frame. The top two bits of `flags` say whom it is from or for, the other six a slot.
#[derive(Clone, Debug, PartialEq, Eq)]
pub struct Frame {
    pub flags: u8,
    pub field: u32,
    pub payload: Vec<u8>,
}

/// The words of a call, read one item after the other.
#[derive(Clone, Copy, Debug)]
pub struct Words<'a> {
    words: &'a [u32],
}

impl<'a> Words<'a> {
    pub(crate) fn new(words: &'a [u32]) -> Words<'a> {
        Words { words }
    }

    /// The words that are still to be read.
    pub fn raw(&self) -> &'a [u32] {
        self.words
    }
}

impl<'a> Iterator for Words<'a> {
    type Item = Item<'a>;

    fn next(&mut self) -> Option<Item<'a>> {
        let first = *self.words.first()?;
        if first >> 28 != 8 {
            self.words = &self.words[1..];
            return event(first).map(Item::Event);
        }
        let inside = |w: &&u32| (9..=12).contains(&(**w >> 28));
        let n = 1 + self.words[1..].iter().take_while(inside).count();
        let (burst, rest) = self.words.split_at(n);
        self.words = rest;
        sending(burst).map(Item::Sending)
    }
}

/// The low bits of a word.
fn bits(w: u32, from: u32, count: u32) -> u8 {
    (w >> from & ((1 << count) - 1)) as u8
}

fn relay(w: u32) -> Option<u8> {
    Some(bits(w, 6, 6)).filter(|r| *r != crate::EVERYONE)
}

fn event(w: u32) -> Option<Event> {
    let slot = bits(w, 0, 6);
    match w >> 28 {
        1 => Some(Event::CheckedIn { slot, relay: relay(w) }),
        2 => Some(Event::Landed {
            slot,
            cell: bits(w, 6, 7).into(),
            number: bits(w, 13, 8),
        }),
        3 => Some(Event::MissedTurn { slot }),
        4 => Some(Event::CameByRelay { slot, relay: relay(w) }),
        5 => Some(Event::OtherRoute { slot, relay: relay(w) }),
        _ => None,
    }
}

/// The words of a burst: its head, its wave, its frames.
fn sending(words: &[u32]) -> Option<Sending<'_>> {
    let (head, wave) = (*words.first()?, *words.get(1)?);
    let slot = bits(head, 0, 6);
    let burst = match (bits(head, 21, 7), bits(head, 17, 4)) {
        (62, 1) => Burst::Poll {
            slot,
            cap: bits(head, 6, 4),
            number: bits(head, 10, 6),
        },
        (62, 5) => Burst::PollByRelay {
            slot,
            source: bits(head, 6, 6),
            cap: bits(head, 12, 4),
        },
        (62, k @ (2 | 3)) => Burst::Acknowledgement {
            slot,
            number: bits(head, 6, 2),
            heard: bits(head, 8, 8),
            again: k == 2,
        },
        (62, _) => Burst::Closing,
        _ => Burst::Frames(Frames::new(&words[2..])),
    };
    Some(Sending {
        level: bits(wave, 0, 5),
        burst,
        words,
    })
}

/// Frames, one after the other.
#[derive(Clone, Copy, Debug)]
pub struct Frames<'a> {
    words: &'a [u32],
}

impl<'a> Frames<'a> {
    /// Read from words 10, 11 and 12.
    pub fn new(words: &'a [u32]) -> Frames<'a> {
        Frames { words }
    }

    /// The words that are still to be read.
    pub fn raw(&self) -> &'a [u32] {
        self.words
    }
}

impl Iterator for Frames<'_> {
    type Item = Frame;

    fn next(&mut self) -> Option<Frame> {
        let (head, field) = (*self.words.first()?, *self.words.get(1)?);
        let length = usize::from(bits(head, 0, 8));
        let payload = self.words.get(2..2 + length.div_ceil(3))?;
        self.words = &self.words[2 + payload.len()..];
        let bytes = payload.iter().flat_map(|w| w.to_be_bytes().into_iter().skip(1));
        Some(Frame {
            flags: bits(head, 8, 8),
            field: field & 0xff_ffff,
            payload: bytes.take(length).collect(),
        })
    }
}

/// A burst that was heard, for [`crate::Station::receive`].
#[derive(Clone, Debug)]
pub struct Heard {
    words: Vec<u32>,
}

impl Heard {
    /// A burst of frames at a level of the ladder, with the number that its boat was polled with.
    pub fn burst(level: u8, number: u8) -> Heard {
        Heard {
            words: vec![8 << 28 | u32::from(level & 127) << 21 | u32::from(number & 15) << 17],
        }
    }

    /// A boat has nothing to send; `field` is decibels plus 24, how it hears us, 63 for nothing measured.
    pub fn idle(slot: u8, field: u8) -> Heard {
        Heard {
            words: vec![8 << 28 | 62 << 21 | 4 << 17 | u32::from(field & 63) << 6 | u32::from(slot & 63)],
        }
    }

    /// A frame behind the others. A payload has at most 255 bytes: what is behind them is left out.
    pub fn frame(mut self, flags: u8, field: u32, payload: &[u8]) -> Heard {
        let payload = &payload[..payload.len().min(255)];
        self.words.push(10 << 28 | u32::from(flags) << 8 | payload.len() as u32);
        self.words.push(11 << 28 | field & 0xff_ffff);
        for part in payload.chunks(3) {
            let byte = |i: usize| u32::from(part.get(i).copied().unwrap_or(0));
            self.words.push(12 << 28 | byte(0) << 16 | byte(1) << 8 | byte(2));
        }
        self
    }

    /// A frame that was lost.
    pub fn lost(mut self) -> Heard {
        self.words.push(13 << 28);
        self
    }

    pub fn words(&self) -> &[u32] {
        &self.words
    }
}
