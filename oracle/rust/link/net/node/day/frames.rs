//! What the boats of a day send.

use super::*;

impl Day {
    /// Sends a burst at some level; frames made before it were made in their order.
    pub fn burst(&mut self, code: usize, hi: u8, extra: u16, frames: Vec<Words>) {
        let level = self.rng.range(720, 960) as u32;
        self.script.push(15 << 28 | level);
        let mut words = vec![head_word(code, hi, extra)];
        words.extend(frames.concat());
        self.call(RECEIVE, &words);
    }

    /// A level field, 63 now and then: nothing was measured.
    fn q(&mut self) -> u8 {
        if self.rng.once(12) {
            63
        } else {
            self.rng.range(4, 60) as u8
        }
    }

    fn control(slot: u8, payload: &[u8]) -> Words {
        frame_words(T_CTRL << 6 | slot & 63, 0, payload)
    }

    pub fn checkin(&mut self) -> Words {
        let call = self.rng.below(self.fleet);
        let mut p = vec![C_CHECKIN];
        p.extend(Self::packed(call));
        let caps = self.rng.below(32) as u8 | 4;
        p.extend([self.q(), caps, PROTOCOL, self.rng.byte()]);
        self.comes(call, ALL);
        Self::control(ALL, &p)
    }

    /// Calls that `slot` heard: newcomers are its leaves.
    fn overheard(&mut self, slot: u8) -> Words {
        let mut p = vec![C_OVERHEARD];
        let relays = |b: &Boat| b.relay == ALL;
        let relay = match self.slots.get(slot as usize) {
            Some(Some(b)) if relays(b) => slot,
            _ => ALL,
        };
        for _ in 0..self.rng.range(1, 3) {
            let call = self.rng.below(self.fleet);
            p.extend(Self::packed(call));
            p.extend([self.q(), self.rng.below(32) as u8 | 4, self.rng.byte()]);
            self.comes(call, relay);
        }
        Self::control(slot, &p)
    }

    /// The boat's report, with boats it hears, some of them gone.
    fn report(&mut self, slot: u8) -> Words {
        let mut p = vec![C_REPORT, slot, self.q()];
        let pending = if self.rng.once(4) { 200 } else { 0 };
        put_u24(&mut p, pending);
        p.extend([0; 3]);
        let has = if self.rng.once(4) { self.rng.below(50) as u32 } else { 0 };
        put_u24(&mut p, has);
        for _ in 0..self.rng.range(0, 9) {
            let heard = self.any_slot();
            p.extend([heard, self.q()]);
        }
        Self::control(slot, &p)
    }

    /// Which of its leaves the boat reached.
    fn children(&mut self, slot: u8) -> Words {
        let mut p = vec![C_KIDS];
        let leaf = |(_, b): &(usize, &Option<Boat>)| b.as_ref().is_some_and(|b| b.relay == slot);
        let mut leaves: Vec<u8> = self
            .slots
            .iter()
            .enumerate()
            .filter(leaf)
            .map(|(s, _)| s as u8)
            .collect();
        leaves.push(self.any_slot());
        for c in leaves {
            let answered = if self.rng.chance(50) { 128 } else { 0 };
            p.extend([c, answered | self.q()]);
        }
        Self::control(slot, &p)
    }

    pub fn idle(&mut self) {
        let extra = self.any_slot() as u16 | (self.q() as u16) << 6;
        self.burst(TINY, K_IDLE, extra, Vec::new());
    }

    pub fn reply(&mut self, slot: u8, hi: u8) {
        let mut frames = Vec::new();
        if self.rng.chance(45) {
            frames.push(self.report(slot));
        }
        if self.rng.chance(30) {
            frames.push(self.children(slot));
        }
        if self.rng.chance(15) {
            frames.push(self.overheard(slot));
        }
        for _ in 0..self.rng.range(0, 4) {
            let from = if self.rng.once(5) { self.any_slot() } else { slot };
            let piece = self.piece(from);
            // Lost, now and then: sent again some other time.
            let lost = self.rng.once(12);
            frames.push(if lost { vec![LOST] } else { piece });
        }
        let code = self.rng.below(17) as usize;
        self.burst(code, hi, 0, frames);
    }

    /// Message `number` of a stay, its length first.
    fn message(&self, stay: u64, number: u32) -> Vec<u8> {
        let mut r = Rng::new(self.salt ^ stay << 24 ^ number as u64);
        r.next();
        let n = if r.once(8) { r.below(300) } else { r.below(40) };
        let mut message = (n as u16).to_le_bytes().to_vec();
        message.extend(r.bytes(n as usize));
        message
    }

    /// The next piece of the boat's message, or one from before, or a message ahead. Where nobody is, anything.
    pub fn piece(&mut self, slot: u8) -> Words {
        let Some(b) = self.slots[slot as usize].clone() else {
            let n = self.rng.range(1, 30) as usize;
            let field = (self.rng.below(3) as u32) << 16;
            return frame_words(T_UP << 6 | slot, field, &self.rng.bytes(n));
        };
        let r = &mut self.rng;
        let (number, offset) = match r.below(10) {
            0 | 1 => (r.below(b.number as u64 + 1) as u32, None),
            2 => (b.number + r.range(1, 3) as u32, None),
            _ if b.number >= MOST_NUMBERS => (b.number, None),
            _ => (b.number, Some(b.sent)),
        };
        let message = self.message(b.stay, number);
        let grid = self.rng.pick(&[22, 60, 170, 170]);
        let offset = match offset {
            Some(o) => o,
            // From the start, as a rule: short messages are whole then.
            None if self.rng.chance(70) => 0,
            None => self.rng.below(message.len() as u64) as usize,
        };
        let end = message.len().min(offset + grid);
        if number == b.number {
            self.advance(slot, offset, end, message.len());
        }
        let field = (number & 255) << 16 | offset as u32;
        frame_words(T_UP << 6 | slot, field, &message[offset..end])
    }

    /// The boat has sent that part; behind the end of a message comes the next one.
    fn advance(&mut self, slot: u8, from: usize, to: usize, length: usize) {
        let Some(b) = &mut self.slots[slot as usize] else {
            return;
        };
        if from <= b.sent {
            b.sent = b.sent.max(to);
        }
        if b.sent >= length {
            b.number += 1;
            b.sent = 0;
        }
    }
}
