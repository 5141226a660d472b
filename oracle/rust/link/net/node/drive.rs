//! `tape` and `drive` (DRIVE.md).

use super::dump;
use super::player::Program;
use super::settings::{DataBursts, Settings};
use super::shore::Shore;
use super::words::*;

/// The command words of `drive`, bits 3-0.
pub mod command {
    pub const NEXT: u32 = 0;
    pub const SENT: u32 = 1;
    pub const RECEIVE: u32 = 2;
    pub const ADMIT: u32 = 3;
    pub const CLOSE: u32 = 4;
    pub const READ: u32 = 5;
    pub const FREE: u32 = 6;
    pub const ROSTER: u32 = 7;
    pub const START: u32 = 8;
    pub const CLOCK: u32 = 9;
    pub const LEVEL: u32 = 10;
    pub const DURATIONS: u32 = 11;
    pub const PAYLOADS: u32 = 12;
    pub const POST: u32 = 13;
    pub const SIGN_OFF: u32 = 14;
}
use command::*;

/// Lines that end a comparison: from there on the Rust and the station differ on purpose.
pub const LOOP_DIFFERENCE: &str = "# loop-difference";
pub const SIGNED_OFF: &str = "# signed-off";

/// What a script had that the requests changed: the Rust does not follow there, or an earlier
/// `drive` does not.
#[derive(Clone, Copy, Debug, Default, PartialEq)]
pub struct Seen {
    pub overlong: bool,
    pub unheard: bool,
    pub posts: bool,
    pub sign_off: bool,
}

pub struct Drive {
    tape: bool,
    pub shore: Shore,
    pub now: f64,
    pub level: f32,
    /// For the starts that follow.
    pub data: DataBursts,
    signed_off: bool,
    pub seen: Seen,
}

impl Program for Drive {
    fn takes_words(&self, command: u32) -> bool {
        matches!(self.named(command), Some((RECEIVE | ADMIT | START..=POST, _)))
    }

    fn run(&mut self, command: u32, words: &[u32]) -> Result<Vec<String>, Refusal> {
        let bits = command & 0x0FFF_FFFF;
        match command >> 28 {
            14 => self.now = bits as f64 / 8.0,
            15 if bits < 1 << 11 => self.level = (bits as f32 - 800.0) / 4.0,
            7 => {
                let (command, rest) = self.named(command).ok_or(MALFORMED)?;
                return self.command(command, rest, words);
            }
            _ => return Err(MALFORMED),
        }
        Ok(Vec::new())
    }

    fn is_call(&self, command: u32) -> bool {
        matches!(self.named(command), Some((NEXT..=FREE | START | POST | SIGN_OFF, _)))
    }

    fn stopped(&self) -> bool {
        self.signed_off
    }
}

impl Drive {
    pub fn new() -> Self {
        let data = DataBursts::default();
        Self {
            tape: false,
            shore: Shore::start(&Settings::tape(), &data, 10).ok().unwrap(),
            now: 0.0,
            level: 0.0,
            data,
            signed_off: false,
            seen: Seen::default(),
        }
    }

    pub fn tape() -> Self {
        Self {
            tape: true,
            ..Self::new()
        }
    }

    /// A command word's number and its other bits, if it is well formed.
    fn named(&self, word: u32) -> Option<(u32, u32)> {
        let (command, rest) = (word & 15, word >> 4 & 0xFF_FFFF);
        let named = word >> 28 == 7
            && match command {
                NEXT | SENT | RECEIVE => rest == 0,
                _ if self.tape => false,
                CLOSE | SIGN_OFF => rest < 256,
                READ | FREE => true,
                ADMIT | ROSTER..=POST => rest == 0,
                _ => false,
            };
        named.then_some((command, rest))
    }

    fn command(&mut self, command: u32, rest: u32, words: &[u32]) -> Result<Vec<String>, Refusal> {
        match command {
            NEXT => {
                let w = self.shore.next(self.now)?;
                return Ok(self.told(hex_lines(&w)));
            }
            SENT => self.shore.sent(self.now)?,
            RECEIVE => return self.receive(words),
            ADMIT => return self.admit(words),
            CLOSE => self.shore.close(rest)?,
            READ => {
                let hex: String = self
                    .shore
                    .read(rest as usize)?
                    .iter()
                    .map(|b| format!("{b:02X}"))
                    .collect();
                return Ok(vec![format!("R {hex}")]);
            }
            FREE => self.shore.free(rest as usize)?,
            ROSTER => return Ok(dump::roster(&self.shore)),
            START => self.start(words)?,
            CLOCK => self.now = number(words, f64::from_le_bytes, f64::is_nan)?,
            LEVEL => self.level = number(words, f32::from_le_bytes, f32::is_nan)?,
            DURATIONS => self.durations(words)?,
            PAYLOADS => self.data.payloads = payload(words)?.try_into().map_err(|_| MALFORMED)?,
            POST => self.post(words)?,
            _ => return self.sign_off(rest as u8),
        }
        self.seen.posts |= matches!(command, DURATIONS | PAYLOADS | POST);
        Ok(Vec::new())
    }

    fn receive(&mut self, words: &[u32]) -> Result<Vec<String>, Refusal> {
        let heard = self.shore.receive(words, self.level, self.now)?;
        self.seen.overlong |= heard.overlong;
        self.seen.unheard |= heard.unheard;
        let mut lines = hex_lines(&heard.words);
        if !self.tape {
            lines.push(format!("M {:08X}", heard.mask >> 32));
            lines.push(format!("M {:08X}", heard.mask as u32));
        }
        Ok(self.told(lines))
    }

    fn admit(&mut self, words: &[u32]) -> Result<Vec<String>, Refusal> {
        let f = one_frame(words)?;
        if f.field != 0 || f.payload.len() != 5 {
            return Err(MALFORMED);
        }
        let w = self.shore.admit(&f.payload, f.flags, self.now)?;
        Ok(self.told(hex_lines(&w)))
    }

    fn start(&mut self, words: &[u32]) -> Result<(), Refusal> {
        let (settings, cells) = Settings::from_bytes(&payload(words)?).ok_or(MALFORMED)?;
        self.shore = Shore::start(&settings, &self.data, cells as usize)?;
        Ok(())
    }

    fn durations(&mut self, words: &[u32]) -> Result<(), Refusal> {
        let f = one_frame(words)?;
        let set = self.data.set_durations(f.flags as usize, f.field as usize, &f.payload);
        set.ok_or(MALFORMED)
    }

    fn post(&mut self, words: &[u32]) -> Result<(), Refusal> {
        let (slot, data) = message(words)?;
        self.seen.posts = true;
        self.shore.post(slot, &data)
    }

    /// The Rust has no signing off: it ends here.
    fn sign_off(&mut self, slot: u8) -> Result<Vec<String>, Refusal> {
        self.seen.sign_off = true;
        self.shore.sign_off(slot)?;
        self.signed_off = true;
        Ok(vec![SIGNED_OFF.to_string()])
    }

    fn told(&self, mut lines: Vec<String>) -> Vec<String> {
        if !self.tape && self.shore.loops() {
            lines.push(LOOP_DIFFERENCE.to_string());
        }
        lines
    }
}

/// A command's argument: one number, no NaN.
fn number<T: Copy, const N: usize>(
    words: &[u32],
    read: impl Fn([u8; N]) -> T,
    nan: impl Fn(T) -> bool,
) -> Result<T, Refusal> {
    let x = read(payload(words)?.try_into().map_err(|_| MALFORMED)?);
    if nan(x) { Err(MALFORMED) } else { Ok(x) }
}
