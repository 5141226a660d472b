//! The script of a station: tape, drive or panel.
use crate::{argument, no_lines, panel, roster, say, word_lines, words_in, Lines};
use shore::{Plan, Refusal, Station};

#[derive(Clone, Copy, PartialEq)]
pub enum Program {
    Tape,
    Drive,
    Panel,
}

/// The end of all words is read as a clock: it ends an open command.
const END: u32 = 0xe000_0000;
/// Words that are kept for a command: no well-formed one has more.
const KEPT: usize = 8192;

struct Replay {
    program: Program,
    station: Station,
    /// Durations and payloads of data bursts, for the starts that follow.
    held: Plan,
    time: f64,
    level: f32,
    /// The command whose words are being read, and these words.
    open: Option<u32>,
    words: Vec<u32>,
    out: Vec<String>,
}

impl Replay {
    // ---- commands whose words have ended

    fn receive(&mut self) -> Lines {
        let r = self.station.receive(&self.words, self.level, self.time)?;
        let mut lines = word_lines(r.words.raw());
        if self.program != Program::Tape {
            lines.extend([r.not_kept >> 32, r.not_kept & 0xffff_ffff].map(|half| format!("M {half:08X}")));
        }
        Ok(lines)
    }

    fn admit(&mut self) -> Lines {
        let f = argument::only_frame(&self.words)
            .filter(|f| f.field == 0)
            .ok_or(Refusal::Words)?;
        let call = f.payload.try_into().map_err(|_| Refusal::Words)?;
        let relay = Some(f.flags).filter(|r| *r != shore::EVERYONE);
        Ok(word_lines(self.station.admit(&call, relay, self.time)?.raw()))
    }

    fn start(&mut self) -> Lines {
        let payload = argument::payload(&self.words).filter(|p| [182, 199].contains(&p.len()));
        let mut p = payload.ok_or(Refusal::Words)?;
        p.resize(199, 0);
        let plan = argument::plan(&p, &self.held).ok_or(Refusal::Words)?;
        self.station = Station::start(&plan, p[181].into())?;
        Ok(Vec::new())
    }

    fn post(&mut self) -> Lines {
        let (slot, message) = argument::message(&self.words).ok_or(Refusal::Words)?;
        no_lines(self.station.post(slot, &message))
    }

    fn dues(&mut self) -> Lines {
        let figures = argument::payload(&self.words).and_then(|p| argument::numbers(&p));
        panel::dues(&self.station, &figures.ok_or(Refusal::Words)?)
    }

    /// The payload of the open command's frame, of so many bytes.
    fn payload(&self, length: usize) -> Option<Vec<u8>> {
        argument::payload(&self.words).filter(|p| p.len() == length)
    }

    fn set_clock(&mut self) -> Option<()> {
        self.time = argument::f64_at(&self.payload(8)?, 0)?;
        Some(())
    }

    fn set_level(&mut self) -> Option<()> {
        self.level = argument::f32_at(&self.payload(4)?, 0)?;
        Some(())
    }

    fn hold_times(&mut self) -> Option<()> {
        let f = argument::only_frame(&self.words)?;
        let (level, first, n) = (usize::from(f.flags), f.field as usize, f.payload.len() / 8);
        if level > 16 || n == 0 || first + n > 64 || f.payload.len() % 8 != 0 {
            return None;
        }
        let times: Option<Vec<f64>> = (0..n).map(|i| argument::f64_at(&f.payload, 8 * i)).collect();
        let at = 64 * level + first;
        self.held.times[at..at + n].copy_from_slice(&times?);
        Some(())
    }

    fn hold_payloads(&mut self) -> Option<()> {
        self.held.payloads = self.payload(17)?.try_into().ok()?;
        Some(())
    }

    fn run_open(&mut self) {
        let Some(command) = self.open.take() else {
            return;
        };
        let answer = match command {
            2 => self.receive(),
            3 => self.admit(),
            8 => self.start(),
            9 => no_lines(self.set_clock().ok_or(Refusal::Words)),
            10 => no_lines(self.set_level().ok_or(Refusal::Words)),
            11 => no_lines(self.hold_times().ok_or(Refusal::Words)),
            12 => no_lines(self.hold_payloads().ok_or(Refusal::Words)),
            13 => self.post(),
            _ => self.dues(),
        };
        self.words.clear();
        say(&mut self.out, answer);
    }

    // ---- one word

    fn read(&self, cell: usize) -> Lines {
        let digits: String = self.station.read(cell)?.iter().map(|b| format!("{b:02X}")).collect();
        Ok(vec![format!("R {digits}")])
    }

    fn opened(&mut self, command: u32) -> Lines {
        self.open = Some(command);
        Ok(Vec::new())
    }

    fn command(&mut self, w: u32) -> Lines {
        let (command, rest) = (w & 15, w >> 4 & 0xff_ffff);
        let s = &mut self.station;
        match (command, rest) {
            (0, 0) => Ok(word_lines(s.next(self.time)?.raw())),
            (1, 0) => no_lines(s.sent(self.time)),
            (2, 0) => self.opened(command),
            _ if self.program == Program::Tape => Err(Refusal::Words),
            (4, 0..256) => no_lines(s.close(rest)),
            (5, _) => self.read(rest as usize),
            (6, _) => no_lines(s.free(rest as usize)),
            (7, 0) => Ok(roster::lines(s)),
            (14, 0..256) => no_lines(s.sign_off(rest as u8)),
            (3 | 8..=13, 0) => self.opened(command),
            (15, _) if self.program == Program::Panel && panel::is_asked(rest) => match rest {
                3 => self.opened(command),
                _ if rest & 15 == 5 => panel::fill(s, rest, self.level, self.time),
                _ => panel::answer(s, rest, self.time),
            },
            _ => Err(Refusal::Words),
        }
    }

    fn word(&mut self, w: u32) {
        let (kind, low) = (w >> 28, w & 0xfff_ffff);
        if let 7 | 14 | 15 = kind {
            self.run_open();
        }
        let answer = match kind {
            7 => self.command(w),
            14 => {
                self.time = f64::from(low) / 8.0;
                return;
            }
            15 if low < 2048 => {
                self.level = (low as f32 - 800.0) / 4.0;
                return;
            }
            0..14 if self.open.is_some() => {
                self.words.push(w);
                self.words.truncate(KEPT);
                return;
            }
            _ => Err(Refusal::Words),
        };
        say(&mut self.out, answer);
    }
}

pub fn run(program: Program, script: &[u8]) -> Result<Vec<String>, Refusal> {
    let held = Plan::new([0x40, 0x3e, 0x77, 0xb3, 0], *b"PORT  ");
    let (station, words, out) = (Station::start(&held, 10)?, Vec::new(), Vec::new());
    let mut r = Replay {
        program,
        station,
        held,
        time: 0.0,
        level: 0.0,
        open: None,
        words,
        out,
    };
    let (words, cut) = words_in(script);
    words.into_iter().chain([END]).for_each(|w| r.word(w));
    // A last word that was cut short is malformed.
    if cut {
        say(&mut r.out, Err(Refusal::Words));
    }
    Ok(r.out)
}
