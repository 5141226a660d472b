//! The script of the sending end (oracle/DRIVE.md, under `outbox`).
use crate::{argument, no_lines, say, word_lines, words_in, Lines};
use shore::{Refusal, Sender};

/// Words that a command may have.
const MOST: usize = 8192;

struct Replay {
    sender: Sender,
    /// The command whose words are being read, and these words.
    open: Option<u32>,
    words: Vec<u32>,
    out: Vec<String>,
}

impl Replay {
    // ---- commands whose words have ended

    fn post(&mut self) -> Lines {
        let (_, message) = argument::message(&self.words)
            .filter(|(flags, _)| *flags == 0)
            .ok_or(Refusal::Words)?;
        no_lines(self.sender.post(&message))
    }

    fn ack(&mut self) -> Option<()> {
        let n = argument::numbers(&argument::payload(&self.words)?)?;
        let [seq, off] = n[..] else {
            return None;
        };
        self.sender.ack(seq, off as usize);
        Some(())
    }

    fn held(&mut self) -> Option<()> {
        let n = argument::numbers(&argument::payload(&self.words)?)?;
        let (next, also) = n.split_first()?;
        self.sender.held(*next, also);
        Some(())
    }

    fn run_open(&mut self) {
        let answer = match self.open.take() {
            None => return,
            Some(_) if self.words.len() > MOST => Err(Refusal::Words),
            Some(0) => self.post(),
            Some(3) => no_lines(self.ack().ok_or(Refusal::Words)),
            Some(_) => no_lines(self.held().ok_or(Refusal::Words)),
        };
        self.words.clear();
        say(&mut self.out, answer);
    }

    // ---- one word

    fn command(&mut self, w: u32) -> Lines {
        let (command, rest) = (w & 15, w >> 4 & 0xff_ffff);
        let s = &mut self.sender;
        match (command, rest) {
            (1, 0..65536) => Ok(word_lines(s.take(rest as usize & 255, rest as usize >> 8)?.raw())),
            (2, 0) => {
                s.stale();
                Ok(Vec::new())
            }
            (5, 0) => Ok(vec![format!("P {:08X}", s.pending())]),
            (6, 0) => Ok(vec![format!("N {}", u8::from(s.has_new()))]),
            (0 | 3 | 4, 0) => {
                self.open = Some(command);
                Ok(Vec::new())
            }
            _ => Err(Refusal::Words),
        }
    }

    fn word(&mut self, w: u32) {
        let kind = w >> 28;
        if let 7 | 14 | 15 = kind {
            self.run_open();
        }
        let answer = match kind {
            7 => self.command(w),
            _ if self.open.is_some() => {
                self.words.push(w);
                return;
            }
            _ => Err(Refusal::Words),
        };
        say(&mut self.out, answer);
    }
}

pub fn run(script: &[u8]) -> Vec<String> {
    let mut r = Replay {
        sender: Sender::new(),
        open: None,
        words: Vec::new(),
        out: Vec::new(),
    };
    let (words, cut) = words_in(script);
    words.into_iter().for_each(|w| r.word(w));
    r.run_open();
    if cut {
        say(&mut r.out, Err(Refusal::Words));
    }
    r.out
}
