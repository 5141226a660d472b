//! How every program reads a script: words in, lines out.

use super::words::{Lines, MALFORMED, Refusal, hex, is_command};

/// What a program does with a command.
pub trait Program {
    /// Whether the words behind this command are its own.
    fn takes_words(&self, command: u32) -> bool;
    /// Runs a command: the lines it prints, or the number sent back.
    fn run(&mut self, command: u32, words: &[u32]) -> Result<Vec<String>, Refusal>;
    /// Whether this command calls what is compared.
    fn is_call(&self, command: u32) -> bool;
    /// Nothing more is read.
    fn stopped(&self) -> bool {
        false
    }
}

pub struct Player<P> {
    pub program: P,
    /// Words read.
    at: usize,
    pub lines: Lines,
    /// Calls not sent back with 3.
    calls: usize,
}

impl<P: Program> Player<P> {
    pub fn new(program: P) -> Self {
        Self {
            program,
            at: 0,
            lines: Vec::new(),
            calls: 0,
        }
    }

    /// A whole script: what it prints, and how many calls it has.
    pub fn run(mut self, script: &[u8]) -> (Lines, usize) {
        let (words, rest) = script.as_chunks::<4>();
        let words: Vec<u32> = words.iter().map(|w| u32::from_be_bytes(*w)).collect();
        self.play(&words);
        if !rest.is_empty() && !self.program.stopped() {
            self.print(self.at, [MALFORMED as u32]);
        }
        (self.lines, self.calls)
    }

    /// Commands, the last one whole.
    pub fn play(&mut self, words: &[u32]) {
        for part in words.chunk_by(|_, next| !is_command(*next)) {
            if self.program.stopped() {
                return;
            }
            let (&first, behind) = part.split_first().unwrap();
            let at = self.at;
            self.at += part.len();
            let nobodys = if !is_command(first) {
                part
            } else if self.program.takes_words(first) {
                self.command(at, first, behind);
                &[]
            } else {
                self.command(at, first, &[]);
                behind
            };
            let from = self.at - nobodys.len();
            for at in from..self.at {
                self.print(at, [MALFORMED as u32]);
            }
        }
    }

    fn command(&mut self, at: usize, command: u32, words: &[u32]) {
        let answer = self.program.run(command, words);
        if self.program.is_call(command) && answer != Err(MALFORMED) {
            self.calls += 1;
        }
        match answer {
            Ok(lines) => self.lines.extend(lines.into_iter().map(|l| (at, l))),
            Err(r) => self.print(at, [r as u32]),
        }
    }

    fn print(&mut self, at: usize, words: impl IntoIterator<Item = u32>) {
        self.lines.extend(words.into_iter().map(|w| (at, hex(w))));
    }
}
