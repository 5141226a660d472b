//! The programs, and what a script for one of them may hold.

use super::drive::Drive;
use super::outbox::Sender;
use super::player::Player;
use super::words::Lines;

#[derive(Clone, Copy, Debug, PartialEq)]
pub enum Program {
    Tape,
    Drive,
    Outbox,
}

impl Program {
    pub fn parse(word: &str) -> Option<Self> {
        match word {
            "tape" => Some(Self::Tape),
            "drive" => Some(Self::Drive),
            "outbox" => Some(Self::Outbox),
            _ => None,
        }
    }

    /// What it prints for a script.
    pub fn run(self, script: &[u8]) -> Lines {
        self.counted(script).0
    }

    /// The same, and how many calls the script has.
    pub fn counted(self, script: &[u8]) -> (Lines, usize) {
        match self {
            Self::Tape => Player::new(Drive::tape()).run(script),
            Self::Drive => Player::new(Drive::new()).run(script),
            Self::Outbox => Player::new(Sender::default()).run(script),
        }
    }
}

#[derive(Clone, Copy, Debug)]
pub struct Options {
    pub program: Program,
    /// One boat signs off, near the end.
    pub signoff: bool,
    /// Messages that claim more than a message can have.
    pub overlong: bool,
    /// Level fields of 63.
    pub unheard: bool,
    /// Nothing is posted, and the settings of data bursts stay as they are.
    pub noposts: bool,
    /// So much is posted that the total comes to its end.
    pub far: bool,
}

impl Options {
    pub fn parse(words: &[&str]) -> Option<Self> {
        let mut options = Self {
            program: Program::Drive,
            signoff: false,
            overlong: false,
            unheard: false,
            noposts: false,
            far: false,
        };
        for word in words {
            match *word {
                "signoff" => options.signoff = true,
                "overlong" => options.overlong = true,
                "unheard" => options.unheard = true,
                "noposts" => options.noposts = true,
                "far" => options.far = true,
                program => options.program = Program::parse(program)?,
            }
        }
        Some(options)
    }
}
