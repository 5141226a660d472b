use std::fmt;

/// Why a call was refused. A refused call changes nothing.
#[derive(Clone, Copy, Debug, PartialEq, Eq)]
#[repr(u8)]
pub enum Refusal {
    /// Clock not finite, negative or above 1,000,000,000.
    Clock = 1,
    /// Level not finite or outside -200 to 200.
    Level = 2,
    /// Words malformed.
    Words = 3,
    /// Output too small.
    SmallOut = 4,
    /// A setting outside its span; `take`: above 64 pieces, or a size of 0 or above 255.
    Setting = 5,
    /// Cell number not below the count.
    CellNumber = 6,
    /// Store too small: there must be a cell.
    SmallMemory = 7,
    /// Slot above 61.
    Slot = 8,
    /// Closing count above 15.
    Closing = 9,
    /// No member in the slot.
    NoMember = 21,
    /// No landed message in the cell.
    NotLanded = 22,
    /// The net is full and the call unknown.
    Full = 23,
    /// Bytes kept for the boat and new ones above 2,048.
    NoSpace = 24,
    /// Total posted to the boat above 16,777,215.
    Total = 25,
    /// Not 62 figures, or one above 1,000,000,000.
    Figures = 26,
    /// A fault in the marks of a log.
    Marks = 27,
    /// The sending end holds eight messages.
    Eight = 28,
    /// A message above 2,046 bytes.
    Long = 29,
}

const ALL: [Refusal; 18] = {
    use Refusal::*;
    [
        Clock,
        Level,
        Words,
        SmallOut,
        Setting,
        CellNumber,
        SmallMemory,
        Slot,
        Closing,
        NoMember,
        NotLanded,
        Full,
        NoSpace,
        Total,
        Figures,
        Marks,
        Eight,
        Long,
    ]
};

impl Refusal {
    /// Its number, as in shore.h and the words.
    pub fn number(self) -> u8 {
        self as u8
    }

    /// What a call's number says: 0 is no refusal.
    pub(crate) fn check(number: u8) -> Result<(), Refusal> {
        match ALL.iter().find(|r| r.number() == number) {
            Some(r) => Err(*r),
            None if number == 0 => Ok(()),
            None => panic!("a refusal that the library does not have: {number}"),
        }
    }
}

impl fmt::Display for Refusal {
    fn fmt(&self, f: &mut fmt::Formatter) -> fmt::Result {
        write!(f, "refused, {}: {self:?}", self.number())
    }
}

impl std::error::Error for Refusal {}
