use std::fmt;

/// Why a call is refused. The discriminants are the numbers of the rules.
#[derive(Clone, Copy, Debug, PartialEq, Eq, Hash)]
#[repr(u8)]
pub enum Refusal {
    CoreCount = 1,
    Figure = 2,
    Start = 3,
    Terms = 4,
    NotTaken = 5,
    NoSuchCore = 6,
    RoundOut = 11,
    NoSuchRound = 12,
    LastTick = 13,
    NotLive = 14,
    TooManyLive = 15,
    NumbersGiven = 16,
    NoRoom = 17,
    NotResting = 18,
    Resting = 19,
    SameCore = 20,
    Behind = 21,
    LedgerFull = 22,
}

impl Refusal {
    pub fn number(self) -> u8 {
        self as u8
    }
}

impl fmt::Display for Refusal {
    fn fmt(&self, f: &mut fmt::Formatter<'_>) -> fmt::Result {
        write!(f, "refused {}", self.number())
    }
}

impl std::error::Error for Refusal {}
