use std::fmt;

/// What is wrong with a plan. The discriminants are the numbers of the format.
#[derive(Clone, Copy, Debug, PartialEq, Eq, Hash)]
#[repr(u8)]
pub enum Cause {
    TooLong = 30,
    Incomplete = 31,
    Mark = 32,
    Edition = 33,
    Spare = 34,
    Kind = 35,
    Range = 36,
    AfterEnd = 37,
}

impl Cause {
    pub fn number(self) -> u8 {
        self as u8
    }

    /// The layer of the format that tells it.
    pub fn layer(self) -> &'static str {
        match self {
            Self::TooLong | Self::AfterEnd => "plan",
            Self::Incomplete => "bits",
            Self::Mark | Self::Edition | Self::Spare | Self::Kind | Self::Range => "record",
        }
    }
}

/// The first fault of a plan.
#[derive(Clone, Copy, Debug, PartialEq, Eq)]
pub struct Fault {
    pub cause: Cause,
    /// The byte in which the field at fault starts.
    pub byte: usize,
    /// 0 for the header, 1 upward for events.
    pub record: usize,
}

impl fmt::Display for Fault {
    fn fmt(&self, f: &mut fmt::Formatter<'_>) -> fmt::Result {
        let Self { cause, byte, record } = self;
        write!(f, "plan fault {} at {byte} record {record} in {}", cause.number(), cause.layer())
    }
}

impl std::error::Error for Fault {}
