//! The numbers of moves and of agents.
use std::fmt;

/// The number of a move among all of its storage or run, from 1 up; also how many moves were fired up to some moment.
///
/// ```
/// use folugben::MoveNumber;
/// assert_eq!(MoveNumber::new(7), 7);
/// assert_eq!(MoveNumber::default().get(), 0); // before the first move
/// ```
#[derive(Clone, Copy, Debug, Default, PartialEq, Eq, PartialOrd, Ord, Hash)]
pub struct MoveNumber(u64);

impl MoveNumber {
    /// The number.
    #[must_use]
    pub const fn new(number: u64) -> MoveNumber {
        MoveNumber(number)
    }

    /// The number.
    #[must_use]
    pub const fn get(self) -> u64 {
        self.0
    }

    /// The same behind so many moves of the run's parts before.
    pub(crate) fn behind(self, before: u64) -> MoveNumber {
        MoveNumber(before + self.0)
    }
}

/// The number of an agent among those of its storage or run, 0 to 255.
///
/// ```
/// use folugben::AgentNumber;
/// assert_eq!(AgentNumber::new(7), 7);
/// assert_eq!(usize::from(AgentNumber::from(7)), 7);
/// ```
#[derive(Clone, Copy, Debug, Default, PartialEq, Eq, PartialOrd, Ord, Hash)]
pub struct AgentNumber(u8);

impl AgentNumber {
    /// The number.
    #[must_use]
    pub const fn new(number: u8) -> AgentNumber {
        AgentNumber(number)
    }

    /// The number.
    #[must_use]
    pub const fn get(self) -> u8 {
        self.0
    }
}

impl From<u8> for AgentNumber {
    fn from(number: u8) -> AgentNumber {
        AgentNumber(number)
    }
}

macro_rules! from_agent_number {
    ($($to:ty)*) => {$(
        impl From<AgentNumber> for $to {
            fn from(number: AgentNumber) -> $to {
                number.0.into()
            }
        }
    )*};
}

from_agent_number! { u8 u32 u64 i64 usize }

impl PartialEq<u8> for AgentNumber {
    fn eq(&self, other: &u8) -> bool {
        self.0 == *other
    }
}

impl fmt::Display for AgentNumber {
    fn fmt(&self, f: &mut fmt::Formatter<'_>) -> fmt::Result {
        self.0.fmt(f)
    }
}

impl From<u32> for MoveNumber {
    fn from(number: u32) -> MoveNumber {
        MoveNumber(number.into())
    }
}

impl From<MoveNumber> for u64 {
    fn from(number: MoveNumber) -> u64 {
        number.0
    }
}

impl PartialEq<u64> for MoveNumber {
    fn eq(&self, other: &u64) -> bool {
        self.0 == *other
    }
}

impl fmt::Display for MoveNumber {
    fn fmt(&self, f: &mut fmt::Formatter<'_>) -> fmt::Result {
        self.0.fmt(f)
    }
}
