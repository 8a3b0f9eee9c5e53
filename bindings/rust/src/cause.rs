//! Why calls are refused, in detail.
use crate::error::Error;
use crate::number::MoveNumber;
use crate::value::Location;
use std::fmt;

/// Why the updates of a location clash.
#[derive(Clone, Copy, Debug, PartialEq, Eq, Hash)]
#[non_exhaustive]
pub enum Cause {
    /// Two different values are put.
    Two,
    /// Instructions of two of these: sets, bags, numbers.
    Mixed,
    /// The present value is no set, no bag or no number.
    Kind,
    /// An element is added to a set and removed from it.
    Both,
    /// A value is put that the other instructions don't agree with.
    Against,
    /// More of an element is removed than the bag has.
    Short,
    /// A count above 4,294,967,295, or a number outside the range of `i64`.
    Large,
}

impl Cause {
    pub(crate) fn named(word: &str) -> Option<Cause> {
        Some(match word {
            "Two" => Cause::Two,
            "Mixed" => Cause::Mixed,
            "Kind" => Cause::Kind,
            "Both" => Cause::Both,
            "Against" => Cause::Against,
            "Short" => Cause::Short,
            "Large" => Cause::Large,
            _ => return None,
        })
    }
}

impl fmt::Display for Cause {
    fn fmt(&self, f: &mut fmt::Formatter<'_>) -> fmt::Result {
        f.write_str(match self {
            Cause::Two => "two different values are put",
            Cause::Mixed => "updates of two kinds: sets, bags, numbers",
            Cause::Kind => "no set, no bag or no number is there",
            Cause::Both => "an element is added and removed",
            Cause::Against => "a value is put that the other updates don't agree with",
            Cause::Short => "more is removed than the bag has",
            Cause::Large => "too large a count or number",
        })
    }
}

/// How a step met another agent's moves: begin it again, as [`Agent::play`](crate::Agent::play) does.
#[derive(Clone, Debug, PartialEq, Eq)]
#[non_exhaustive]
pub enum Conflict {
    /// The location was written since the step began, or since the number at which it is named.
    Stale(Location),
    /// Something was written since that the step's moves don't fit.
    Clash {
        /// The smallest location whose updates clash.
        at: Location,
        /// Why they do.
        cause: Cause,
    },
    /// 64 attempts to append in a row were lost to other agents.
    Busy,
    /// The part of a run in which the step began has ended.
    Past,
}

impl fmt::Display for Conflict {
    fn fmt(&self, f: &mut fmt::Formatter<'_>) -> fmt::Result {
        match self {
            Conflict::Stale(at) => write!(f, "{at} was written since"),
            Conflict::Clash { at, cause } => write!(f, "the updates clash at {at} by now: {cause}"),
            Conflict::Busy => f.write_str("64 attempts to append in a row were lost to other agents"),
            Conflict::Past => f.write_str("the part of the run has ended, so begin another step"),
        }
    }
}

impl std::error::Error for Conflict {}

/// A number that is out of its range.
#[derive(Clone, Copy, Debug, PartialEq, Eq)]
#[non_exhaustive]
pub struct OutOfRange {
    /// What the number is, in English.
    pub what: &'static str,
    /// The number.
    pub value: u64,
    /// The smallest one that is allowed.
    pub least: u64,
    /// The greatest one that is allowed.
    pub most: u64,
}

impl OutOfRange {
    /// A storage's capacity, or the moves of a run's part.
    pub(crate) fn capacity(value: u32) -> Error {
        Error::Range(OutOfRange { what: "the capacity", value: value.into(), least: 1, most: 1 << 20 })
    }

    /// How many segments of a run stay.
    pub(crate) fn keep(value: u64) -> Error {
        Error::Range(OutOfRange { what: "the number of kept segments", value, least: 1, most: u64::MAX })
    }

    pub(crate) fn agents(count: usize) -> Error {
        Error::Range(OutOfRange { what: "the count of agents", value: count as u64, least: 0, most: 256 })
    }

    /// A number of moves that an agent hasn't seen, at which a location or a function is named.
    pub(crate) fn ahead(number: MoveNumber, seen: MoveNumber) -> Error {
        Error::Range(OutOfRange { what: "the number of a read", value: number.get(), least: 0, most: seen.get() })
    }
}

impl fmt::Display for OutOfRange {
    fn fmt(&self, f: &mut fmt::Formatter<'_>) -> fmt::Result {
        let OutOfRange { what, value, least, most } = self;
        write!(f, "{what} is {value}, and must be {least} to {most}")
    }
}

/// A limit that was passed.
#[derive(Clone, Copy, Debug, PartialEq, Eq)]
#[non_exhaustive]
pub enum Limit {
    /// At most 256 locations and functions in a read, a fire or a step's read set: how many there were, if that is known.
    Places(Option<usize>),
    /// At most 4,096 instructions in a move, or in the one move of a step.
    Instructions,
}

impl fmt::Display for Limit {
    fn fmt(&self, f: &mut fmt::Formatter<'_>) -> fmt::Result {
        match self {
            Limit::Places(Some(count)) => write!(f, "{count} locations and functions, at most 256"),
            Limit::Places(None) => f.write_str("more than 256 locations and functions"),
            Limit::Instructions => f.write_str("more than 4,096 instructions in a move"),
        }
    }
}
