//! Why runs end before they are closed.
use crate::error::TOO_LONG;
use crate::number::MoveNumber;
use std::{fmt, io};

/// Where and why a [`Run`](crate::Run) ended before it was closed. What was saved before is complete.
#[derive(Clone, Debug, PartialEq, Eq)]
#[non_exhaustive]
pub struct Broken {
    /// The number of the part that couldn't be saved, which would be that of its segment.
    pub part: u64,
    /// Why it couldn't.
    pub cause: EndCause,
}

/// Why a part of a [`Run`](crate::Run) couldn't be saved.
#[derive(Clone, Debug, PartialEq, Eq)]
#[non_exhaustive]
pub enum EndCause {
    /// The part's move with this number was fired by an agent that is lost.
    Missing(MoveNumber),
    /// A file couldn't be written or flushed to the disk.
    Write {
        /// What kind of failure it was.
        kind: io::ErrorKind,
        /// What the system said.
        why: String,
    },
    /// The folder, its lock or its last segment was removed, replaced or truncated meanwhile.
    Damaged {
        /// The number of the segment.
        segment: u64,
        /// What was found.
        why: String,
    },
    /// No memory for the part's journal.
    Memory,
    /// A line of the part's journal is longer than an audit reads.
    TooLong,
}

impl fmt::Display for Broken {
    fn fmt(&self, f: &mut fmt::Formatter<'_>) -> fmt::Result {
        write!(f, "the run ended at part {}: {}", self.part, self.cause)
    }
}

impl fmt::Display for EndCause {
    fn fmt(&self, f: &mut fmt::Formatter<'_>) -> fmt::Result {
        match self {
            EndCause::Missing(number) => write!(f, "the agent that fired its move {number} is lost"),
            EndCause::Write { why, .. } => f.write_str(why),
            EndCause::Damaged { segment, why } => write!(f, "segment {segment}: {why}"),
            EndCause::Memory => f.write_str("out of memory"),
            EndCause::TooLong => f.write_str(TOO_LONG),
        }
    }
}

impl std::error::Error for Broken {
    fn source(&self) -> Option<&(dyn std::error::Error + 'static)> {
        Some(&self.cause)
    }
}

impl std::error::Error for EndCause {}
