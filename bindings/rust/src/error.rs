//! What calls are refused for.
use crate::audit::AuditError;
use crate::cause::{Cause, Conflict, Limit, OutOfRange};
use crate::json::{Json, read};
use crate::number::{AgentNumber, MoveNumber};
use crate::owned_slot::text_of_call;
use crate::run::Broken;
use crate::sys;
use crate::value::{Location, Value};
use std::{fmt, io};

pub(crate) const TOO_LONG: &str = "a line would be longer than the 1,073,741,824 bytes that an audit reads";

/// Why a call wasn't done. Nothing was fired or lost, except by [`Error::Broken`].
#[derive(Clone, Debug, PartialEq, Eq)]
#[non_exhaustive]
pub enum Error {
    /// Another agent was quicker: begin again.
    Conflict(Conflict),
    /// The updates clash at the location: those of a push on what the step sees, or those of a fire without a step.
    Clash {
        /// The smallest location whose updates clash.
        at: Location,
        /// Why they do.
        cause: Cause,
    },
    /// As many moves were fired as the storage's capacity.
    Full,
    /// A move, a read or a state would make a line of a journal longer than the 1,073,741,824 bytes that an audit reads.
    TooLong,
    /// The agent hasn't polled to the end of a full storage.
    NotFull,
    /// Out of memory; the call may be made again.
    Memory,
    /// Too many locations or instructions; which limit it is, and how many there were.
    Many(Limit),
    /// 64 moves are pushed already.
    Deep,
    /// An amount or a sum is too large, at this location.
    Large(Location),
    /// The value of a location is of another kind than the call returns.
    OtherKind {
        /// The location.
        at: Location,
        /// Which kind was wanted, in English: "number", for example.
        wanted: &'static str,
        /// What is there.
        found: Value,
    },
    /// No move is pushed, so there is none to pop.
    NoMove,
    /// No journal was made since an agent was returned.
    NoJournal,
    /// A number is out of its range: a capacity, a count of agents, an amount, or the number of a read that the agent hasn't seen.
    Range(OutOfRange),
    /// An agent with this number was made before.
    NumberTaken(AgentNumber),
    /// No agent with this number was returned, or another one has it.
    NotGiven(AgentNumber),
    /// The move with this number has no receipt among the agents that were returned; the agent that fired it was
    /// abandoned, or isn't returned yet.
    Missing(MoveNumber),
    /// The agent, or the mark of what it has seen, is of another storage.
    OtherStorage,
    /// The run was closed.
    Closed,
    /// The run ended at a part that couldn't be saved, and what this part and later ones have is lost.
    Broken(Broken),
    /// Another run, of this process or another one, uses the folder.
    InUse,
    /// A segment of a run is missing, or isn't the one that was saved.
    Damaged {
        /// The number of the segment.
        segment: u64,
        /// What was found.
        why: String,
    },
    /// A file or a folder couldn't be opened, read or written to.
    File {
        /// What kind of failure it was.
        kind: io::ErrorKind,
        /// What the system said.
        why: String,
    },
    /// A run isn't legal.
    Audit(AuditError),
    /// What was passed is beyond the rules of names, sets, bags, lists or moves; the text says where and why.
    Refused(String),
    /// A code of the library that this version doesn't know.
    Unknown(i32),
}

impl Error {
    /// Whether to begin again, on what other agents have written since.
    #[must_use]
    pub fn is_retry(&self) -> bool {
        matches!(self, Error::Conflict(_))
    }

    /// Of a step's fire: a clash is one with what was written since.
    pub(crate) fn of_fire(self) -> Error {
        match self {
            Error::Clash { at, cause } => Error::Conflict(Conflict::Clash { at, cause }),
            error => error,
        }
    }
}

impl fmt::Display for Error {
    fn fmt(&self, f: &mut fmt::Formatter<'_>) -> fmt::Result {
        match self {
            Error::Conflict(conflict) => conflict.fmt(f),
            Error::Clash { at, cause } => write!(f, "the updates clash at {at}: {cause}"),
            Error::Full => f.write_str("as many moves were fired as the storage has room for"),
            Error::TooLong => f.write_str(TOO_LONG),
            Error::NotFull => f.write_str("the agent hasn't looked on to the end of a full storage"),
            Error::Memory => f.write_str("out of memory"),
            Error::Many(limit) => limit.fmt(f),
            Error::Deep => f.write_str("64 moves are pushed already"),
            Error::Large(at) => write!(f, "too large an amount or sum at {at}"),
            Error::OtherKind { at, wanted, found } => write!(f, "no {wanted} is at {at}: {:.60}", found.to_string()),
            Error::NoMove => f.write_str("no move is pushed"),
            Error::NoJournal => f.write_str("no journal was made since an agent was returned"),
            Error::Range(range) => range.fmt(f),
            Error::NumberTaken(number) => write!(f, "an agent {number} was made before"),
            Error::NotGiven(number) => write!(f, "agent {number} wasn't returned, or is in use"),
            Error::Missing(number) => write!(f, "move {number} was fired by an agent that wasn't returned"),
            Error::OtherStorage => f.write_str("the agent is of another storage"),
            Error::Closed => f.write_str("the run was closed"),
            Error::Broken(ended) => ended.fmt(f),
            Error::InUse => f.write_str("another run uses the folder"),
            Error::Damaged { segment, why } => write!(f, "segment {segment}: {why}"),
            Error::Audit(error) => error.fmt(f),
            Error::File { why, .. } | Error::Refused(why) => f.write_str(why),
            Error::Unknown(code) => f.write_str(&code_text(*code)),
        }
    }
}

impl std::error::Error for Error {
    fn source(&self) -> Option<&(dyn std::error::Error + 'static)> {
        match self {
            Error::Conflict(conflict) => Some(conflict),
            Error::Broken(ended) => Some(ended),
            Error::Audit(error) => Some(error),
            _ => None,
        }
    }
}

impl From<Conflict> for Error {
    fn from(conflict: Conflict) -> Error {
        Error::Conflict(conflict)
    }
}

/// What an audit reported through a reader or a writer is [`Error::Audit`] again; else it is [`Error::File`].
impl From<io::Error> for Error {
    fn from(error: io::Error) -> Error {
        match error.downcast::<AuditError>() {
            Ok(error) => error.into(),
            Err(error) => Error::File { kind: error.kind(), why: error.to_string() },
        }
    }
}

impl From<AuditError> for Error {
    fn from(error: AuditError) -> Error {
        match error {
            AuditError::Memory => Error::Memory,
            error => Error::Audit(error),
        }
    }
}

fn code_text(code: i32) -> String {
    // SAFETY: the text outlives the call, and no slot is passed.
    let (_, text) = text_of_call(|out, room, written| unsafe { sys::asm_error_text(code, out, room, written) });
    String::from_utf8_lossy(&text).into_owned()
}

/// Why a text of the form is refused.
fn explained(form: i32, text: &[u8]) -> Error {
    // SAFETY: the text outlives the call, and no slot is passed.
    let (code, why) = text_of_call(|out, room, written| unsafe {
        sys::asm_explain(form, text.as_ptr(), text.len(), out, room, written)
    });
    match code {
        sys::DONE if nests_too_deep(text) => Error::Refused("lists nest at most 8 deep".to_owned()),
        sys::DONE => Error::Refused(String::from_utf8_lossy(&why).into_owned()),
        _ => Error::Memory,
    }
}

/// Whether a list in a text of this crate is nested too deep. A text nested deeper than any may be is else said to be no JSON.
fn nests_too_deep(text: &[u8]) -> bool {
    let (mut depth, mut is_in_text, mut is_escaped) = (0_i32, false, false);
    text.iter().enumerate().any(|(i, byte)| {
        match byte {
            _ if is_escaped => is_escaped = false,
            b'\\' if is_in_text => is_escaped = true,
            b'"' => is_in_text = !is_in_text,
            b'{' if !is_in_text && text[i..].starts_with(b"{\"list\"") => depth += 1,
            // Of a set, a bag or an event, which lie outside of all lists.
            b'}' if !is_in_text => depth = (depth - 1).max(0),
            _ => {}
        }
        depth > 8
    })
}

/// Returns the error of a code that comes without more.
pub(crate) fn plain(code: i32) -> Error {
    match code {
        sys::MEMORY => Error::Memory,
        sys::FULL => Error::Full,
        sys::BUSY => Conflict::Busy.into(),
        sys::MANY => Error::Many(Limit::Places(None)),
        sys::LONG_LINE => Error::TooLong,
        sys::LONG_MOVE => Error::Many(Limit::Instructions),
        sys::DEEP => Error::Deep,
        sys::OTHER => Error::OtherStorage,
        code => Error::Unknown(code),
    }
}

/// Returns `Ok` for the code of success.
pub(crate) fn done(code: i32) -> Result<(), Error> {
    match code {
        sys::DONE => Ok(()),
        code => Err(plain(code)),
    }
}

/// As `done`, for a call that took a text of the form.
pub(crate) fn done_with(code: i32, form: i32, text: &str) -> Result<(), Error> {
    match code {
        sys::NOT_JSON | sys::SHAPE => Err(explained(form, text.as_bytes())),
        code => done(code),
    }
}

/// What a text that the library wrote is read as; a text of another form would be a fault of the library.
pub(crate) fn answer<T>(text: &[u8], form: impl FnOnce(Json) -> Option<T>) -> Result<T, Error> {
    read(text).and_then(form).ok_or_else(|| Error::Refused(format!("an unknown answer: {}", text.escape_ascii())))
}

/// Returns the error of an answer's text: {"stale":LOC}, {"clash":[LOC,CAUSE]} or {"large":LOC}.
pub(crate) fn of_text(code: i32, text: &[u8]) -> Error {
    let refusal = answer(text, |it| match code {
        sys::STALE => it.member("stale")?.location().map(|at| Conflict::Stale(at).into()),
        sys::LARGE => it.member("large")?.location().map(Error::Large),
        _ => {
            let [at, cause] = it.member("clash")?.tuple()?;
            Some(Error::Clash { at: at.location()?, cause: Cause::named(&cause.text()?)? })
        }
    });
    refusal.unwrap_or_else(|error| error)
}

/// As `done`, for a call that writes the text of a refusal.
pub(crate) fn done_or_refusal(code: i32, text: &[u8]) -> Result<(), Error> {
    match code {
        sys::STALE | sys::CLASH | sys::LARGE => Err(of_text(code, text)),
        code => done(code),
    }
}
