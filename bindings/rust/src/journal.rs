//! Journals, and moves without a storage.
use crate::error::{Error, answer, done_or_refusal, done_with};
use crate::instruction::{Instruction, Move};
use crate::json::{Json, ToJson};
use crate::owned_slot::text_of_call;
use crate::sys;
use crate::value::{Location, Value};
use std::fmt;
use std::io;

/// Whether each answer in a journal is that of a sequential storage.
#[derive(Clone, Copy, Debug, PartialEq, Eq)]
pub enum Legality {
    /// Each answer is that of a sequential storage.
    Legal {
        /// How many calls were answered.
        calls: u64,
        /// How many of them fired a move.
        moves: u32,
    },
    /// The first answer that is another.
    Illegal {
        /// The number of its call, from 0 up.
        call: u64,
    },
}

impl Legality {
    /// Whether each answer is right.
    #[must_use]
    pub fn is_legal(self) -> bool {
        matches!(self, Legality::Legal { .. })
    }
}

/// Why bytes are no journal; lines count from 1.
#[derive(Clone, Copy, Debug, PartialEq, Eq)]
#[non_exhaustive]
pub enum JournalError {
    /// The line isn't JSON.
    NotJson(u64),
    /// The line is JSON of another shape, or beyond a limit.
    Shape(u64),
    /// A journal of another version than 1 and 2.
    Version,
    /// It ends too early.
    Cut,
    /// Out of memory.
    Memory,
}

impl fmt::Display for JournalError {
    fn fmt(&self, f: &mut fmt::Formatter<'_>) -> fmt::Result {
        match self {
            JournalError::NotJson(line) => write!(f, "line {line} isn't JSON"),
            JournalError::Shape(line) => write!(f, "line {line} is no line of a journal"),
            JournalError::Version => f.write_str("a journal of another version than 1 and 2"),
            JournalError::Cut => f.write_str("the journal ends too early"),
            JournalError::Memory => f.write_str("out of memory"),
        }
    }
}

impl std::error::Error for JournalError {}

/// What `replay`, `check` and `trace` of a journal that the storage closed can't return except for want of memory.
impl From<JournalError> for Error {
    fn from(error: JournalError) -> Error {
        match error {
            JournalError::Memory => Error::Memory,
            error => Error::Refused(error.to_string()),
        }
    }
}

fn journal_error(code: i32, line: u64) -> JournalError {
    match code {
        sys::NOT_JSON => JournalError::NotJson(line),
        sys::SHAPE => JournalError::Shape(line),
        sys::VERSION => JournalError::Version,
        sys::CUT => JournalError::Cut,
        _ => JournalError::Memory,
    }
}

/// The text of a history: a header line, and a line for each answered call.
#[derive(Clone, PartialEq, Eq)]
pub struct Journal {
    text: Vec<u8>,
}

impl Journal {
    /// The text.
    #[must_use]
    pub fn as_bytes(&self) -> &[u8] {
        &self.text
    }

    /// The text.
    #[must_use]
    pub fn into_bytes(self) -> Vec<u8> {
        self.text
    }

    /// Writes the complete text.
    ///
    /// # Errors
    ///
    /// Those of the output.
    pub fn write_to(&self, mut output: impl io::Write) -> io::Result<()> {
        output.write_all(&self.text)
    }

    /// Checks whether each answer is that of a sequential storage.
    ///
    /// # Errors
    ///
    /// It is no journal, or there is no memory.
    pub fn check(&self) -> Result<Legality, JournalError> {
        let (mut calls, mut moves) = (0, 0);
        // SAFETY: the texts and numbers outlive the call, and no slot is passed.
        match unsafe { sys::asm_check(self.text.as_ptr(), self.text.len(), &raw mut calls, &raw mut moves) } {
            sys::DONE => Ok(Legality::Legal { calls, moves }),
            sys::ILLEGAL => Ok(Legality::Illegal { call: calls }),
            code => Err(journal_error(code, calls)),
        }
    }

    /// Returns the state after its moves, in ascending order of locations.
    ///
    /// The journal isn't checked.
    ///
    /// # Errors
    ///
    /// Those of [`Journal::check`].
    pub fn replay(&self) -> Result<Vec<(Location, Value)>, JournalError> {
        let mut line = 0;
        // SAFETY: the texts and numbers outlive the call, and no slot is passed.
        let (code, text) = text_of_call(|out, room, written| unsafe {
            sys::asm_replay(self.text.as_ptr(), self.text.len(), out, room, written, &raw mut line)
        });
        match code {
            sys::DONE => answer(&text, Json::pairs).map_err(|_| JournalError::Memory),
            code => Err(journal_error(code, line)),
        }
    }

    /// Returns its trace, legal or not: what each of its calls did.
    ///
    /// It has the form that a viewer takes.
    ///
    /// # Errors
    ///
    /// Those of [`Journal::check`].
    pub fn trace(&self) -> Result<Vec<u8>, JournalError> {
        let mut line = 0;
        // SAFETY: the texts and numbers outlive the call, and no slot is passed.
        let (code, text) = text_of_call(|out, room, written| unsafe {
            sys::asm_trace(self.text.as_ptr(), self.text.len(), out, room, written, &raw mut line)
        });
        match code {
            sys::DONE => Ok(text),
            code => Err(journal_error(code, line)),
        }
    }
}

impl From<Vec<u8>> for Journal {
    fn from(text: Vec<u8>) -> Journal {
        Journal { text }
    }
}

impl AsRef<[u8]> for Journal {
    fn as_ref(&self) -> &[u8] {
        &self.text
    }
}

impl fmt::Debug for Journal {
    fn fmt(&self, f: &mut fmt::Formatter<'_>) -> fmt::Result {
        f.debug_struct("Journal").field("bytes", &self.text.len()).finish()
    }
}

/// The form of a fire of this move, and its text.
fn move_text(instructions: &Move) -> (i32, String) {
    (sys::FORM_MOVE, format!("{{\"fire\":{},\"reads\":[]}}", instructions.instructions().json()))
}

/// As `done_or_refusal`, for a call that took two texts of these forms.
fn is_ok(code: i32, output: &[u8], texts: impl FnOnce() -> [(i32, String); 2]) -> Result<(), Error> {
    if code == sys::NOT_JSON || code == sys::SHAPE {
        for (form, text) in texts() {
            match done_with(code, form, &text) {
                Err(Error::Refused(why)) if why.is_empty() => {}
                result => return result,
            }
        }
    }
    done_or_refusal(code, output)
}

/// Returns the updates of the move on the state, in ascending order of locations.
///
/// The state needs only the locations of partial updates.
///
/// # Errors
///
/// - [`Error::Clash`]: the smallest location that clashes.
/// - [`Error::Large`], [`Error::Many`], [`Error::Refused`], [`Error::Memory`].
pub fn aggregate(state: &[(Location, Value)], instructions: &Move) -> Result<Vec<(Location, Value)>, Error> {
    let (state, text) = (state.json(), instructions.instructions().json());
    // SAFETY: the texts and numbers outlive the call, and no slot is passed.
    let (code, output) = text_of_call(|out, room, written| unsafe {
        sys::asm_aggregate(state.as_ptr(), state.len(), text.as_ptr(), text.len(), out, room, written)
    });
    is_ok(code, &output, || [(sys::FORM_STATE, state), move_text(instructions)])?;
    answer(&output, Json::pairs)
}

/// One move that does what the first and then the second do.
///
/// # Errors
///
/// - [`Error::Clash`], [`Error::Large`]: on no state both fire.
/// - [`Error::Many`]: it would have more than 4,096 instructions.
/// - [`Error::Refused`], [`Error::Memory`].
pub fn compose(first: &Move, second: &Move) -> Result<Move, Error> {
    let (one, other) = (first.instructions().json(), second.instructions().json());
    // SAFETY: the texts and numbers outlive the call, and no slot is passed.
    let (code, output) = text_of_call(|out, room, written| unsafe {
        sys::asm_compose(one.as_ptr(), one.len(), other.as_ptr(), other.len(), out, room, written)
    });
    is_ok(code, &output, || [move_text(first), move_text(second)])?;
    let instructions: Option<Vec<Instruction>> =
        answer(&output, |it| Some(it.list()?.into_iter().map(Json::instruction).collect()))?;
    let instructions = instructions.ok_or_else(|| Error::Refused("an unknown answer".to_owned()))?;
    Ok(instructions.into_iter().collect())
}

/// The version of the library: a million for each major version, a thousand for each minor one.
#[must_use]
pub fn version() -> u32 {
    // SAFETY: the texts and numbers outlive the call, and no slot is passed.
    unsafe { sys::asm_version() }
}
