//! The audit of a run of any length.
use crate::error::{Error, answer, plain};
use crate::journal::JournalError;
use crate::json::Json;
use crate::owned_slot::{OwnedSlot, text_of_call};
use crate::sys;
use crate::value::{Location, Value};
use std::{fmt, io};

/// The counts of a run, from its beginning, or from the first part that wasn't dropped.
#[derive(Clone, Copy, Debug, Default, PartialEq, Eq)]
#[non_exhaustive]
pub struct Counts {
    /// How many parts are complete.
    pub parts: u64,
    /// How many calls were answered, in all parts.
    pub calls: u64,
    /// How many of them fired a move.
    pub moves: u64,
    /// The number of the first part that is counted; those before it were dropped.
    pub first_part: u64,
    /// How many moves those have.
    pub moves_before: u64,
}

impl Counts {
    pub(crate) fn of(numbers: sys::AuditNumbers) -> Counts {
        let sys::AuditNumbers { parts, calls, moves } = numbers;
        Counts { parts, calls, moves, ..Counts::default() }
    }
}

impl fmt::Display for Counts {
    fn fmt(&self, f: &mut fmt::Formatter<'_>) -> fmt::Result {
        let Counts { parts, calls, moves, first_part, moves_before } = self;
        write!(f, "{calls} calls, {moves} moves, {parts} parts")?;
        match first_part {
            0 => Ok(()),
            _ => write!(f, ", from part {first_part} on, after {moves_before} moves"),
        }
    }
}

/// The first fault of a run. Parts and calls count from 0, lines from 1 in their part.
#[derive(Clone, Copy, Debug, PartialEq, Eq)]
#[non_exhaustive]
pub enum AuditError {
    /// The answer of the call differs from that of a sequential storage.
    Illegal {
        /// The part's number.
        part: u64,
        /// The call's number in its part.
        call: u64,
    },
    /// The part is no journal.
    Journal {
        /// The part's number.
        part: u64,
        /// Why it is none.
        fault: JournalError,
    },
    /// The part opens with another state than the one after the part before it.
    Apart {
        /// The part's number.
        part: u64,
    },
    /// A line of the part has more than 1,073,741,824 bytes.
    LongLine {
        /// The part's number.
        part: u64,
    },
    /// Out of memory; nothing was taken, and the same bytes may be written again.
    Memory,
}

impl AuditError {
    /// Returns the fault of a code of the audit, except `DONE`, and `LONG_LINE`, which comes without numbers.
    pub(crate) fn of(code: i32, numbers: sys::AuditNumbers) -> AuditError {
        let sys::AuditNumbers { parts: part, calls, .. } = numbers;
        let journal = |fault| AuditError::Journal { part, fault };
        match code {
            sys::ILLEGAL => AuditError::Illegal { part, call: calls },
            sys::NOT_JSON => journal(JournalError::NotJson(calls)),
            sys::SHAPE => journal(JournalError::Shape(calls)),
            sys::VERSION => journal(JournalError::Version),
            sys::CUT => journal(JournalError::Cut),
            sys::APART => AuditError::Apart { part },
            _ => AuditError::Memory,
        }
    }
}

impl fmt::Display for AuditError {
    fn fmt(&self, f: &mut fmt::Formatter<'_>) -> fmt::Result {
        match self {
            AuditError::Illegal { part, call } => write!(f, "part {part}: the answer of call {call} is wrong"),
            AuditError::Journal { part, fault } => write!(f, "part {part}: {fault}"),
            AuditError::Apart { part } => {
                write!(f, "part {part} opens with another state than the one before it leaves")
            }
            AuditError::LongLine { part } => write!(f, "part {part}: a line of more than 1,073,741,824 bytes"),
            AuditError::Memory => f.write_str("out of memory"),
        }
    }
}

impl std::error::Error for AuditError {}

/// The kind is `InvalidData`, or `OutOfMemory`; [`io::Error::downcast`] returns the error again.
impl From<AuditError> for io::Error {
    fn from(error: AuditError) -> io::Error {
        match error {
            AuditError::Memory => io::Error::new(io::ErrorKind::OutOfMemory, error),
            error => io::Error::new(io::ErrorKind::InvalidData, error),
        }
    }
}

/// Checks a run of any length as its bytes are written, in pieces of any size.
///
/// A run is a sequence of journals, its parts, each of which opens with the state after the one before it. The auditor holds
/// that state and one line.
///
/// The first fault is reported at the line feed of its line, by the write that would take it (`write_all`, [`io::copy`]), as
/// an [`io::Error`] that holds an [`AuditError`]; and then by all further writes and by [`Auditor::finish`].
///
/// ```
/// use folugben::{Auditor, Storage};
/// use std::io::Write;
/// # fn main() -> Result<(), Box<dyn std::error::Error>> {
/// let storage = Storage::open([("n".into(), 1.into())], 1)?;
/// let mut agent = storage.agent(0)?;
/// agent.play(|step| step.inc("n", 1))?;
/// agent.follow()?;
/// let next = agent.go_on(10)?;
/// drop(agent);
///
/// let mut auditor = Auditor::new();
/// storage.close()?.write_to(&mut auditor)?;
/// next.close()?.write_to(&mut auditor)?;
/// let counts = auditor.finish()?;
/// assert_eq!((counts.parts, counts.calls, counts.moves), (2, 1, 1));
/// assert_eq!(auditor.state()?, Some(vec![("n".into(), 2.into())]));
///
/// let error = auditor.write_all(b"what is this?\n").unwrap_err();
/// assert_eq!(error.to_string(), "part 2: line 1 isn't JSON");
/// # Ok(())
/// # }
/// ```
pub struct Auditor {
    slot: OwnedSlot,
    counts: Counts,
    fault: Option<AuditError>,
}

impl Auditor {
    /// Makes an auditor that has read nothing.
    #[must_use]
    pub fn new() -> Auditor {
        Auditor { slot: OwnedSlot::empty(), counts: Counts::default(), fault: None }
    }

    /// Returns the counts that were found right so far.
    #[must_use]
    pub fn counts(&self) -> Counts {
        self.counts
    }

    /// Returns the counts of a run that ends here, complete and legal.
    ///
    /// More may be written after that.
    ///
    /// # Errors
    ///
    /// - [`AuditError::Journal`] with `Cut` or `NotJson`: the last part or line isn't complete.
    /// - The fault that was reported before.
    pub fn finish(&self) -> Result<Counts, AuditError> {
        if let Some(fault) = self.fault {
            return Err(fault);
        }
        if !self.slot.is_full() {
            return Err(AuditError::Journal { part: 0, fault: JournalError::Cut });
        }
        let mut numbers = sys::AuditNumbers::default();
        // SAFETY: the slot is held by this auditor, and the bytes and numbers outlive the call.
        match unsafe { sys::asm_audited(self.slot.at(), &raw mut numbers) } {
            sys::DONE => Ok(Counts::of(numbers)),
            code => Err(AuditError::of(code, numbers)),
        }
    }

    /// Returns the state after the moves so far, in ascending order of locations.
    ///
    /// It is none before a part has begun.
    ///
    /// # Errors
    ///
    /// [`Error::Memory`].
    pub fn state(&self) -> Result<Option<Vec<(Location, Value)>>, Error> {
        self.state_text()?.map(|text| answer(&text, Json::pairs)).transpose()
    }

    pub(crate) fn state_text(&self) -> Result<Option<Vec<u8>>, Error> {
        // SAFETY: the slot is held by this auditor, and the bytes and numbers outlive the call.
        let (code, text) =
            text_of_call(|out, room, written| unsafe { sys::asm_audit_state(self.slot.at(), out, room, written) });
        match code {
            sys::DONE => Ok(Some(text)),
            sys::NO_PART | sys::EMPTY => Ok(None),
            code => Err(plain(code)),
        }
    }

    /// Passes the bytes on; returns the code, and how many were taken.
    fn feed(&mut self, bytes: &[u8]) -> (i32, usize, sys::AuditNumbers) {
        let (mut taken, mut numbers) = (0, sys::AuditNumbers::default());
        // SAFETY: the slot is held by this auditor, and the bytes and numbers outlive the call.
        let code =
            unsafe { sys::asm_audit(self.slot.at(), bytes.as_ptr(), bytes.len(), &raw mut taken, &raw mut numbers) };
        (code, taken, numbers)
    }
}

impl io::Write for Auditor {
    fn write(&mut self, bytes: &[u8]) -> io::Result<usize> {
        if let Some(fault) = self.fault {
            return Err(fault.into());
        }
        let (code, taken, numbers) = self.feed(bytes);
        match code {
            sys::DONE => self.counts = Counts::of(numbers),
            sys::MEMORY if taken == 0 => return Err(AuditError::Memory.into()),
            sys::MEMORY => {}
            code => {
                // What is before the fault is counted.
                if let (sys::DONE, _, numbers) = self.feed(&[]) {
                    self.counts = Counts::of(numbers);
                }
                let fault = match code {
                    sys::LONG_LINE => AuditError::LongLine { part: self.counts.parts },
                    code => AuditError::of(code, numbers),
                };
                self.fault = Some(fault);
                // A write that took bytes says so; the next one, of those after them, reports the fault.
                if taken == 0 {
                    return Err(fault.into());
                }
            }
        }
        Ok(taken)
    }

    fn flush(&mut self) -> io::Result<()> {
        Ok(())
    }
}

impl Default for Auditor {
    fn default() -> Auditor {
        Auditor::new()
    }
}

impl fmt::Debug for Auditor {
    fn fmt(&self, f: &mut fmt::Formatter<'_>) -> fmt::Result {
        f.debug_struct("Auditor").field("counts", &self.counts).field("fault", &self.fault).finish_non_exhaustive()
    }
}

/// Audits what the reader has, up to its end or the first fault, as an [`Auditor`] does.
///
/// # Errors
///
/// Those of the reader, and an error that holds an [`AuditError`].
///
/// ```no_run
/// use folugben::AuditError;
/// use std::{fs::File, io};
/// # fn main() -> io::Result<()> {
/// match folugben::audit(File::open("run.journal")?).map_err(io::Error::downcast) {
///     Ok(counts) => println!("legal: {counts}"),
///     Err(Ok(AuditError::Illegal { part, call })) => println!("call {call} of part {part} is wrong"),
///     Err(Ok(error)) => println!("no run: {error}"),
///     Err(Err(error)) => return Err(error),
/// }
/// # Ok(())
/// # }
/// ```
pub fn audit(mut input: impl io::Read) -> io::Result<Counts> {
    let mut auditor = Auditor::new();
    io::copy(&mut input, &mut auditor)?;
    Ok(auditor.finish()?)
}
