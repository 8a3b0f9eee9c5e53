//! The segments of a run, whose names and texts the library takes in their order, and checks.
use crate::audit::{AuditError, Counts};
use crate::error::{Error, done, plain};
use crate::owned_slot::{OwnedSlot, text_of_call};
use crate::sys;
use std::ffi::{OsStr, OsString};
use std::io;
use std::os::unix::ffi::{OsStrExt, OsStringExt};

/// A call of the system that comes next.
#[derive(Clone, Copy, PartialEq, Eq)]
pub(crate) enum Request {
    Rest,
    RemoveNew,
    CreateNew,
    WriteNew,
    FlushNew,
    RenameNew,
    FlushFolder,
    RemoveOldest,
}

/// In the order of their numbers.
const REQUESTS: [Request; 8] = [
    Request::Rest,
    Request::RemoveNew,
    Request::CreateNew,
    Request::WriteNew,
    Request::FlushNew,
    Request::RenameNew,
    Request::FlushFolder,
    Request::RemoveOldest,
];

/// Takes the segments of a run in their order, each name and each text once, and says how further ones are saved.
///
/// The first one may have any number, as those before it may have been dropped.
pub(crate) struct Trail {
    slot: OwnedSlot,
    /// The first segment whose text was taken.
    first: Option<sys::Segment>,
    /// The last segment whose name was taken.
    last: Option<sys::Segment>,
    /// How many calls the segments have.
    calls: u64,
}

impl Trail {
    pub(crate) fn new() -> Result<Trail, Error> {
        let slot = OwnedSlot::empty();
        // SAFETY: the slot is held by this trail.
        done(unsafe { sys::asm_run_open(slot.at()) })?;
        Ok(Trail { slot, first: None, last: None, calls: 0 })
    }

    /// Takes the next name, of a text of so many bytes; returns what it says.
    pub(crate) fn name(&mut self, name: &OsStr, bytes: u64) -> Result<sys::Segment, Error> {
        let (text, mut found) = (name.as_bytes(), sys::Segment::default());
        // SAFETY: the slot is held by this trail, and the bytes and numbers outlive the call.
        match unsafe { sys::asm_run_name(self.slot.at(), text.as_ptr(), text.len(), bytes, &raw mut found) } {
            sys::DONE => {
                self.last = Some(found);
                // Only the names of a damaged run have more than all calls that there may be.
                self.calls = self.calls.wrapping_add(found.events);
                Ok(found)
            }
            code => Err(self.no_name(code, &name.to_string_lossy())),
        }
    }

    /// Returns why there is no next segment with this name.
    fn no_name(&self, code: i32, name: &str) -> Error {
        let next = self.last.map_or(0, |it| it.number + 1);
        let moves = self.last.map_or(0, |it| it.first + it.moves);
        match code {
            sys::NOT_NEXT => {
                let number = name.get(..8).and_then(|it| it.parse().ok()).unwrap_or(next);
                let is_twice = number + 1 == next;
                let why =
                    if is_twice { format!("another file has this number too: {name}") } else { MISSING.to_owned() };
                damaged(next.min(number), why)
            }
            sys::OPENING => damaged(0, "the opening segment has no event, and nothing before it".to_owned()),
            sys::PREVIOUS => damaged(
                next,
                format!("its name has another PREVIOUS or FIRST than the segments before it, of {moves} moves"),
            ),
            sys::NAME => damaged(next, format!("{name:?} is no name of a segment")),
            sys::LONG_RUN => damaged(next, TOO_MANY.to_owned()),
            code => plain(code),
        }
    }

    /// Takes the next name without its text.
    pub(crate) fn skip(&mut self, name: &OsStr) -> Result<(), Error> {
        self.name(name, 0)?;
        // SAFETY: the slot is held by this trail.
        done(unsafe { sys::asm_run_skip(self.slot.at()) })
    }

    /// Takes the next bytes of the text; its end reports what is wrong with them.
    pub(crate) fn text(&mut self, bytes: &[u8]) -> Result<(), Error> {
        // SAFETY: the slot is held by this trail, and the bytes outlive the call.
        done(unsafe { sys::asm_run_text(self.slot.at(), bytes.as_ptr(), bytes.len()) })
    }

    /// Ends the text: returns the counts of all texts that were taken.
    pub(crate) fn end(&mut self) -> Result<Counts, Error> {
        let (last, mut numbers) = (self.last.unwrap_or_default(), sys::AuditNumbers::default());
        let part = last.number;
        // SAFETY: the slot is held by this trail, and the numbers outlive the call.
        match unsafe { sys::asm_run_end(self.slot.at(), &raw mut numbers) } {
            sys::DONE => {
                let first = *self.first.get_or_insert(last);
                Ok(Counts { first_part: first.number, moves_before: first.first, ..Counts::of(numbers) })
            }
            sys::DAMAGED => Err(damaged(part, "its text isn't the one that was saved".to_owned())),
            sys::COUNTS => Err(damaged(part, "its text has other numbers of moves or events than its name".to_owned())),
            sys::LONG_RUN => Err(damaged(part, TOO_MANY.to_owned())),
            sys::LONG_LINE => Err(Error::Audit(AuditError::LongLine { part })),
            code => Err(AuditError::of(code, sys::AuditNumbers { parts: part, ..numbers }).into()),
        }
    }

    /// Returns how many calls the segments have whose names were taken.
    pub(crate) fn calls(&self) -> u64 {
        self.calls
    }

    /// Returns the state that the segments leave.
    pub(crate) fn state_text(&self) -> Result<Vec<u8>, Error> {
        // SAFETY: the slot is held by this trail, and the bytes outlive the call.
        let (code, text) =
            text_of_call(|out, room, written| unsafe { sys::asm_run_state(self.slot.at(), out, room, written) });
        done(code).map(|()| text)
    }

    /// Goes on after the segments that were taken: from now on more are saved.
    pub(crate) fn begin(&mut self) -> Result<(), Error> {
        // SAFETY: the slot is held by this trail.
        done(unsafe { sys::asm_run_read(self.slot.at()) })
    }

    /// Begins to save the next segment, with so many moves and calls: returns its name.
    pub(crate) fn hand(&mut self, more: Counts, text: &[u8]) -> Result<OsString, Error> {
        let Counts { moves, calls, .. } = more;
        // SAFETY: the slot is held by this trail, and the bytes outlive the call.
        let (code, name) = text_of_call(|out, room, written| unsafe {
            sys::asm_run_hand(self.slot.at(), moves, calls, text.as_ptr(), text.len(), out, room, written)
        });
        match code {
            sys::LONG_RUN => Err(io::Error::new(io::ErrorKind::FileTooLarge, TOO_MANY).into()),
            code => done(code).map(|()| OsString::from_vec(name)),
        }
    }

    /// Begins to drop the oldest segment.
    pub(crate) fn drop_oldest(&mut self) -> Result<(), Error> {
        let mut number = 0;
        // SAFETY: the slot is held by this trail, and the number outlives the call.
        done(unsafe { sys::asm_run_drop(self.slot.at(), &raw mut number) })
    }

    /// Returns the call of the system that comes next.
    pub(crate) fn request(&self) -> Result<Request, Error> {
        let mut request = 0;
        // SAFETY: the slot is held by this trail, and the number outlives the call.
        done(unsafe { sys::asm_run_request(self.slot.at(), &raw mut request) })?;
        let known = usize::try_from(request).ok().and_then(|it| REQUESTS.get(it));
        known.copied().ok_or(Error::Unknown(request))
    }

    /// Notes that this call was made.
    pub(crate) fn done(&mut self) -> Result<(), Error> {
        // SAFETY: the slot is held by this trail.
        done(unsafe { sys::asm_run_done(self.slot.at()) })
    }

    /// Notes that this call failed: no further one comes.
    pub(crate) fn failed(&mut self) {
        // SAFETY: the slot is held by this trail. It is full, so no other code comes.
        let _ = unsafe { sys::asm_run_failed(self.slot.at()) };
    }

    /// Returns how many segments and moves are saved, with those that were dropped.
    pub(crate) fn saved(&self) -> sys::RunNumbers {
        let mut saved = sys::RunNumbers::default();
        // SAFETY: the slot is held by this trail, and the bytes and numbers outlive the call. It is full, so no other code comes.
        let _ = text_of_call(|out, room, written| unsafe {
            sys::asm_run_saved(self.slot.at(), &raw mut saved, out, room, written)
        });
        saved
    }
}

pub(crate) const MISSING: &str = "its file is missing";
const TOO_MANY: &str = "a run has at most 100,000,000 segments, and less than 2^64 moves and events";

pub(crate) fn damaged(segment: u64, why: String) -> Error {
    Error::Damaged { segment, why }
}
