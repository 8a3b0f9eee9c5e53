//! What an agent shows of its own state.
use crate::agent::{Agent, Reading};
use crate::error::{Error, answer, done, done_with};
use crate::json::{Json, ToJson};
use crate::number::MoveNumber;
use crate::owned_slot::text_of_call;
use crate::prepared::{Prepared, value_of};
use crate::sys;
use crate::value::{Location, Value};

impl Agent {
    /// Before its own state is shown: polls if another agent took that since the last commit.
    pub(crate) fn catch_up(&self) -> Result<(), Error> {
        if self.slots.is_behind() { self.poll().map(drop) } else { Ok(()) }
    }

    /// Returns the values of the locations in its own state.
    ///
    /// It leaves no receipt. It polls first only if the last call was a commit or a fire, and another agent has acted in this
    /// thread since. The same holds for all that shows its own state.
    ///
    /// # Errors
    ///
    /// [`Error::Refused`], [`Error::Memory`].
    pub fn peek(&self, places: &[Location]) -> Result<Reading, Error> {
        self.catch_up()?;
        let text = places.json();
        // SAFETY: the slots are held by this agent, no call is at work on them, and the texts and numbers outlive the call.
        let (code, output) = text_of_call(|out, room, written| unsafe {
            sys::asm_peek(self.slots.agent(), text.as_ptr(), text.len(), out, room, written)
        });
        done_with(code, sys::FORM_LOCATIONS, &text)?;
        answer(&output, Reading::of)
    }

    /// Returns the value of a prepared location in its own state, with its number.
    ///
    /// The number is that of the moves of that state.
    ///
    /// # Errors
    ///
    /// [`Error::Memory`].
    pub fn peek_at(&self, place: &Prepared) -> Result<(MoveNumber, Value), Error> {
        self.catch_up()?;
        let (mut number, mut head) = (0, sys::Value::default());
        // SAFETY: the slots are held by this agent, no call is at work on them, and the texts and numbers outlive the call.
        let (code, bytes) = text_of_call(|out, room, written| unsafe {
            sys::asm_peek_at(self.slots.agent(), place.slot.at(), &raw mut number, &raw mut head, out, room, written)
        });
        done(code)?;
        Ok((number.into(), value_of(&head, &bytes)?))
    }

    /// Its own state, in ascending order of locations, with its number of moves.
    ///
    /// # Errors
    ///
    /// [`Error::Memory`].
    pub fn state(&self) -> Result<(MoveNumber, Vec<(Location, Value)>), Error> {
        self.catch_up()?;
        let mut number = 0;
        // SAFETY: the slots are held by this agent, no call is at work on them, and the texts and numbers outlive the call.
        let (code, text) = text_of_call(|out, room, written| unsafe {
            sys::asm_state(self.slots.agent(), &raw mut number, out, room, written)
        });
        done(code)?;
        Ok((number.into(), answer(&text, Json::pairs)?))
    }

    /// Returns all locations of a function in its own state, with its number of moves.
    ///
    /// # Errors
    ///
    /// [`Error::Memory`].
    pub fn scan(&self, name: &str) -> Result<(MoveNumber, Vec<(Location, Value)>), Error> {
        self.catch_up()?;
        let mut number = 0;
        // SAFETY: the slots are held by this agent, no call is at work on them, and the texts and numbers outlive the call.
        let (code, text) = text_of_call(|out, room, written| unsafe {
            sys::asm_scan(self.slots.agent(), name.as_ptr(), name.len(), &raw mut number, out, room, written)
        });
        done(code)?;
        Ok((number.into(), answer(&text, Json::pairs)?))
    }
}
