//! Steps.
use crate::additions::Additions;
use crate::agent::Reading;
use crate::error::{Error, answer, done, done_or_refusal, done_with};
use crate::holder::{Holder, commit, offer_text};
use crate::instruction::{Instruction, Move};
use crate::json::{Json, ToJson};
use crate::number::MoveNumber;
use crate::owned_slot::text_of_call;
use crate::play::Outcome;
use crate::prepared::PreparedMove;
use crate::sys;
use crate::value::{Element, Location, Value};
use std::cell::RefCell;
use std::fmt;

/// A transaction of an agent: it gets values, pushes moves and commits.
///
/// Gets and pushes come in any order. All see one state and the moves pushed before. The commit fires one move that does what
/// these do in turn.
///
/// It borrows its agent. A step that is dropped without [`Step::commit`] has done nothing.
#[must_use = "a step does nothing until it is committed"]
pub struct Step<'a> {
    pub(crate) agent: Holder<'a>,
    pub(crate) number: u32,
    pub(crate) additions: RefCell<Additions>,
}

impl<'a> Step<'a> {
    pub(crate) fn new(agent: Holder<'a>, number: u32) -> Step<'a> {
        Step { agent, number, additions: RefCell::default() }
    }
}

impl Step<'_> {
    /// The number of moves at which it began.
    pub fn number(&self) -> MoveNumber {
        MoveNumber::from(self.number).behind(self.agent.before())
    }

    /// As [`Step::get`], of each of the locations.
    ///
    /// # Errors
    ///
    /// Those of [`Step::get`].
    pub fn get_each(&self, places: &[Location]) -> Result<Vec<Value>, Error> {
        self.read_locations(sys::asm_get, places)
    }

    /// Returns what [`Step::get_each`] returns, of any number of locations; tracks nothing.
    ///
    /// So the step commits even if another agent has written there since. It is for what is only shown.
    ///
    /// # Errors
    ///
    /// [`Error::Refused`], [`Error::Memory`].
    pub fn see(&self, places: &[Location]) -> Result<Vec<Value>, Error> {
        self.read_locations(sys::asm_see, places)
    }

    fn read_locations(&self, call: ByText, places: &[Location]) -> Result<Vec<Value>, Error> {
        let text = places.json();
        // SAFETY: the slots are of one agent and its step, which this thread alone has, and the texts and numbers outlive the call.
        let (code, output) = self.text_of_settled_call(|slot, step, out, room, written| unsafe {
            call(slot, step, text.as_ptr(), text.len(), out, room, written)
        })?;
        done_with(code, sys::FORM_LOCATIONS, &text)?;
        Ok(answer(&output, Reading::of)?.values)
    }

    /// Makes a call with the slots of the agent and the step that writes a text: its code and the text.
    pub(crate) fn text_of_call(
        &self,
        mut call: impl FnMut(*mut sys::Slot, *mut sys::Slot, *mut u8, usize, *mut usize) -> i32,
    ) -> Result<(i32, Vec<u8>), Error> {
        self.agent.with(|agent| {
            Ok(text_of_call(|out, room, written| call(agent.slots.agent(), agent.slots.step(), out, room, written)))
        })
    }

    /// As `text_of_call`, after the additions that wait.
    pub(crate) fn text_of_settled_call(
        &self,
        call: impl FnMut(*mut sys::Slot, *mut sys::Slot, *mut u8, usize, *mut usize) -> i32,
    ) -> Result<(i32, Vec<u8>), Error> {
        self.settle()?;
        self.text_of_call(call)
    }

    /// Scans a function: returns all its locations, ascending.
    ///
    /// The step then depends on the whole function: a write to any location of it, including one that had no value, makes the
    /// commit stale. It counts as one of 256, however many locations it has.
    ///
    /// # Errors
    ///
    /// [`Error::Many`], [`Error::Memory`].
    pub fn scan(&self, name: &str) -> Result<Vec<(Location, Value)>, Error> {
        // SAFETY: the slots are of one agent and its step, which this thread alone has, and the texts and numbers outlive the call.
        let (code, text) = self.text_of_settled_call(|slot, step, out, room, written| unsafe {
            sys::asm_step_scan(slot, step, name.as_ptr(), name.len(), out, room, written)
        })?;
        done(code)?;
        answer(&text, Json::pairs)
    }

    /// Pushes the move; later calls see its effect.
    ///
    /// # Errors
    ///
    /// A refused move leaves what is pushed unchanged.
    ///
    /// - [`Error::Clash`]: its updates clash on what is seen.
    /// - [`Error::Deep`]: 64 moves are pushed already.
    /// - [`Error::Many`]: the one move of all would have more than 4,096 instructions, or the step depend on more than 256
    ///   places.
    /// - [`Error::Large`], [`Error::Refused`], [`Error::Memory`].
    pub fn push(&mut self, instructions: &Move) -> Result<(), Error> {
        self.additions.get_mut().forget();
        self.grow(sys::asm_push, instructions.instructions())
    }

    /// Joins the move to the one that was pushed last, with which it is popped.
    ///
    /// So it is never too deep.
    ///
    /// # Errors
    ///
    /// Those of [`Step::push`] except [`Error::Deep`].
    pub fn extend(&mut self, instructions: &Move) -> Result<(), Error> {
        self.additions.get_mut().forget();
        self.grow(sys::asm_extend, instructions.instructions())
    }

    pub(crate) fn grow(&mut self, call: ByText, instructions: &[Instruction]) -> Result<(), Error> {
        let text = instructions.json();
        // SAFETY: the slots are of one agent and its step, which this thread alone has, and the texts and numbers outlive the call.
        let (code, output) = self.text_of_settled_call(|slot, step, out, room, written| unsafe {
            call(slot, step, text.as_ptr(), text.len(), out, room, written)
        })?;
        match code {
            sys::NOT_JSON | sys::SHAPE => {
                let call = format!("{{\"fire\":{text},\"reads\":[]}}");
                done_with(code, sys::FORM_MOVE, &call)
            }
            code => done_or_refusal(code, &output),
        }
    }

    /// As [`Step::push`], of a move that was gathered without text.
    ///
    /// # Errors
    ///
    /// Those of [`Step::push`].
    pub fn push_prepared(&mut self, instructions: &PreparedMove) -> Result<(), Error> {
        self.grow_prepared(sys::asm_push_move, sys::asm_push, instructions)
    }

    /// As [`Step::extend`], of a move that was gathered without text.
    ///
    /// # Errors
    ///
    /// Those of [`Step::extend`].
    pub fn extend_prepared(&mut self, instructions: &PreparedMove) -> Result<(), Error> {
        self.grow_prepared(sys::asm_extend_move, sys::asm_extend, instructions)
    }

    fn grow_prepared(&mut self, call: ByMove, by_text: ByText, instructions: &PreparedMove) -> Result<(), Error> {
        // An empty slot holds no move, not one of no instructions.
        if instructions.is_empty() {
            return self.grow(by_text, &[]);
        }
        self.settle()?;
        self.additions.get_mut().forget();
        self.grow_by_move(call, instructions)
    }

    pub(crate) fn grow_by_move(&self, call: ByMove, instructions: &PreparedMove) -> Result<(), Error> {
        // SAFETY: the slots are of one agent and its step, which this thread alone has, and the texts and numbers outlive the call.
        let (code, output) = self.text_of_call(|slot, step, out, room, written| unsafe {
            call(slot, step, instructions.slot.at(), out, room, written)
        })?;
        done_or_refusal(code, &output)
    }

    /// Puts the value, in a move that joins what was pushed last.
    ///
    /// # Errors
    ///
    /// Those of [`Step::extend`].
    pub fn put(&mut self, at: impl Into<Location>, value: impl Into<Value>) -> Result<(), Error> {
        self.change(Instruction::Put(at.into(), value.into()))
    }

    /// Adds the element to the set there, in a move that joins what was pushed last.
    ///
    /// Additions in a row to one set, bag or number are instructions of one move: so the step doesn't depend on the value there.
    /// They join once the step makes another call. If they don't fit together, as counts above their limit don't, that call and
    /// each further one is refused.
    ///
    /// # Errors
    ///
    /// Those of [`Step::extend`].
    pub fn add(&mut self, at: impl Into<Location>, element: impl Into<Element>) -> Result<(), Error> {
        self.change(Instruction::Add(at.into(), element.into()))
    }

    /// Removes the element from the set there, in a move that joins what was pushed last.
    ///
    /// # Errors
    ///
    /// Those of [`Step::extend`].
    pub fn remove(&mut self, at: impl Into<Location>, element: impl Into<Element>) -> Result<(), Error> {
        self.change(Instruction::Remove(at.into(), element.into()))
    }

    /// Adds the element to the bag there the given number of times, in a move that joins what was pushed last.
    ///
    /// See [`Step::add`].
    ///
    /// # Errors
    ///
    /// Those of [`Step::extend`].
    pub fn bag_add(&mut self, at: impl Into<Location>, element: impl Into<Element>, amount: u32) -> Result<(), Error> {
        self.change(Instruction::BagAdd(at.into(), element.into(), amount))
    }

    /// Removes the element from the bag there the given number of times, in a move that joins what was pushed last.
    ///
    /// # Errors
    ///
    /// Those of [`Step::extend`].
    pub fn bag_remove(
        &mut self,
        at: impl Into<Location>,
        element: impl Into<Element>,
        amount: u32,
    ) -> Result<(), Error> {
        self.change(Instruction::BagRemove(at.into(), element.into(), amount))
    }

    /// Adds to the number there, in a move that joins what was pushed last.
    ///
    /// See [`Step::add`].
    ///
    /// # Errors
    ///
    /// Those of [`Step::extend`].
    pub fn inc(&mut self, at: impl Into<Location>, by: i64) -> Result<(), Error> {
        self.change(Instruction::Inc(at.into(), by))
    }

    /// Takes the move away that was pushed last, with those that joined it.
    ///
    /// # Errors
    ///
    /// - [`Error::NoMove`]: none is pushed.
    /// - [`Error::Many`], [`Error::Memory`].
    pub fn pop(&mut self) -> Result<(), Error> {
        self.settle()?;
        self.additions.get_mut().forget();
        // SAFETY: the slots are of one agent and its step, which this thread alone has, and the texts and numbers outlive the call.
        self.agent.with(|agent| match unsafe { sys::asm_pop(agent.slots.step()) } {
            sys::NO_PUSH => Err(Error::NoMove),
            code => done(code),
        })
    }

    /// Pops as [`Step::pop`] does, and returns one move for the popped ones.
    ///
    /// It does what they do in turn. [`Step::push_prepared`] and [`Step::extend_prepared`] take it, of any step. A move that
    /// nothing joined is unchanged.
    ///
    /// # Errors
    ///
    /// - [`Error::NoMove`]: none is pushed.
    /// - [`Error::Many`]: the one move would have more than 4,096 instructions; nothing is popped.
    /// - [`Error::Memory`].
    pub fn pop_move(&mut self) -> Result<PreparedMove, Error> {
        self.settle()?;
        self.additions.get_mut().forget();
        PreparedMove::put_by(|slot| self.pop_into(slot))
    }

    pub(crate) fn pop_into(&self, slot: *mut sys::Slot) -> Result<(), Error> {
        // SAFETY: the slots are of one agent and its step, which this thread alone has, and the texts and numbers outlive the call.
        self.agent.with(|agent| match unsafe { sys::asm_pop_move(agent.slots.step(), slot) } {
            sys::NO_PUSH => Err(Error::NoMove),
            code => done(code),
        })
    }

    /// Returns what [`Step::commit`] would fire now: the one move, and the named locations.
    ///
    /// [`Agent::fire`](crate::Agent::fire) takes both; each location has its number. A commit also depends on the functions of
    /// [`Step::scan`], which aren't in it.
    ///
    /// # Errors
    ///
    /// [`Error::Many`], [`Error::Memory`].
    pub fn offer(&self) -> Result<(Move, Vec<(Location, MoveNumber)>), Error> {
        self.settle()?;
        let (instructions, mut reads) = answer(&self.agent.with(offer_text)?, Json::offer)?;
        reads.iter_mut().for_each(|(_, number)| *number = number.behind(self.agent.before()));
        Ok((instructions, reads))
    }

    /// How many moves are pushed.
    pub fn depth(&self) -> u32 {
        self.pushed().unwrap_or(0)
    }

    pub(crate) fn pushed(&self) -> Result<u32, Error> {
        // SAFETY: the slots are of one agent and its step, which this thread alone has, and the texts and numbers outlive the call.
        let depth = self.agent.with(|agent| Ok(unsafe { sys::asm_depth(agent.slots.step()) }))?;
        Ok(depth.max(u32::from(!self.additions.borrow().is_empty())))
    }

    /// Commits the step, unless it is stale, and returns the number of the fired move.
    ///
    /// It fires one move that does what the pushed ones do in turn, unless something was written since on which the step depends.
    ///
    /// # Errors
    ///
    /// - [`Error::Conflict`]: another agent was quicker, so begin again, as [`Agent::play`](crate::Agent::play) does.
    /// - [`Error::Full`]: the storage has no room for a further move. Of a step of a run that is a conflict too.
    /// - [`Error::Many`], [`Error::Memory`].
    /// - [`Error::TooLong`]: a line of the journal could be longer than an audit reads.
    #[must_use = "a stale step has fired nothing"]
    pub fn commit(self) -> Result<MoveNumber, Error> {
        self.settle()?;
        let fired = match &self.agent {
            Holder::Own(agent) => commit(agent),
            Holder::Seat(seat_step) => seat_step.commit(),
        };
        fired.map(|number| MoveNumber::from(number).behind(self.agent.before()))
    }

    /// As [`Step::commit`], for loops by hand: a conflict is an outcome, and no error.
    ///
    /// ```
    /// use folugben::{Agent, Error, MoveNumber, Outcome};
    ///
    /// fn raise(agent: &mut Agent) -> Result<MoveNumber, Error> {
    ///     loop {
    ///         let mut step = agent.step()?;
    ///         let n = step.get_or("n", 0)?;
    ///         step.put("n", n + 1)?;
    ///         if let Outcome::Fired(number) = step.try_commit()? {
    ///             return Ok(number);
    ///         }
    ///     }
    /// }
    /// # let storage = folugben::Storage::open([], 5).unwrap();
    /// # assert_eq!(raise(&mut storage.agent(0).unwrap()), Ok(MoveNumber::new(1)));
    /// ```
    ///
    /// # Errors
    ///
    /// Those of [`Step::commit`] but [`Error::Conflict`].
    pub fn try_commit(self) -> Result<Outcome, Error> {
        match self.commit() {
            Ok(number) => Ok(Outcome::Fired(number)),
            Err(Error::Conflict(conflict)) => Ok(Outcome::Conflict(conflict)),
            Err(error) => Err(error),
        }
    }
}

type ByText = unsafe extern "C" fn(*mut sys::Slot, *mut sys::Slot, *const u8, usize, *mut u8, usize, *mut usize) -> i32;
type ByMove = unsafe extern "C" fn(*mut sys::Slot, *mut sys::Slot, *mut sys::Slot, *mut u8, usize, *mut usize) -> i32;

impl Drop for Step<'_> {
    fn drop(&mut self) {
        if let Holder::Own(agent) = &self.agent {
            agent.slots.end_step();
        }
    }
}

impl fmt::Debug for Step<'_> {
    fn fmt(&self, f: &mut fmt::Formatter<'_>) -> fmt::Result {
        f.debug_struct("Step")
            .field("agent", &self.agent.number())
            .field("number", &self.number)
            .field("depth", &self.depth())
            .finish()
    }
}
