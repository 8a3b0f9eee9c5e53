//! Agents.
use crate::cause::{Limit, OutOfRange};
use crate::error::{Error, answer, done, done_or_refusal, done_with, of_text};
use crate::holder::Holder;
use crate::instruction::Move;
use crate::json::{Json, ToJson};
use crate::number::{AgentNumber, MoveNumber};
use crate::owned_slot::{OwnedSlot, text_of_call};
use crate::play::{Attempt, Patience, Played};
use crate::step::Step;
use crate::storage::{Shared, Storage};
use crate::sys;
use crate::turns::AgentSlots;
use crate::value::{Location, Value};
use std::cell::Cell;
use std::collections::BTreeSet;
use std::fmt;
use std::marker::PhantomData;
use std::sync::Arc;

/// What was read: the values of the locations, in their order, after the first `number` moves.
#[derive(Clone, Debug, PartialEq, Eq)]
#[non_exhaustive]
pub struct Reading {
    /// The number of moves at which the values were read.
    pub number: MoveNumber,
    /// The values.
    pub values: Vec<Value>,
}

impl Reading {
    pub(crate) fn of(json: Json) -> Option<Reading> {
        let Json::Object(mut members) = json else {
            return None;
        };
        let number: u32 = members.remove("number")?.number()?;
        Some(Reading { number: number.into(), values: members.remove("values")?.values()? })
    }
}

/// Who reads the state and fires moves on it, in any one thread at a time.
///
/// It is returned to its storage when it is dropped; its answered calls are then in the journal of the next
/// [`Storage::close`](crate::Storage::close).
pub struct Agent {
    pub(crate) slots: Arc<AgentSlots>,
    shared: Arc<Shared>,
    number: AgentNumber,
    is_recording: bool,
    /// It isn't Sync.
    in_one_thread: PhantomData<Cell<()>>,
}

impl Agent {
    pub(crate) fn new(agent: OwnedSlot, shared: &Arc<Shared>, number: AgentNumber) -> Agent {
        let slots = Arc::new(AgentSlots::new(agent, number, shared.lent()));
        let is_recording = shared.is_recording();
        Agent { slots, shared: Arc::clone(shared), number, is_recording, in_one_thread: PhantomData }
    }

    pub(crate) fn is_of(&self, shared: &Arc<Shared>) -> bool {
        Arc::ptr_eq(&self.shared, shared)
    }

    /// Its number among the agents of its storage.
    #[must_use]
    pub fn number(&self) -> AgentNumber {
        self.number
    }

    /// Sets whether each commit of a step records what the step read. By default it doesn't.
    ///
    /// A commit that records first polls, and adds a receipt of a read: the locations that its move names, which still have their
    /// values at the step's version. So the journal shows what the move was computed from, and
    /// [`Journal::check`](crate::Journal::check) judges that too. No read is added if the move names no location, or if one of
    /// them was written since. What [`Step::scan`] found stays out of the journal, and so does what [`Step::see`] returned. Each
    /// commit then takes up to twice the receipts.
    ///
    /// ```
    /// use folugben::{Error, Storage};
    /// # fn main() -> Result<(), Error> {
    /// let storage = Storage::open([("n".into(), 6.into())], 10)?;
    /// let mut agent = storage.agent(0)?;
    /// agent.set_recording(true);
    /// agent.play(|step| step.put("double", 2 * step.get_num("n")?))?;
    /// drop(agent);
    /// let journal = String::from_utf8_lossy(storage.close()?.as_bytes()).into_owned();
    /// assert!(journal.contains(r#""call":{"read":[["n"]]},"reply":{"number":0,"values":[6]}"#));
    /// # Ok(())
    /// # }
    /// ```
    pub fn set_recording(&mut self, is_recording: bool) {
        self.is_recording = is_recording;
    }

    /// Whether commits record what their steps read.
    #[must_use]
    pub fn is_recording(&self) -> bool {
        self.is_recording
    }

    /// How many moves it has seen.
    #[must_use]
    pub fn seen(&self) -> MoveNumber {
        // SAFETY: the slots are held by this agent, no call is at work on them, and the texts and numbers outlive the call.
        unsafe { sys::asm_seen(self.slots.agent()) }.into()
    }

    /// How many moves it fired.
    #[must_use]
    pub fn won(&self) -> u32 {
        // SAFETY: the slots are held by this agent, no call is at work on them, and the texts and numbers outlive the call.
        unsafe { sys::asm_won(self.slots.agent()) }
    }

    /// How many of its polls found no further move.
    #[must_use]
    pub fn misses(&self) -> u64 {
        // SAFETY: the slots are held by this agent, no call is at work on them, and the texts and numbers outlive the call.
        unsafe { sys::asm_misses(self.slots.agent()) }
    }

    /// Polls, and begins a step on the state that it then sees.
    ///
    /// # Errors
    ///
    /// [`Error::Memory`]: the call may be made again.
    pub fn step(&mut self) -> Result<Step<'_>, Error> {
        let number = self.begin()?;
        Ok(Step::new(Holder::Own(self), number))
    }

    /// Polls, and begins a step in its slot at the number that it returns.
    pub(crate) fn begin(&mut self) -> Result<u32, Error> {
        self.slots.begin_turn();
        let mut number = 0;
        // SAFETY: the slots are held by this agent, no call is at work on them, and the texts and numbers outlive the call.
        let code = unsafe { sys::asm_begin(self.slots.agent(), self.slots.step(), &raw mut number) };
        done(self.slots.polled(code))?;
        Ok(number)
    }

    /// Plays the rule on a step and fires it, and begins again at each [`Error::Conflict`].
    ///
    /// A rule that pushes nothing fires nothing; what it read is of one state all the same. Between vain tries other threads run,
    /// and the agent sleeps for up to a millisecond after some.
    ///
    /// # Errors
    ///
    /// - An error of the rule ends the play, and nothing is fired.
    /// - [`Error::Full`], [`Error::Many`], [`Error::TooLong`], [`Error::Memory`] of the step and its fire.
    pub fn play<T, E: From<Error>>(&mut self, rule: impl FnMut(&mut Step<'_>) -> Result<T, E>) -> Result<Played<T>, E> {
        self.play_with(Patience::new(), rule)
    }

    /// The same, as long as the patience lasts.
    ///
    /// # Errors
    ///
    /// Those of [`Agent::play`], and the last [`Error::Conflict`] once the patience has ended.
    pub fn play_with<T, E: From<Error>>(
        &mut self,
        patience: Patience,
        mut rule: impl FnMut(&mut Step<'_>) -> Result<T, E>,
    ) -> Result<Played<T>, E> {
        patience.play(|| {
            let mut step = self.step()?;
            let result = rule(&mut step)?;
            Ok(Attempt::of(result, step)?)
        })
    }

    /// Reads at most 256 locations, and keeps a receipt of the answer.
    ///
    /// # Errors
    ///
    /// [`Error::Many`], [`Error::Refused`], [`Error::TooLong`], [`Error::Memory`].
    pub fn read(&mut self, places: &[Location]) -> Result<Reading, Error> {
        self.slots.begin_turn();
        let text = places.json();
        // SAFETY: the slots are held by this agent, no call is at work on them, and the texts and numbers outlive the call.
        let code = unsafe { sys::asm_read(self.slots.agent(), text.as_ptr(), text.len()) };
        self.slots.polled(code);
        if code == sys::MANY {
            let different = places.iter().collect::<BTreeSet<_>>();
            return Err(Error::Many(Limit::Places(Some(different.len()))));
        }
        done_with(code, sys::FORM_LOCATIONS, &text)?;
        answer(&self.last_answer()?, Reading::of)
    }

    /// Fires the move, unless a named location was written since, and returns its number.
    ///
    /// At most 256 locations are named, each at a number of moves since which it must not have been written.
    ///
    /// # Errors
    ///
    /// - [`Error::Conflict`]: a named location was written since, or too many attempts to append failed; so read again.
    /// - [`Error::Clash`]: the updates clash.
    /// - [`Error::Range`]: a number is above [`Agent::seen`].
    /// - [`Error::Full`], [`Error::Many`], [`Error::Refused`], [`Error::TooLong`], [`Error::Memory`].
    pub fn fire(&mut self, instructions: &Move, reads: &[(Location, MoveNumber)]) -> Result<MoveNumber, Error> {
        self.fire_over(instructions, reads, &[])
    }

    /// Fires the move as [`Agent::fire`] does, and depends on whole functions too.
    ///
    /// It doesn't fire if a location of one of these functions was written since the number that [`Agent::scan`] returned,
    /// including one that had no value. Locations and functions together are at most 256.
    ///
    /// # Errors
    ///
    /// Those of [`Agent::fire`].
    pub fn fire_over(
        &mut self,
        instructions: &Move,
        reads: &[(Location, MoveNumber)],
        scans: &[(&str, MoveNumber)],
    ) -> Result<MoveNumber, Error> {
        self.expect_seen(reads)?;
        self.expect_seen(scans)?;
        self.slots.begin_turn();
        let mut text = String::from("{\"fire\":");
        instructions.instructions().write(&mut text);
        text.push_str(",\"reads\":");
        reads.write(&mut text);
        text.push('}');
        let over = scans.json();
        let mut numbers = sys::Numbers::default();
        // SAFETY: the slots are held by this agent, no call is at work on them, and the texts and numbers outlive the call.
        let code = unsafe {
            let (slot, scans) = (self.slots.agent(), over.as_ptr());
            sys::asm_try_fire_over(slot, text.as_ptr(), text.len(), scans, over.len(), &raw mut numbers)
        };
        self.slots.has_acted();
        match code {
            sys::STALE | sys::CLASH => Err(of_text(code, &self.last_answer()?)),
            sys::MANY => Err(Error::Many(Limit::Places(Some(reads.len() + scans.len())))),
            code => {
                done_with(code, sys::FORM_MOVE, &text)?;
                Ok(numbers.fired.into())
            }
        }
    }

    /// Expects numbers of moves that it has seen itself; any other one would guard nothing.
    fn expect_seen<T>(&self, named: &[(T, MoveNumber)]) -> Result<(), Error> {
        let seen = self.seen();
        match named.iter().find(|(_, number)| *number > seen) {
            Some((_, number)) => Err(OutOfRange::ahead(*number, seen)),
            None => Ok(()),
        }
    }

    pub(crate) fn last_answer(&self) -> Result<Vec<u8>, Error> {
        // SAFETY: the slots are held by this agent, no call is at work on them, and the texts and numbers outlive the call.
        let (code, text) =
            text_of_call(|out, room, written| unsafe { sys::asm_answer(self.slots.agent(), out, room, written) });
        done(code)?;
        Ok(text)
    }

    /// Learns what the other agent has seen.
    ///
    /// Its further answers then come after all of the other's so far.
    ///
    /// # Errors
    ///
    /// [`Error::OtherStorage`]: it is an agent of another storage.
    pub fn learn(&mut self, other: &mut Agent) -> Result<(), Error> {
        if !self.is_of(&other.shared) {
            return Err(Error::OtherStorage);
        }
        // SAFETY: the slots are held by this agent, no call is at work on them, and the texts and numbers outlive the call.
        done(unsafe { sys::asm_learn(self.slots.agent(), other.slots.agent()) })
    }

    /// Polls, and returns how many moves it has then seen. It leaves no receipt.
    ///
    /// # Errors
    ///
    /// [`Error::Memory`].
    pub fn follow(&mut self) -> Result<MoveNumber, Error> {
        self.poll().map(MoveNumber::from)
    }

    pub(crate) fn poll(&self) -> Result<u32, Error> {
        self.slots.begin_turn();
        let mut number = 0;
        // SAFETY: the slots are held by this agent, no call is at work on them, and the texts and numbers outlive the call.
        let code = unsafe { sys::asm_follow(self.slots.agent(), &raw mut number) };
        done(self.slots.polled(code))?;
        Ok(number)
    }

    /// Polls, and checks that none of the named locations was written since.
    ///
    /// It leaves no receipt, and a fire may still be stale, by a move that comes in between.
    ///
    /// # Errors
    ///
    /// - [`Error::Conflict`]: the smallest location that was written.
    /// - [`Error::Range`]: a number is above [`Agent::seen`].
    /// - [`Error::Many`], [`Error::Refused`], [`Error::Memory`].
    pub fn stands(&mut self, reads: &[(Location, MoveNumber)]) -> Result<(), Error> {
        self.expect_seen(reads)?;
        self.slots.begin_turn();
        let text = reads.json();
        // SAFETY: the slots are held by this agent, no call is at work on them, and the texts and numbers outlive the call.
        let (code, output) = text_of_call(|out, room, written| unsafe {
            sys::asm_stands(self.slots.agent(), text.as_ptr(), text.len(), out, room, written)
        });
        match self.slots.polled(code) {
            sys::NOT_JSON | sys::SHAPE => {
                let call = format!("{{\"fire\":[],\"reads\":{text}}}");
                done_with(code, sys::FORM_MOVE, &call)
            }
            sys::MANY => Err(Error::Many(Limit::Places(Some(reads.len())))),
            code => done_or_refusal(code, &output),
        }
    }

    /// Opens a storage for `capacity` moves that goes on where the agent's own is full.
    ///
    /// Its opening state is the state after all moves; its agents and numbers start again. No journal is needed, and no other
    /// agent waits.
    ///
    /// # Errors
    ///
    /// - [`Error::NotFull`]: the agent's own state is at fewer moves than its storage has room for. If that is full,
    ///   [`Agent::follow`] brings the state there.
    /// - [`Error::Range`]: the capacity is outside 1 to 1,048,576.
    /// - [`Error::TooLong`]: a journal can't open with that state.
    /// - [`Error::Memory`].
    pub fn go_on(&self, capacity: u32) -> Result<Storage, Error> {
        self.catch_up()?;
        let next = OwnedSlot::empty();
        // SAFETY: the slots are held by this agent, no call is at work on them, and the texts and numbers outlive the call.
        match unsafe { sys::asm_go_on(self.slots.agent(), capacity, next.at()) } {
            sys::NOT_FULL => Err(Error::NotFull),
            sys::CAPACITY => Err(OutOfRange::capacity(capacity)),
            code => {
                done(code)?;
                let next = Storage::of(next)?;
                next.set_recording(self.shared.is_recording());
                Ok(next)
            }
        }
    }

    /// Frees the agent without returning it: its moves stay, but its storage can't be closed if it fired any.
    pub fn abandon(self) {
        self.slots.leave().free();
    }
}

impl Drop for Agent {
    fn drop(&mut self) {
        if self.slots.leave().is_full() {
            self.shared.give(Arc::clone(&self.slots));
        }
    }
}

impl fmt::Debug for Agent {
    fn fmt(&self, f: &mut fmt::Formatter<'_>) -> fmt::Result {
        f.debug_struct("Agent").field("number", &self.number).field("seen", &self.seen()).finish_non_exhaustive()
    }
}
