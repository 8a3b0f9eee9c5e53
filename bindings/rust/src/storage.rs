//! Storages.
use crate::agent::Agent;
use crate::cause::OutOfRange;
use crate::error::{Error, done, done_with, plain};
use crate::journal::Journal;
use crate::json::ToJson;
use crate::number::AgentNumber;
use crate::owned_slot::{OwnedSlot, text_of_call};
use crate::sys;
use crate::turns::{AGENTS, AgentSlots, Lent};
use crate::value::{Location, Value};
use std::fmt;
use std::sync::atomic::{AtomicBool, Ordering};
use std::sync::{Arc, Mutex, MutexGuard, PoisonError};

/// What a storage and its agents share.
pub(crate) struct Shared {
    slots: Mutex<Slots>,
    /// Whether agents that are made or checked out record.
    is_recording: AtomicBool,
    lent: Arc<Lent>,
}

struct Slots {
    storage: OwnedSlot,
    /// The numbers of which an agent was made.
    made: [bool; AGENTS],
    /// Agents that were dropped when there was no memory to return them.
    waiting: Vec<Arc<AgentSlots>>,
}

impl Shared {
    fn slots(&self) -> MutexGuard<'_, Slots> {
        // A call that panicked left the slots as the library did, in a complete state.
        self.slots.lock().unwrap_or_else(PoisonError::into_inner)
    }

    pub(crate) fn is_recording(&self) -> bool {
        self.is_recording.load(Ordering::Relaxed)
    }

    pub(crate) fn lent(&self) -> &Arc<Lent> {
        &self.lent
    }

    /// Returns the agent, or keeps it until there is memory.
    pub(crate) fn give(&self, agent: Arc<AgentSlots>) {
        let mut slots = self.slots();
        // SAFETY: the storage is held under its lock, the agent by this thread, and the texts and numbers outlive the call.
        if unsafe { sys::asm_give(slots.storage.at(), agent.leave().at()) } != sys::DONE {
            slots.waiting.push(agent);
        }
    }
}

impl Slots {
    fn make(&mut self, number: AgentNumber) -> Result<OwnedSlot, Error> {
        let agent = OwnedSlot::empty();
        // SAFETY: the storage is held under its lock, the agent by this thread, and the texts and numbers outlive the call.
        match unsafe { sys::asm_agent(self.storage.at(), number.into(), agent.at()) } {
            sys::DONE => {
                self.made[usize::from(number)] = true;
                Ok(agent)
            }
            sys::NUMBER => Err(Error::NumberTaken(number)),
            code => Err(plain(code)),
        }
    }

    fn give_waiting(&mut self) -> Result<(), Error> {
        while let Some(agent) = self.waiting.last() {
            // SAFETY: the storage is held under its lock, the agent by this thread, and the texts and numbers outlive the call.
            done(unsafe { sys::asm_give(self.storage.at(), agent.leave().at()) })?;
            self.waiting.pop();
        }
        Ok(())
    }
}

/// The state of an abstract state machine, on which the agents of many threads fire moves without locks.
///
/// ```
/// use folugben::{Location, Storage, Value};
/// # fn main() -> Result<(), folugben::Error> {
/// let count = Location::new("count");
/// let storage = Storage::open([(count.clone(), Value::from(0))], 1_000)?;
/// std::thread::scope(|threads| {
///     for mut agent in storage.agents(4)? {
///         let count = &count;
///         threads.spawn(move || {
///             for _ in 0..100 {
///                 agent.play(|step| step.put(count, step.get_num(count)? + 1))?;
///             }
///             Ok::<(), folugben::Error>(())
///         });
///     }
///     Ok::<(), folugben::Error>(())
/// })?;
/// let journal = storage.close()?;
/// assert_eq!(journal.replay()?, [(count, Value::from(400))]);
/// assert!(journal.check()?.is_legal());
/// # Ok(())
/// # }
/// ```
pub struct Storage {
    shared: Arc<Shared>,
}

impl Storage {
    /// Opens a storage with this state, for `capacity` moves.
    ///
    /// # Errors
    ///
    /// - [`Error::Range`]: the capacity is outside 1 to 1,048,576.
    /// - [`Error::Refused`]: a location is there twice, or something is against the rules of locations and values.
    /// - [`Error::TooLong`]: a journal can't open with the state.
    /// - [`Error::Memory`].
    pub fn open(state: impl IntoIterator<Item = (Location, Value)>, capacity: u32) -> Result<Storage, Error> {
        let state: Vec<_> = state.into_iter().collect();
        let text = state.as_slice().json();
        let storage = OwnedSlot::empty();
        // SAFETY: the storage is held under its lock, the agent by this thread, and the texts and numbers outlive the call.
        let code = unsafe { sys::asm_open(text.as_ptr(), text.len(), capacity, storage.at()) };
        if code == sys::CAPACITY {
            return Err(OutOfRange::capacity(capacity));
        }
        done_with(code, sys::FORM_STATE, &text)?;
        Storage::of(storage)
    }

    /// Opens a storage with the state of the text `[PAIR, ..]`, which the library wrote.
    pub(crate) fn open_text(state: &[u8], capacity: u32) -> Result<Storage, Error> {
        let storage = OwnedSlot::empty();
        // SAFETY: the storage is held under its lock, the agent by this thread, and the texts and numbers outlive the call.
        match unsafe { sys::asm_open(state.as_ptr(), state.len(), capacity, storage.at()) } {
            sys::CAPACITY => return Err(OutOfRange::capacity(capacity)),
            code => done(code)?,
        }
        Storage::of(storage)
    }

    pub(crate) fn of(storage: OwnedSlot) -> Result<Storage, Error> {
        let mut waiting = Vec::new();
        // Freeing an agent can't be refused memory.
        waiting.try_reserve_exact(AGENTS).map_err(|_| Error::Memory)?;
        Ok(Storage {
            shared: Arc::new(Shared {
                slots: Mutex::new(Slots { storage, made: [false; AGENTS], waiting }),
                is_recording: AtomicBool::new(false),
                lent: Arc::new(Lent::none()),
            }),
        })
    }

    /// Sets whether agents that are made or checked out from now on record.
    ///
    /// See [`Agent::set_recording`]. The storages of [`Storage::next`] and [`Agent::go_on`] do as this one.
    pub fn set_recording(&self, is_recording: bool) {
        self.shared.is_recording.store(is_recording, Ordering::Relaxed);
    }

    /// Makes an agent with this number.
    ///
    /// A storage has one agent of each number for its whole life.
    ///
    /// # Errors
    ///
    /// [`Error::NumberTaken`], [`Error::Memory`].
    pub fn agent(&self, number: impl Into<AgentNumber>) -> Result<Agent, Error> {
        let number = number.into();
        let agent = self.shared.slots().make(number)?;
        Ok(self.holder(agent, number))
    }

    fn holder(&self, agent: OwnedSlot, number: AgentNumber) -> Agent {
        Agent::new(agent, &self.shared, number)
    }

    /// Checks out the agent with this number, which was returned, again.
    ///
    /// It goes on where it was, with its receipts. A journal that was made before is discarded, so [`Storage::next`] needs a
    /// further [`Storage::close`].
    ///
    /// # Errors
    ///
    /// - [`Error::NotGiven`]: no agent with this number was returned, or it was checked out since.
    /// - [`Error::Memory`].
    pub fn take(&self, number: impl Into<AgentNumber>) -> Result<Agent, Error> {
        let number = number.into();
        let agent = OwnedSlot::empty();
        let mut slots = self.shared.slots();
        slots.give_waiting()?;
        // SAFETY: the storage is held under its lock, the agent by this thread, and the texts and numbers outlive the call.
        match unsafe { sys::asm_take(slots.storage.at(), number.into(), agent.at()) } {
            sys::DONE => Ok(self.holder(agent, number)),
            sys::NO_AGENT => Err(Error::NotGiven(number)),
            code => Err(plain(code)),
        }
    }

    /// Makes agents with the numbers from 0 up.
    ///
    /// # Errors
    ///
    /// - [`Error::Range`]: more than 256. None is made.
    /// - [`Error::NumberTaken`]: an agent with one of the numbers was made before. None is made.
    /// - [`Error::Memory`]: some of them were made.
    pub fn agents(&self, count: usize) -> Result<Vec<Agent>, Error> {
        let mut slots = self.shared.slots();
        let wanted = slots.made.get(..count).ok_or_else(|| OutOfRange::agents(count))?;
        if let Some((taken, _)) = (0..=u8::MAX).map(AgentNumber::new).zip(wanted).find(|(_, is_made)| **is_made) {
            return Err(Error::NumberTaken(taken));
        }
        let numbers = (0..=u8::MAX).map(AgentNumber::new).take(count);
        let made = numbers.clone().map(|number| slots.make(number)).collect::<Result<Vec<_>, _>>()?;
        drop(slots);
        Ok(numbers.zip(made).map(|(number, agent)| self.holder(agent, number)).collect())
    }

    /// Returns how many moves were fired. It polls all of them.
    #[must_use]
    pub fn moves(&self) -> u32 {
        let mut moves = 0;
        let slots = self.shared.slots();
        // SAFETY: the storage is held under its lock. It is there, so no other code comes.
        let _ = unsafe { sys::asm_moves(slots.storage.at(), &raw mut moves) };
        moves
    }

    /// Makes the journal of the agents that were returned.
    ///
    /// It may be made again, when more agents have come back.
    ///
    /// # Errors
    ///
    /// - [`Error::Missing`]: a move whose agent wasn't returned. An abandoned agent's moves are missing for good.
    /// - [`Error::Memory`].
    pub fn close(&self) -> Result<Journal, Error> {
        let mut slots = self.shared.slots();
        slots.give_waiting()?;
        let mut number = 0;
        // SAFETY: the storage is held under its lock, the agent by this thread, and the texts and numbers outlive the call.
        match unsafe { sys::asm_close(slots.storage.at(), &raw mut number) } {
            sys::MISSING => return Err(Error::Missing(number.into())),
            code => done(code)?,
        }
        // SAFETY: the storage is held under its lock, the agent by this thread, and the texts and numbers outlive the call.
        let (code, text) =
            text_of_call(|out, room, written| unsafe { sys::asm_journal(slots.storage.at(), out, room, written) });
        done(code)?;
        Ok(Journal::from(text))
    }

    /// Opens a storage that goes on where this one was closed.
    ///
    /// Its opening state is the state after the moves of the journal; its agents and numbers start again. Moves that were fired
    /// after `close` are in neither journal.
    ///
    /// # Errors
    ///
    /// - [`Error::NoJournal`]: none was made since an agent was returned.
    /// - [`Error::Range`]: the capacity is outside 1 to 1,048,576.
    /// - [`Error::TooLong`]: a journal can't open with that state.
    /// - [`Error::Memory`].
    pub fn next(&self, capacity: u32) -> Result<Storage, Error> {
        let next = OwnedSlot::empty();
        // SAFETY: the storage is held under its lock, the agent by this thread, and the texts and numbers outlive the call.
        let code = unsafe { sys::asm_next(self.shared.slots().storage.at(), capacity, next.at()) };
        match code {
            sys::NO_JOURNAL => Err(Error::NoJournal),
            sys::CAPACITY => Err(OutOfRange::capacity(capacity)),
            code => {
                done(code)?;
                let next = Storage::of(next)?;
                next.set_recording(self.shared.is_recording());
                Ok(next)
            }
        }
    }

    pub(crate) fn is_of(&self, agent: &Agent) -> bool {
        agent.is_of(&self.shared)
    }

    /// Returns the agent to this storage, as a drop does.
    ///
    /// # Errors
    ///
    /// An agent of another storage is handed back.
    pub fn give(&self, agent: Agent) -> Result<(), Agent> {
        if self.is_of(&agent) { Ok(()) } else { Err(agent) }
    }
}

impl fmt::Debug for Storage {
    fn fmt(&self, f: &mut fmt::Formatter<'_>) -> fmt::Result {
        f.debug_struct("Storage").field("moves", &self.moves()).finish_non_exhaustive()
    }
}
