//! Agents that one thread plays by turns.
//!
//! Each agent follows all moves in a state of its own. If one thread plays several, the one that is about to poll takes the state
//! of the one that acted last, so that each move is followed about once, and not once for each agent. What keeps that right:
//!
//! 1. *A thread makes a call on an agent's slots only while the slots name that thread.* The first call in another thread has
//!    them name that one, which waits while their state is taken.
//! 2. *A state is taken only from an agent whose slots name the taker's own thread*, and no call of which is at work there.
//! 3. *Only the state of an agent whose last call was a commit, a fire or the end of a step is taken.* So no step is in it, and
//!    what an agent has followed to is what it peeks at, whatever other agents do.
use crate::number::AgentNumber;
use crate::owned_slot::OwnedSlot;
use crate::sys;
use std::cell::RefCell;
use std::sync::atomic::{AtomicBool, AtomicUsize, Ordering};
use std::sync::{Arc, Weak};
use std::{ptr, thread};

/// How many agents a storage makes at most.
pub(crate) const AGENTS: usize = 256;
/// A thread remembers the last agents of so many storages.
const STORAGES: usize = 8;
/// No thread: the agent was returned or abandoned.
const NO_THREAD: usize = 0;
/// Beside a thread: the state is being taken there.
const TAKING: usize = 1;

/// The agent of a storage that polled last in a thread.
struct Last {
    storage: usize,
    agent: Weak<AgentSlots>,
}

thread_local! {
    /// Its address identifies the thread, as long as that lives.
    static MARK: u64 = const { 0 };
    /// The latest first.
    static LAST: RefCell<Vec<Last>> = const { RefCell::new(Vec::new()) };
}

fn thread_mark() -> usize {
    MARK.with(|it| ptr::from_ref(it).addr())
}

/// For each number of a storage's agents, also of those that were returned: whether another agent took its state, so that it
/// polls before that is shown.
pub(crate) struct Lent([AtomicBool; AGENTS]);

impl Lent {
    pub(crate) const fn none() -> Lent {
        Lent([const { AtomicBool::new(false) }; AGENTS])
    }
}

/// The slots of an agent and of its step.
pub(crate) struct AgentSlots {
    agent: OwnedSlot,
    step: OwnedSlot,
    number: AgentNumber,
    lent: Arc<Lent>,
    /// The thread that made the last call on them.
    thread: AtomicUsize,
    /// The last call has ended what the agent did with its state.
    has_acted: AtomicBool,
}

// SAFETY: An agent's owner makes calls in one thread at a time, as an `Agent` isn't Sync; and whoever takes the state of another
// agent does so in the thread that these slots name, while they name no other one.
unsafe impl Sync for AgentSlots {}

impl AgentSlots {
    pub(crate) fn new(agent: OwnedSlot, number: AgentNumber, lent: &Arc<Lent>) -> AgentSlots {
        AgentSlots {
            agent,
            step: OwnedSlot::empty(),
            number,
            lent: Arc::clone(lent),
            thread: AtomicUsize::new(NO_THREAD),
            has_acted: AtomicBool::new(false),
        }
    }

    /// An address that identifies its storage, which is only compared.
    fn storage(&self) -> usize {
        Arc::as_ptr(&self.lent).addr()
    }

    /// The agent, for one call of its owner.
    pub(crate) fn agent(&self) -> *mut sys::Slot {
        self.claim(thread_mark());
        self.agent.at()
    }

    /// Its step, for one call of its owner.
    pub(crate) fn step(&self) -> *mut sys::Slot {
        self.claim(thread_mark());
        self.step.at()
    }

    /// Ends the step, if there is one.
    pub(crate) fn end_step(&self) {
        self.claim(thread_mark());
        self.step.free();
        self.has_acted();
    }

    /// Nothing more is done with its state until it polls again.
    pub(crate) fn has_acted(&self) {
        self.has_acted.store(true, Ordering::Relaxed);
    }

    /// The agent, of which this is the last call; nobody takes its state any more.
    pub(crate) fn leave(&self) -> &OwnedSlot {
        self.claim(NO_THREAD);
        self.step.free();
        &self.agent
    }

    fn claim(&self, thread: usize) {
        if self.thread.load(Ordering::Relaxed) != thread {
            self.claim_from_other(thread);
        }
    }

    #[cold]
    fn claim_from_other(&self, thread: usize) {
        loop {
            let there = self.thread.load(Ordering::Relaxed) & !TAKING;
            if self.thread.compare_exchange(there, thread, Ordering::Acquire, Ordering::Relaxed).is_ok() {
                return;
            }
            thread::yield_now();
        }
    }

    /// Before a poll: takes the state of the agent that polled last in this thread, if that has acted.
    pub(crate) fn begin_turn(self: &Arc<AgentSlots>) {
        self.claim(thread_mark());
        if let Some(other) = self.replace_last().as_ref().and_then(Weak::upgrade) {
            self.take_state(&other);
        }
        self.has_acted.store(false, Ordering::Relaxed);
    }

    /// After a poll with this code, which is returned.
    pub(crate) fn polled(&self, code: i32) -> i32 {
        if matches!(code, sys::DONE | sys::STALE) {
            self.is_lent().store(false, Ordering::Relaxed);
        }
        code
    }

    /// Before its state is shown without a poll: whether another agent took it, so that a poll has to bring it there again.
    pub(crate) fn is_behind(&self) -> bool {
        self.is_lent().load(Ordering::Relaxed)
    }

    fn is_lent(&self) -> &AtomicBool {
        &self.lent.0[usize::from(self.number)]
    }

    /// Makes this the last agent of its storage in this thread: returns the one before, if that is another.
    fn replace_last(self: &Arc<AgentSlots>) -> Option<Weak<AgentSlots>> {
        let replace = |last: &RefCell<Vec<Last>>| {
            let mut last = last.borrow_mut();
            let Some(at) = last.iter().position(|it| it.storage == self.storage()) else {
                last.truncate(STORAGES - 1);
                last.insert(0, Last { storage: self.storage(), agent: Arc::downgrade(self) });
                return None;
            };
            last[..=at].rotate_right(1);
            let before = &mut last[0].agent;
            let is_same = ptr::eq(before.as_ptr(), Arc::as_ptr(self));
            (!is_same).then(|| std::mem::replace(before, Arc::downgrade(self)))
        };
        // In the destructors of a thread's locals nothing is remembered any more.
        LAST.try_with(replace).ok().flatten()
    }

    fn take_state(&self, other: &AgentSlots) {
        let thread = thread_mark();
        if other.thread.compare_exchange(thread, thread | TAKING, Ordering::Acquire, Ordering::Relaxed).is_err() {
            return;
        }
        if other.has_acted.load(Ordering::Relaxed) {
            // SAFETY: this thread makes no other call, and no other thread makes one on the slots: see the top of the file. A slot
            // that is empty by now is refused, and nothing done.
            let code = unsafe { sys::asm_take_state(self.agent.at(), other.agent.at()) };
            if code == sys::DONE {
                other.is_lent().store(true, Ordering::Relaxed);
            }
        }
        other.thread.store(thread, Ordering::Release);
    }
}
