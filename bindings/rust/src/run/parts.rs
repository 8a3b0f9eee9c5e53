//! The parts of a run that aren't on the disk yet.
use crate::agent::Agent;
use crate::audit::Counts;
use crate::error::Error;
use crate::number::AgentNumber;
use crate::run::ended::{Broken, EndCause};
use crate::run::part::{Limits, Part};
use crate::run::seat::Seat;
use crate::storage::Storage;
use std::collections::btree_map::{BTreeMap, Entry};
use std::collections::vec_deque::VecDeque;
use std::sync::{Arc, Condvar, Mutex, MutexGuard, PoisonError};
use std::time::{Duration, Instant};

/// So many parts that have ended may wait for the writer before a further one is opened.
const WAITING: usize = 2;
/// How long a part that has ended waits for an agent in a step.
const PATIENCE: Duration = Duration::from_millis(100);

/// A part with what is known of it under the lock.
struct Unsaved {
    part: Arc<Part>,
    /// How many agents are out in it.
    out: u32,
    /// When it ended.
    ended: Option<Instant>,
    /// All its moves were fired.
    is_full: bool,
    /// Its state is too long to open a further part before it is full.
    is_long: bool,
}

/// All of a run that changes.
struct State {
    /// The oldest first; steps begin in the last one.
    parts: VecDeque<Unsaved>,
    /// The agents in use.
    seats: BTreeMap<AgentNumber, Arc<Seat>>,
    is_closing: bool,
    /// The writer has ended.
    is_done: bool,
    ended: Option<Broken>,
    saved: Counts,
}

impl State {
    fn expect_running(&self) -> Result<(), Error> {
        match &self.ended {
            Some(ended) => Err(Error::Broken(ended.clone())),
            None if self.is_closing => Err(Error::Closed),
            None => Ok(()),
        }
    }

    fn push(&mut self, storage: Storage, before: u64) {
        let number = self.parts.back().map_or(self.saved.parts, |it| it.part.number + 1);
        self.end_newest();
        let part = Arc::new(Part::new(number, before, storage));
        self.parts.push_back(Unsaved { part, out: 0, ended: None, is_full: false, is_long: false });
    }

    /// Lets no further step begin in the newest part.
    fn end_newest(&mut self) {
        if let Some(last) = self.parts.back_mut() {
            last.part.set_ended(true);
            last.ended.get_or_insert_with(Instant::now);
        }
    }
}

/// What the agents of a run and its writer share.
pub(crate) struct Core {
    limits: Limits,
    state: Mutex<State>,
    changed: Condvar,
}

type Guard<'a> = MutexGuard<'a, State>;

impl Core {
    /// Makes a run of which so much is saved, and whose first further part is the storage.
    pub(crate) fn new(storage: Storage, limits: Limits, saved: Counts) -> Core {
        let mut state = State {
            parts: VecDeque::new(),
            seats: BTreeMap::new(),
            is_closing: false,
            is_done: false,
            ended: None,
            saved,
        };
        state.push(storage, saved.moves);
        Core { limits, state: Mutex::new(state), changed: Condvar::new() }
    }

    fn lock(&self) -> Guard<'_> {
        self.state.lock().unwrap_or_else(PoisonError::into_inner)
    }

    fn wait<'a>(&'a self, state: Guard<'a>, most: Option<Duration>) -> Guard<'a> {
        match most {
            Some(most) => self.changed.wait_timeout(state, most).unwrap_or_else(PoisonError::into_inner).0,
            None => self.changed.wait(state).unwrap_or_else(PoisonError::into_inner),
        }
    }

    /// How many moves a part has room for.
    pub(crate) fn moves(&self) -> u32 {
        self.limits.moves
    }

    pub(crate) fn saved(&self) -> Counts {
        self.lock().saved
    }

    pub(crate) fn expect_running(&self) -> Result<(), Error> {
        self.lock().expect_running()
    }

    // The calls of agents. Whoever has the lock of a seat takes that of the state, and never the other way round.

    /// Returns a seat with this number, which no agent in use has.
    pub(crate) fn seat(&self, number: AgentNumber) -> Result<Arc<Seat>, Error> {
        let mut state = self.lock();
        state.expect_running()?;
        match state.seats.entry(number) {
            Entry::Occupied(_) => Err(Error::NumberTaken(number)),
            Entry::Vacant(free) => {
                let seat = Seat::new(number, self.limits.is_recording);
                Ok(Arc::clone(free.insert(Arc::new(seat))))
            }
        }
    }

    /// Returns seats with the numbers from 0 up, all of them or none.
    pub(crate) fn seats(&self, count: usize) -> Result<Vec<Arc<Seat>>, Error> {
        let mut state = self.lock();
        state.expect_running()?;
        if let Some((taken, _)) = state.seats.iter().find(|(number, _)| usize::from(**number) < count) {
            return Err(Error::NumberTaken(*taken));
        }
        let seat = |number: u8| Arc::new(Seat::new(number.into(), self.limits.is_recording));
        let seats: Vec<_> = (0..=u8::MAX).take(count).map(seat).collect();
        state.seats.extend(seats.iter().map(|it| (it.number(), Arc::clone(it))));
        Ok(seats)
    }

    pub(crate) fn release(&self, number: AgentNumber) {
        self.lock().seats.remove(&number);
    }

    /// Returns an agent in the newest part; none if that has ended.
    pub(crate) fn enter(&self, number: AgentNumber) -> Result<Option<(Agent, Arc<Part>)>, Error> {
        let mut state = self.lock();
        state.expect_running()?;
        let Some(last) = state.parts.back_mut().filter(|it| !it.part.has_ended()) else {
            return Ok(None);
        };
        let agent = match last.part.storage.take(number) {
            Err(Error::NotGiven(_)) => last.part.storage.agent(number)?,
            taken => taken?,
        };
        last.out += 1;
        Ok(Some((agent, Arc::clone(&last.part))))
    }

    /// An agent of the part has come back, or is lost.
    pub(crate) fn note_return(&self, part: &Part) {
        let mut state = self.lock();
        if let Some(it) = state.parts.iter_mut().find(|it| it.part.number == part.number) {
            it.out -= 1;
        }
        drop(state);
        self.changed.notify_all();
    }

    /// Ends the part if it has too many receipts.
    pub(crate) fn end_heavy(&self, part: &Part) {
        if !part.is_heavy(self.limits.receipts) {
            return;
        }
        let mut state = self.lock();
        if state.parts.back().is_some_and(|it| it.part.number == part.number && !it.is_long) {
            state.end_newest();
            self.changed.notify_all();
        }
    }

    /// Notices that a move was fired in the part.
    pub(crate) fn fired(&self, part: &Part) {
        if self.limits.every.is_some() && part.begin_time() {
            drop(self.lock());
            self.changed.notify_all();
        }
    }

    /// Opens a part after the agent's own, which is full, unless too many wait for the writer.
    pub(crate) fn open_next(&self, agent: &Agent, part: &Part) -> Result<(), Error> {
        let mut state = self.lock();
        let is_behind = state.parts.len() > WAITING;
        let Some(last) = state.parts.back_mut().filter(|it| it.part.number == part.number && !part.has_ended()) else {
            return Ok(());
        };
        last.is_full = true;
        if is_behind {
            return Ok(());
        }
        let next = agent.go_on(self.limits.moves)?;
        state.push(next, part.before + u64::from(self.limits.moves));
        self.changed.notify_all();
        Ok(())
    }

    /// Waits until a step may begin in the newest part, or a further one may be opened after it.
    pub(crate) fn await_part(&self) -> Result<(), Error> {
        let mut state = self.lock();
        loop {
            state.expect_running()?;
            let is_behind = state.parts.len() > WAITING;
            if state.parts.back().is_some_and(|it| !(it.part.has_ended() || it.is_full && is_behind)) {
                return Ok(());
            }
            state = self.wait(state, None);
        }
    }

    // The calls of the run.

    /// Ends the newest part, if it has moves, and waits until all up to it are on the disk.
    pub(crate) fn flush(&self) -> Result<Counts, Error> {
        let mut state = self.lock();
        state.expect_running()?;
        let newest = state.parts.back().map(|it| Arc::clone(&it.part));
        let Some(newest) = newest else { return Ok(state.saved) };
        let is_empty = newest.storage.moves() == 0;
        let wanted = newest.number + u64::from(!is_empty);
        if !is_empty {
            state.end_newest();
            self.changed.notify_all();
        }
        loop {
            if let Some(ended) = &state.ended {
                return Err(Error::Broken(ended.clone()));
            }
            if state.saved.parts >= wanted || state.is_done {
                return Ok(state.saved);
            }
            if !is_empty && !newest.has_ended() {
                return Err(Error::TooLong);
            }
            state = self.wait(state, None);
        }
    }

    /// Saves all fired moves, and waits until they are on the disk.
    pub(crate) fn close(&self) -> Result<Counts, Error> {
        let mut state = self.lock();
        state.is_closing = true;
        self.changed.notify_all();
        while !state.is_done {
            state = self.wait(state, None);
        }
        match &state.ended {
            Some(ended) => Err(Error::Broken(ended.clone())),
            None => Ok(state.saved),
        }
    }

    // The calls of the writer.

    /// Returns the oldest part, once it has ended and all its agents came back.
    pub(crate) fn due(&self) -> Option<Arc<Part>> {
        let mut state = self.lock();
        loop {
            let mut most = self.end_by_time(&mut state);
            if state.is_closing {
                state.end_newest();
            }
            let is_closing = state.is_closing;
            let first = state.parts.front_mut()?;
            let part = Arc::clone(&first.part);
            if part.has_ended() {
                let left = PATIENCE.saturating_sub(first.ended.map_or(PATIENCE, |it| it.elapsed()));
                let is_late = is_closing || left.is_zero();
                if first.out > 0 {
                    state = self.take_back(state, &part, is_late);
                }
                if state.parts.front().is_some_and(|it| it.out == 0) {
                    return Some(part);
                }
                most = most.into_iter().chain((!is_late).then_some(left)).min();
            }
            state = self.wait(state, most);
        }
    }

    /// Ends the newest part if its first move was fired long enough ago; returns how long that will take.
    fn end_by_time(&self, state: &mut State) -> Option<Duration> {
        let every = self.limits.every?;
        let last = state.parts.back().filter(|it| !it.is_long && !it.part.has_ended())?;
        let left = every.saturating_sub(last.part.age()?);
        if left.is_zero() {
            state.end_newest();
            return None;
        }
        Some(left)
    }

    /// Takes back the agents that are in the part, and in no step or for too long in one.
    fn take_back<'a>(&'a self, state: Guard<'a>, part: &Part, is_late: bool) -> Guard<'a> {
        let seats: Vec<_> = state.seats.values().cloned().collect();
        drop(state);
        for seat in seats {
            seat.take_back(self, part, is_late);
        }
        self.lock()
    }

    /// Opens a part after one that has ended at rest and whose journal was closed; returns whether it is the last one. None if
    /// the
    /// state is too long, so that the part goes on until it is full.
    pub(crate) fn open_next_at_rest(&self, part: &Part) -> Result<Option<bool>, Error> {
        let mut state = self.lock();
        let is_closing = state.is_closing;
        let Some(last) = state.parts.back_mut().filter(|it| it.part.number == part.number) else {
            return Ok(Some(false));
        };
        if is_closing {
            return Ok(Some(true));
        }
        let next = match part.storage.next(self.limits.moves) {
            Err(Error::TooLong) => {
                (last.is_long, last.ended) = (true, None);
                part.set_ended(false);
                self.changed.notify_all();
                return Ok(None);
            }
            next => next?,
        };
        state.push(next, part.before + u64::from(part.storage.moves()));
        self.changed.notify_all();
        Ok(Some(false))
    }

    /// The oldest part is on the disk.
    pub(crate) fn is_saved(&self, saved: Counts) {
        let mut state = self.lock();
        let first = state.parts.pop_front();
        state.saved = saved;
        drop(state);
        self.changed.notify_all();
        drop(first);
    }

    /// Ends the run, as its oldest part can't be saved.
    pub(crate) fn end(&self, cause: EndCause) {
        let mut state = self.lock();
        let part = state.saved.parts;
        state.ended.get_or_insert(Broken { part, cause });
        state.end_newest();
        drop(state);
        self.changed.notify_all();
    }

    /// The writer has ended, and has the folder no more.
    pub(crate) fn done(&self) {
        let mut state = self.lock();
        let parts: Vec<_> = state.parts.iter().map(|it| Arc::clone(&it.part)).collect();
        for part in &parts {
            state = self.take_back(state, part, true);
        }
        state.parts.clear();
        state.is_done = true;
        drop(state);
        self.changed.notify_all();
    }
}
