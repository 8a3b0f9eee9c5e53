//! The places of a run's agents.
use crate::agent::Agent;
use crate::cause::Conflict;
use crate::error::Error;
use crate::holder::commit;
use crate::number::AgentNumber;
use crate::run::part::Part;
use crate::run::parts::Core;
use std::mem;
use std::sync::{Arc, Mutex, MutexGuard, PoisonError};

/// An agent in a part of the run.
struct Player {
    agent: Agent,
    part: Arc<Part>,
}

/// An agent of a run, which a step of its own thread and the writer take in turn.
pub(crate) struct Seat {
    number: AgentNumber,
    place: Mutex<Place>,
}

struct Place {
    player: Option<Player>,
    /// How many steps were begun, which is the number of the last one.
    steps: u64,
    is_in_step: bool,
    is_recording: bool,
}

/// A step that was begun.
pub(crate) struct StepStart {
    pub(crate) number: u32,
    pub(crate) part: Arc<Part>,
    step: u64,
}

impl Seat {
    pub(crate) fn new(number: AgentNumber, is_recording: bool) -> Seat {
        let place = Place { player: None, steps: 0, is_in_step: false, is_recording };
        Seat { number, place: Mutex::new(place) }
    }

    pub(crate) fn number(&self) -> AgentNumber {
        self.number
    }

    /// Sets whether its commits record what their steps read.
    pub(crate) fn set_recording(&self, is_recording: bool) {
        let mut place = self.lock();
        place.is_recording = is_recording;
        if let Some(player) = &mut place.player {
            player.agent.set_recording(is_recording);
        }
    }

    pub(crate) fn is_recording(&self) -> bool {
        self.lock().is_recording
    }

    fn lock(&self) -> MutexGuard<'_, Place> {
        self.place.lock().unwrap_or_else(PoisonError::into_inner)
    }

    /// Begins a step in the newest part; returns none if that has ended, or is full. A step that was forgotten ends.
    pub(crate) fn begin(&self, core: &Core) -> Result<Option<StepStart>, Error> {
        let mut place = self.lock();
        place.end_step(core);
        let Some(player) = self.enter_part(&mut place, core)? else { return Ok(None) };
        let number = player.agent.begin()?;
        let part = Arc::clone(&player.part);
        if number == core.moves() {
            player.agent.slots.end_step();
            core.open_next(&player.agent, &part)?;
            return Ok(None);
        }
        core.end_heavy(&part);
        if part.has_ended() {
            player.agent.slots.end_step();
            return Ok(None);
        }
        place.steps += 1;
        place.is_in_step = true;
        Ok(Some(StepStart { number, part, step: place.steps }))
    }

    /// Polls, and returns how many moves of the run it has then seen; none if the newest part has ended, or is full.
    pub(crate) fn follow(&self, core: &Core) -> Result<Option<u64>, Error> {
        let mut place = self.lock();
        place.end_step(core);
        let Some(player) = self.enter_part(&mut place, core)? else { return Ok(None) };
        let number = player.agent.poll()?;
        if number == core.moves() {
            core.open_next(&player.agent, &player.part)?;
            return Ok(None);
        }
        Ok(Some(player.part.before + u64::from(number)))
    }

    /// Makes a call on the agent's own state in the newest part. Returns the number of moves before that part with the result;
    /// none
    /// if the part has ended.
    pub(crate) fn call_on_state<T>(
        &self,
        core: &Core,
        call: impl FnOnce(&Agent) -> Result<T, Error>,
    ) -> Result<Option<(u64, T)>, Error> {
        let mut place = self.lock();
        place.end_step(core);
        let Some(player) = self.enter_part(&mut place, core)? else { return Ok(None) };
        Ok(Some((player.part.before, call(&player.agent)?)))
    }

    /// Returns the agent, in a part that hasn't ended; one in a part that has ended is returned to it first.
    fn enter_part<'a>(&self, place: &'a mut Place, core: &Core) -> Result<Option<&'a mut Player>, Error> {
        core.expect_running()?;
        if place.player.as_ref().is_some_and(|it| it.part.has_ended()) {
            place.give_back(core);
        }
        if place.player.is_none() {
            place.player = core.enter(self.number)?.map(|(agent, part)| Player { agent, part });
            if let Some(player) = &mut place.player {
                player.agent.set_recording(place.is_recording);
            }
        }
        Ok(place.player.as_mut())
    }

    /// Returns the agent to its storage, if it is in the part, and in no step unless that has taken too long.
    pub(crate) fn take_back(&self, core: &Core, part: &Part, is_late: bool) {
        let mut place = self.lock();
        let is_in_part = place.player.as_ref().is_some_and(|it| it.part.number == part.number);
        if is_in_part && (is_late || !place.is_in_step) {
            place.give_back(core);
        }
    }

    /// Returns the agent to its storage, if it is in a part.
    pub(crate) fn clear(&self, core: &Core) {
        self.lock().give_back(core);
    }

    /// Frees the agent, if it is in a part, without returning it.
    pub(crate) fn abandon(&self, core: &Core) {
        let mut place = self.lock();
        if let Some(Player { agent, part }) = place.player.take() {
            agent.abandon();
            core.note_return(&part);
        }
    }
}

impl Place {
    /// Ends the step, if there is one; if its part has ended, its agent is returned.
    fn end_step(&mut self, core: &Core) {
        if !mem::take(&mut self.is_in_step) {
            return;
        }
        if let Some(player) = &self.player {
            player.agent.slots.end_step();
            if player.part.has_ended() {
                self.give_back(core);
            }
        }
    }

    fn give_back(&mut self, core: &Core) {
        if let Some(Player { agent, part }) = self.player.take() {
            drop(agent);
            core.note_return(&part);
        }
    }
}

/// The agent of a seat, as long as a step goes on.
pub(crate) struct SeatStep<'a> {
    core: &'a Core,
    seat: &'a Seat,
    start: StepStart,
}

impl<'a> SeatStep<'a> {
    pub(crate) fn new(core: &'a Core, seat: &'a Seat, start: StepStart) -> SeatStep<'a> {
        SeatStep { core, seat, start }
    }

    pub(crate) fn number(&self) -> AgentNumber {
        self.seat.number
    }

    pub(crate) fn part(&self) -> &Part {
        &self.start.part
    }

    /// Calls the agent; [`Conflict::Past`] if it was returned since.
    pub(crate) fn with<T>(&self, call: impl FnOnce(&Agent) -> Result<T, Error>) -> Result<T, Error> {
        let place = self.seat.lock();
        match &place.player {
            Some(player) if place.is_in_step && place.steps == self.start.step => call(&player.agent),
            _ => Err(self.core.expect_running().err().unwrap_or(Conflict::Past.into())),
        }
    }

    /// Commits in its part.
    pub(crate) fn commit(&self) -> Result<u32, Error> {
        let part = self.part();
        let result = self.with(|agent| {
            part.count_receipts(1 + u64::from(agent.is_recording()));
            commit(agent)
        });
        match result {
            Ok(number) => {
                self.core.fired(part);
                Ok(number)
            }
            Err(Error::Full) => Err(Conflict::Past.into()),
            Err(error) => Err(error),
        }
    }
}

impl Drop for SeatStep<'_> {
    fn drop(&mut self) {
        let mut place = self.seat.lock();
        if place.steps == self.start.step {
            place.end_step(self.core);
        }
    }
}
