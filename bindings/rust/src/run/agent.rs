//! The agents of runs, and their steps.
use crate::agent::{Agent, Reading};
use crate::cause::Conflict;
use crate::error::Error;
use crate::holder::Holder;
use crate::number::{AgentNumber, MoveNumber};
use crate::play::{Attempt, Outcome, Patience, Played};
use crate::run::parts::Core;
use crate::run::seat::{Seat, SeatStep};
use crate::step::Step;
use crate::value::{Location, Value};
use std::fmt;
use std::ops::{Deref, DerefMut};
use std::sync::Arc;

/// Reads the state of a [`Run`](crate::Run) and fires moves on it.
///
/// It is used in any one thread at a time. It moves on from part to part by itself, and is returned when it is dropped.
pub struct RunAgent {
    pub(crate) core: Arc<Core>,
    pub(crate) seat: Arc<Seat>,
}

impl RunAgent {
    /// Its number among the agents of the run.
    #[must_use]
    pub fn number(&self) -> AgentNumber {
        self.seat.number()
    }

    /// Sets whether each commit of a step records what the step read, as [`Agent::set_recording`] does.
    ///
    /// A commit then counts as two receipts for the end of a part ([`RunOptions::receipts`](crate::RunOptions::receipts)).
    pub fn set_recording(&mut self, is_recording: bool) {
        self.seat.set_recording(is_recording);
    }

    /// Whether commits record what their steps read.
    #[must_use]
    pub fn is_recording(&self) -> bool {
        self.seat.is_recording()
    }

    /// Polls, and begins a step on the state that it then sees, in the newest part.
    ///
    /// It waits while two parts that have ended wait for the disk, and for 0.1 s at most while a part comes to rest.
    ///
    /// # Errors
    ///
    /// - [`Error::Broken`]: a part couldn't be saved.
    /// - [`Error::Closed`]: the run was closed.
    /// - [`Error::TooLong`]: the part is full, and the state too long to open a further one.
    /// - [`Error::Memory`]: the call may be made again.
    pub fn step(&mut self) -> Result<RunStep<'_>, Error> {
        let start = loop {
            if let Some(start) = self.seat.begin(&self.core)? {
                break start;
            }
            self.core.await_part()?;
        };
        let number = start.number;
        Ok(RunStep { step: Step::new(Holder::Seat(SeatStep::new(&self.core, &self.seat, start)), number) })
    }

    /// Plays the rule until it fires, as [`Agent::play`](crate::Agent::play) does.
    ///
    /// The number of the move is that among all moves of the run, from 1 up.
    ///
    /// # Errors
    ///
    /// - An error of the rule ends the play, and nothing is fired, unless its part has ended meanwhile.
    /// - Those of [`RunAgent::step`] and [`Step::commit`].
    pub fn play<T, E: From<Error>>(&mut self, rule: impl FnMut(&mut Step<'_>) -> Result<T, E>) -> Result<Played<T>, E> {
        self.play_with(Patience::new(), rule)
    }

    /// Plays the rule so, as long as the patience lasts.
    ///
    /// # Errors
    ///
    /// Those of [`RunAgent::play`], and the last [`Error::Conflict`] once the patience has ended.
    pub fn play_with<T, E: From<Error>>(
        &mut self,
        patience: Patience,
        mut rule: impl FnMut(&mut Step<'_>) -> Result<T, E>,
    ) -> Result<Played<T>, E> {
        patience.play(|| {
            let mut step = self.step()?;
            match rule(&mut step) {
                Ok(result) => Ok(Attempt::of(result, step.step)?),
                // Its agent was returned meanwhile, whatever the rule makes of that.
                Err(_) if step.is_past() => Ok(Attempt::Retry(Conflict::Past.into())),
                Err(error) => Err(error),
            }
        })
    }

    /// Polls, and returns how many moves of the run it has then seen.
    ///
    /// # Errors
    ///
    /// Those of [`RunAgent::step`].
    pub fn follow(&mut self) -> Result<MoveNumber, Error> {
        loop {
            if let Some(number) = self.seat.follow(&self.core)? {
                return Ok(MoveNumber::new(number));
            }
            self.core.await_part()?;
        }
    }

    /// Returns the values of the locations in its own state, with its number of moves.
    ///
    /// Those are moves of the run. It doesn't poll. If its part has ended since, while it was in no step, its state is that at
    /// the beginning of the newest part.
    ///
    /// # Errors
    ///
    /// - [`Error::Refused`]: a location is against the rules.
    /// - [`Error::Broken`], [`Error::Closed`], [`Error::Memory`].
    pub fn peek(&mut self, places: &[Location]) -> Result<Reading, Error> {
        let (before, result) = self.call_on_state(|agent| agent.peek(places))?;
        Ok(Reading { number: result.number.behind(before), ..result })
    }

    /// Returns all locations of a function, as [`RunAgent::peek`] returns some.
    ///
    /// # Errors
    ///
    /// [`Error::Broken`], [`Error::Closed`], [`Error::Memory`].
    pub fn scan(&mut self, name: &str) -> Result<(MoveNumber, Vec<(Location, Value)>), Error> {
        let (before, (number, result)) = self.call_on_state(|agent| agent.scan(name))?;
        Ok((number.behind(before), result))
    }

    /// Returns all locations that have a value, as [`RunAgent::peek`] returns some.
    ///
    /// # Errors
    ///
    /// [`Error::Broken`], [`Error::Closed`], [`Error::Memory`].
    pub fn state(&mut self) -> Result<(MoveNumber, Vec<(Location, Value)>), Error> {
        let (before, (number, result)) = self.call_on_state(Agent::state)?;
        Ok((number.behind(before), result))
    }

    fn call_on_state<T>(&mut self, call: impl Fn(&Agent) -> Result<T, Error>) -> Result<(u64, T), Error> {
        loop {
            if let Some(result) = self.seat.call_on_state(&self.core, &call)? {
                return Ok(result);
            }
            self.core.await_part()?;
        }
    }

    /// Frees the agent without returning it.
    ///
    /// If it fired a move in its part, the run ends there, with [`EndCause::Missing`](crate::EndCause::Missing).
    pub fn abandon(self) {
        self.seat.abandon(&self.core);
    }
}

impl Drop for RunAgent {
    fn drop(&mut self) {
        self.seat.clear(&self.core);
        self.core.release(self.seat.number());
    }
}

impl fmt::Debug for RunAgent {
    fn fmt(&self, f: &mut fmt::Formatter<'_>) -> fmt::Result {
        f.debug_struct("RunAgent").field("number", &self.number()).finish_non_exhaustive()
    }
}

/// A [`Step`] of a run's agent: its calls are those of a step, and rules take both.
///
/// It goes on in its part when that has ended, for 0.1 s. Then its agent is returned, and each call is an [`Error::Conflict`]
/// with [`Conflict::Past`].
#[must_use = "a step does nothing until it is committed"]
pub struct RunStep<'a> {
    step: Step<'a>,
}

impl RunStep<'_> {
    fn seat_step(&self) -> Option<&SeatStep<'_>> {
        match &self.step.agent {
            Holder::Seat(seat_step) => Some(seat_step),
            Holder::Own(_) => None,
        }
    }

    /// The number of the part in which it began, which is that of its segment.
    pub fn part(&self) -> u64 {
        self.seat_step().map_or(0, |it| it.part().number)
    }

    /// Whether its agent was returned, as its part has ended.
    fn is_past(&self) -> bool {
        self.seat_step().is_some_and(|it| it.with(|_| Ok(())) == Err(Conflict::Past.into()))
    }

    /// Commits as [`Step::commit`] does, and returns the number of the move.
    ///
    /// It is that among all moves of the run, from 1 up.
    ///
    /// # Errors
    ///
    /// Those of [`Step::commit`].
    #[must_use = "a stale step has fired nothing"]
    pub fn commit(self) -> Result<MoveNumber, Error> {
        self.step.commit()
    }

    /// Commits as [`Step::try_commit`] does.
    ///
    /// # Errors
    ///
    /// Those of [`Step::try_commit`].
    pub fn try_commit(self) -> Result<Outcome, Error> {
        self.step.try_commit()
    }
}

impl<'a> Deref for RunStep<'a> {
    type Target = Step<'a>;

    fn deref(&self) -> &Step<'a> {
        &self.step
    }
}

impl<'a> DerefMut for RunStep<'a> {
    fn deref_mut(&mut self) -> &mut Step<'a> {
        &mut self.step
    }
}

impl fmt::Debug for RunStep<'_> {
    fn fmt(&self, f: &mut fmt::Formatter<'_>) -> fmt::Result {
        self.step.fmt(f)
    }
}
