//! Rules that are played until they fire.
use crate::cause::Conflict;
use crate::error::Error;
use crate::number::MoveNumber;
use crate::step::Step;
use std::thread;
use std::time::{Duration, Instant};

/// After so many tries in vain an agent sleeps between them.
const TRIES_WITHOUT_SLEEP: u32 = 8;
/// An agent sleeps for 2 to this power microseconds at most.
const LONGEST_SLEEP: u32 = 10;

/// What a play has done.
#[derive(Clone, Debug, PartialEq, Eq)]
#[non_exhaustive]
pub struct Played<T> {
    /// The number of the move that was fired; none if the rule pushed nothing, so that nothing was fired.
    pub number: Option<MoveNumber>,
    /// What the rule returned.
    pub result: T,
    /// How often the rule was played in vain before.
    pub retries: u32,
}

/// What a commit came to, of [`Step::try_commit`](crate::Step::try_commit).
#[derive(Clone, Debug, PartialEq, Eq)]
#[must_use = "a step in conflict has fired nothing"]
pub enum Outcome {
    /// The move was fired, and has this number.
    Fired(MoveNumber),
    /// Another agent was quicker: begin again.
    Conflict(Conflict),
}

/// How long a play begins again after conflicts: for ever by default.
///
/// ```
/// use folugben::{Error, Patience, Storage};
/// use std::time::Duration;
/// # fn main() -> Result<(), Error> {
/// let storage = Storage::open([("n".into(), 1.into())], 10)?;
/// let (mut agent, mut other) = (storage.agent(0)?, storage.agent(1)?);
/// let patience = Patience::new().tries(3).timeout(Duration::from_secs(1));
/// let told = agent.play_with(patience, |step| {
///     let n = step.get_num("n")?;
///     other.play(|step| step.inc("n", 1))?; // it is always quicker
///     step.put("n", n)
/// });
/// assert!(matches!(told, Err(Error::Conflict(_))));
/// assert_eq!(storage.moves(), 3);
/// # Ok(())
/// # }
/// ```
#[derive(Clone, Copy, Debug, Default)]
pub struct Patience {
    tries: Option<u32>,
    timeout: Option<Duration>,
}

impl Patience {
    /// Without an end.
    #[must_use]
    pub fn new() -> Patience {
        Patience::default()
    }

    /// Limits the number of times that the rule is played; it is played once at least.
    #[must_use]
    pub fn tries(self, tries: u32) -> Patience {
        Patience { tries: Some(tries), ..self }
    }

    /// Plays the rule no further time once that time has passed.
    #[must_use]
    pub fn timeout(self, timeout: Duration) -> Patience {
        Patience { timeout: Some(timeout), ..self }
    }

    /// Tries until the call fires or refuses: returns the number of the move, and what the rule returned.
    pub(crate) fn play<T, E: From<Error>>(
        self,
        mut attempt: impl FnMut() -> Result<Attempt<T>, E>,
    ) -> Result<Played<T>, E> {
        let start = Instant::now();
        let mut retries = 0;
        loop {
            let error = match attempt()? {
                Attempt::Fired(number, result) => return Ok(Played { number: Some(number), result, retries }),
                Attempt::Unfired(result) => return Ok(Played { number: None, result, retries }),
                Attempt::Retry(error) => error,
            };
            let is_late = self.timeout.is_some_and(|it| start.elapsed() >= it);
            if is_late || self.tries.is_some_and(|it| retries + 1 >= it) {
                return Err(error.into());
            }
            back_off(retries);
            retries = retries.saturating_add(1);
        }
    }
}

/// What one try of a play came to.
pub(crate) enum Attempt<T> {
    Fired(MoveNumber, T),
    /// Nothing was pushed.
    Unfired(T),
    /// Begin again.
    Retry(Error),
}

impl<T> Attempt<T> {
    /// Commits the step, whose rule returned the result; nothing if it pushed nothing.
    pub(crate) fn of(result: T, step: Step<'_>) -> Result<Attempt<T>, Error> {
        match step.pushed() {
            Ok(0) => return Ok(Attempt::Unfired(result)),
            Err(error) if error.is_retry() => return Ok(Attempt::Retry(error)),
            pushed => pushed?,
        };
        match step.try_commit()? {
            Outcome::Fired(number) => Ok(Attempt::Fired(number, result)),
            Outcome::Conflict(conflict) => Ok(Attempt::Retry(conflict.into())),
        }
    }
}

/// Lets other threads run, the longer the more tries were in vain.
fn back_off(tries: u32) {
    match tries.checked_sub(TRIES_WITHOUT_SLEEP) {
        None => thread::yield_now(),
        Some(more) => thread::sleep(Duration::from_micros(1 << more.min(LONGEST_SLEEP))),
    }
}
