//! Whether a step stands, and waiting until it doesn't.
use crate::error::{Error, done_or_refusal};
use crate::step::Step;
use crate::sys;
use std::thread;
use std::time::{Duration, Instant};

/// How long a wait sleeps between its first two polls, and then twice as long each time, up to the second.
const FIRST_PAUSE: Duration = Duration::from_micros(20);
const LONGEST_PAUSE: Duration = Duration::from_millis(10);

impl Step<'_> {
    /// Polls, and checks that a commit would not be stale.
    ///
    /// It is stale if a location on which the step depends was written since the step began, or one of a function that it
    /// scanned. The agent's own state follows, so the step may read no more; a commit still fires what was pushed.
    ///
    /// # Errors
    ///
    /// - [`Error::Conflict`]: such a location was written.
    /// - [`Error::Memory`].
    pub fn stands(&self) -> Result<(), Error> {
        self.settle()?;
        // SAFETY: the slots are of one agent and its step, which this thread alone has, and the texts and numbers outlive the call.
        let (code, text) = self.text_of_call(|slot, step, out, room, written| unsafe {
            sys::asm_step_stands(slot, step, out, room, written)
        })?;
        self.agent.with(|agent| Ok(agent.slots.polled(code)))?;
        done_or_refusal(code, &text)
    }

    /// Waits until [`Step::stands`] finds a conflict; returns whether it came before the time was over.
    ///
    /// ```
    /// use folugben::{Error, Storage};
    /// use std::time::Duration;
    /// # fn main() -> Result<(), Error> {
    /// let storage = Storage::open([("x".into(), 1.into())], 10)?;
    /// let (mut one, mut other) = (storage.agent(0)?, storage.agent(1)?);
    /// let step = one.step()?;
    /// assert_eq!(step.get_num("x")?, 1);
    /// assert!(!step.wait(Duration::from_millis(1))?);
    /// other.play(|step| step.put("x", 2))?;
    /// assert!(step.wait(Duration::from_secs(1))?);
    /// # Ok(())
    /// # }
    /// ```
    ///
    /// # Errors
    ///
    /// [`Error::Memory`].
    pub fn wait(&self, timeout: Duration) -> Result<bool, Error> {
        let start = Instant::now();
        let mut pause = FIRST_PAUSE;
        loop {
            match self.stands() {
                Err(Error::Conflict(_)) => return Ok(true),
                result => result?,
            }
            let left = timeout.saturating_sub(start.elapsed());
            if left.is_zero() {
                return Ok(false);
            }
            thread::sleep(left.min(pause));
            pause = LONGEST_PAUSE.min(2 * pause);
        }
    }
}
