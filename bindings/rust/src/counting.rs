//! Whether a function has a value, and how many, without a list.
use crate::error::{Error, done};
use crate::step::Step;
use crate::sys;

impl Step<'_> {
    /// Returns whether [`Step::scan`] would list a location, at the cost of one.
    ///
    /// The step then depends on the whole function, whatever the answer.
    ///
    /// ```
    /// use folugben::{Error, Location, Storage};
    /// # fn main() -> Result<(), Error> {
    /// let shelf = |n| Location::new("shelf").arg(n);
    /// let storage = Storage::open([(shelf(1), 5.into()), (shelf(2), 7.into())], 10)?;
    /// let mut agent = storage.agent(0)?;
    /// let step = agent.step()?;
    /// assert!(step.any("shelf")? && !step.any("table")?);
    /// assert_eq!(step.count("shelf")?, 2);
    /// # Ok(())
    /// # }
    /// ```
    ///
    /// # Errors
    ///
    /// Those of [`Step::scan`].
    pub fn any(&self, name: &str) -> Result<bool, Error> {
        let mut any = 0;
        let to = &raw mut any;
        // SAFETY: the slots are of one agent and its step, which this thread alone has, and the name and the number outlive the call.
        self.of_name(|slot, step| unsafe { sys::asm_any(slot, step, name.as_ptr(), name.len(), to) })?;
        Ok(any > 0)
    }

    /// Returns how many locations [`Step::scan`] would list, and makes no list; at most [`u64::MAX`].
    ///
    /// # Errors
    ///
    /// Those of [`Step::scan`].
    pub fn count(&self, name: &str) -> Result<u64, Error> {
        let mut count = 0;
        let to = &raw mut count;
        // SAFETY: the slots are of one agent and its step, which this thread alone has, and the name and the number outlive the call.
        self.of_name(|slot, step| unsafe { sys::asm_count(slot, step, name.as_ptr(), name.len(), to) })?;
        Ok(count)
    }

    /// Makes a call that writes no text, after the additions that wait.
    fn of_name(&self, call: impl Fn(*mut sys::Slot, *mut sys::Slot) -> i32) -> Result<(), Error> {
        let (code, _) = self.text_of_settled_call(|slot, step, _, _, written| {
            // SAFETY: the number is the caller's, for this call.
            unsafe { *written = 0 };
            call(slot, step)
        })?;
        done(code)
    }
}
