//! Moves of one instruction at a prepared location, each of which is made as it is pushed.
use crate::error::{Error, done_or_refusal};
use crate::prepared::{Prepared, expect_instructed, operand_of};
use crate::step::Step;
use crate::sys;
use crate::value::{Element, Value};

impl Step<'_> {
    /// Pushes a move that puts the value there.
    ///
    /// It does what [`Step::push_prepared`] does with a move of this instruction alone, in less time: none is gathered.
    ///
    /// ```
    /// use folugben::{Element, Error, Prepared, Storage};
    /// use std::collections::BTreeSet;
    /// # fn main() -> Result<(), Error> {
    /// let (n, set) = (Prepared::new(&"n".into())?, Prepared::new(&"set".into())?);
    /// let storage = Storage::open([("n".into(), 1.into()), ("set".into(), BTreeSet::<Element>::new().into())], 10)?;
    /// let mut agent = storage.agent(0)?;
    /// let mut step = agent.step()?;
    /// step.push_put(&n, step.get_num(&n)? + 1)?;
    /// step.push_inc(&n, 5)?;
    /// step.push_add(&set, "a")?;
    /// assert_eq!((step.get_num(&n)?, step.has(&set, "a")?, step.depth()), (7, true, 3));
    /// step.commit()?;
    /// # Ok(())
    /// # }
    /// ```
    ///
    /// # Errors
    ///
    /// Those of [`PreparedMove::put`](crate::PreparedMove::put) of the instruction, and those of [`Step::push`].
    pub fn push_put(&mut self, at: &Prepared, value: impl Into<Value>) -> Result<(), Error> {
        self.push_at(0, at, value.into(), 0)
    }

    /// Pushes a move that adds the element to the set there.
    ///
    /// # Errors
    ///
    /// Those of [`Step::push_put`].
    pub fn push_add(&mut self, at: &Prepared, element: impl Into<Element>) -> Result<(), Error> {
        self.push_at(1, at, Element::into(element.into()), 0)
    }

    /// Pushes a move that removes the element from the set there.
    ///
    /// # Errors
    ///
    /// Those of [`Step::push_put`].
    pub fn push_remove(&mut self, at: &Prepared, element: impl Into<Element>) -> Result<(), Error> {
        self.push_at(2, at, Element::into(element.into()), 0)
    }

    /// Pushes a move that adds the element to the bag there the given number of times.
    ///
    /// # Errors
    ///
    /// Those of [`Step::push_put`], and [`Error::Range`] of 0 times.
    pub fn push_bag_add(&mut self, at: &Prepared, element: impl Into<Element>, amount: u32) -> Result<(), Error> {
        self.push_at(3, at, Element::into(element.into()), amount)
    }

    /// Pushes a move that removes the element from the bag there the given number of times.
    ///
    /// # Errors
    ///
    /// Those of [`Step::push_put`], and [`Error::Range`] of 0 times.
    pub fn push_bag_remove(&mut self, at: &Prepared, element: impl Into<Element>, amount: u32) -> Result<(), Error> {
        self.push_at(4, at, Element::into(element.into()), amount)
    }

    /// Pushes a move that adds to the number there.
    ///
    /// # Errors
    ///
    /// Those of [`Step::push_put`].
    pub fn push_inc(&mut self, at: &Prepared, by: i64) -> Result<(), Error> {
        self.push_at(5, at, by.into(), 0)
    }

    fn push_at(&mut self, verb: i32, at: &Prepared, operand: Value, amount: u32) -> Result<(), Error> {
        let (kind, number, bytes) = operand_of(operand);
        let (text, length) = (bytes.as_ptr(), bytes.len());
        self.settle()?;
        self.additions.get_mut().forget();
        // SAFETY: the slots are of one agent and its step, which this thread alone has, and the texts and numbers outlive the call.
        let (code, output) = self.text_of_call(|slot, step, out, room, written| unsafe {
            let place = at.slot.at();
            sys::asm_push_at(slot, step, place, verb, kind, number, text, length, amount, out, room, written)
        })?;
        expect_instructed(code, at, &bytes, amount)?;
        done_or_refusal(code, &output)
    }
}
