//! Elements of sets and bags, without the values.
use crate::error::{Error, done};
use crate::prepared::{Prepared, PreparedMove, operand_of};
use crate::step::Step;
use crate::sys;
use crate::typed::Place;
use crate::value::Element;

impl Step<'_> {
    /// Returns whether the set or the bag there has the element, and makes no value of it.
    ///
    /// Where nothing is, there is no element. The step depends on the location as by [`Step::get`].
    ///
    /// ```
    /// use folugben::{Element, Error, Storage};
    /// use std::collections::BTreeMap;
    /// # fn main() -> Result<(), Error> {
    /// let bag = BTreeMap::from([(Element::from("a"), 2), (Element::from("b"), 1)]);
    /// let storage = Storage::open([("bag".into(), bag.into())], 10)?;
    /// let mut agent = storage.agent(0)?;
    /// let step = agent.step()?;
    /// assert!(step.has("bag", "a")?);
    /// assert_eq!((step.count_of("bag", "a")?, step.size("bag")?), (2, 3));
    /// # Ok(())
    /// # }
    /// ```
    ///
    /// # Errors
    ///
    /// Those of [`Step::get`], and [`Error::OtherKind`]: another value is there. The step depends on that too.
    pub fn has(&self, at: impl Place, element: impl Into<Element>) -> Result<bool, Error> {
        Ok(self.count_of(at, element)? > 0)
    }

    /// Returns how often the set or the bag there has the element: 0 or 1 of a set.
    ///
    /// # Errors
    ///
    /// Those of [`Step::has`].
    pub fn count_of(&self, at: impl Place, element: impl Into<Element>) -> Result<u32, Error> {
        let element = element.into();
        let (kind, number, bytes) = operand_of(Element::into(element.clone()));
        let (text, length) = (bytes.as_ptr(), bytes.len());
        let mut count = 0;
        let to = &raw mut count;
        // SAFETY: the slots are of one agent and its step, which this thread alone has, and the texts and numbers outlive the call.
        let code = self.report(&at, |slot, step, place| unsafe {
            sys::asm_count_of(slot, step, place.slot.at(), kind, number, text, length, to)
        })?;
        if matches!(code, sys::NOT_JSON | sys::SHAPE) {
            at.with_prepared(|place| PreparedMove::new().add(place, element).map(|_| ()))?;
        }
        self.expect_members(&at, code)?;
        Ok(count)
    }

    /// Returns how many elements the set or the bag there has, each of a bag as often as it is there; at most [`u64::MAX`].
    ///
    /// # Errors
    ///
    /// Those of [`Step::has`].
    pub fn size(&self, at: impl Place) -> Result<u64, Error> {
        let mut size = 0;
        let to = &raw mut size;
        // SAFETY: the slots are of one agent and its step, which this thread alone has, and the texts and numbers outlive the call.
        let code = self.report(&at, |slot, step, place| unsafe { sys::asm_size(slot, step, place.slot.at(), to) })?;
        self.expect_members(&at, code)?;
        Ok(size)
    }

    /// Makes a call at the location, which it tracks without returning the value.
    fn report(
        &self,
        at: &impl Place,
        call: impl Fn(*mut sys::Slot, *mut sys::Slot, &Prepared) -> i32,
    ) -> Result<i32, Error> {
        at.with_prepared(|place| {
            let (code, _) = self.text_of_settled_call(|slot, step, _, _, written| {
                // SAFETY: the number is the caller's, for this call.
                unsafe { *written = 0 };
                call(slot, step, place)
            })?;
            Ok(code)
        })
    }

    /// Expects the code of a call on a set or a bag.
    fn expect_members(&self, at: &impl Place, code: i32) -> Result<(), Error> {
        if code == sys::SHAPE {
            return Err(Error::OtherKind { at: at.location(), wanted: "set or bag", found: at.get(self)? });
        }
        done(code)
    }
}
