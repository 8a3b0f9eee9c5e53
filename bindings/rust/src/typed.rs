//! Reads of one location, and of values of one type.
use crate::error::{Error, done};
use crate::prepared::{Prepared, value_of};
use crate::step::Step;
use crate::sys;
use crate::value::{Element, Location, Value};
use std::collections::{BTreeMap, BTreeSet};
use std::slice;

/// A location that [`Step::get`] takes: a name, a [`Location`] or a [`Prepared`] one, also by reference.
pub trait Place: sealed::Place {}

/// A type of values that [`Step::get_or`] returns.
pub trait FromValue: sealed::FromValue {}

pub(crate) mod sealed {
    use crate::error::Error;
    use crate::prepared::Prepared;
    use crate::step::Step;
    use crate::value::{Location, Value};

    pub trait Place {
        fn get(&self, step: &Step<'_>) -> Result<Value, Error>;
        fn location(&self) -> Location;
        /// Makes a call with the location, prepared for it alone if it isn't yet.
        fn with_prepared<T>(&self, call: impl FnOnce(&Prepared) -> Result<T, Error>) -> Result<T, Error> {
            call(&Prepared::new(&self.location())?)
        }
    }

    pub trait FromValue: Sized {
        /// Which kind of value it is, in English.
        const KIND: &'static str;
        fn from_value(value: Value) -> Result<Self, Value>;
    }
}

impl sealed::Place for Location {
    fn get(&self, step: &Step<'_>) -> Result<Value, Error> {
        let mut values = step.get_each(slice::from_ref(self))?;
        values.pop().ok_or(Error::Unknown(sys::DONE))
    }

    fn location(&self) -> Location {
        self.clone()
    }
}

impl sealed::Place for str {
    fn get(&self, step: &Step<'_>) -> Result<Value, Error> {
        Location::new(self).get(step)
    }

    fn location(&self) -> Location {
        Location::new(self)
    }
}

impl sealed::Place for Prepared {
    fn get(&self, step: &Step<'_>) -> Result<Value, Error> {
        let mut head = sys::Value::default();
        // SAFETY: the slots are of one agent and its step, which this thread alone has, and the texts and numbers outlive the call.
        let (code, bytes) = step.text_of_settled_call(|slot, step, out, room, written| unsafe {
            sys::asm_get_at(slot, step, self.slot.at(), &raw mut head, out, room, written)
        })?;
        done(code)?;
        value_of(&head, &bytes)
    }

    fn location(&self) -> Location {
        Prepared::location(self).clone()
    }

    fn with_prepared<T>(&self, call: impl FnOnce(&Prepared) -> Result<T, Error>) -> Result<T, Error> {
        call(self)
    }
}

impl<P: sealed::Place + ?Sized> sealed::Place for &P {
    fn get(&self, step: &Step<'_>) -> Result<Value, Error> {
        (*self).get(step)
    }

    fn location(&self) -> Location {
        (*self).location()
    }

    fn with_prepared<T>(&self, call: impl FnOnce(&Prepared) -> Result<T, Error>) -> Result<T, Error> {
        (*self).with_prepared(call)
    }
}

impl<P: sealed::Place + ?Sized> Place for P {}

macro_rules! from_values {
    ($($kind:literal, $variant:ident => $to:ty;)*) => {$(
        impl sealed::FromValue for $to {
            const KIND: &'static str = $kind;

            fn from_value(value: Value) -> Result<$to, Value> {
                match value {
                    Value::$variant(it) => Ok(it),
                    other => Err(other),
                }
            }
        }
    )*};
}

from_values! {
    "boolean", Bool => bool;
    "number", Num => i64;
    "text", Text => String;
    "list", List => Vec<Element>;
    "set", Set => BTreeSet<Element>;
    "bag", Bag => BTreeMap<Element, u32>;
}

impl<T: sealed::FromValue> FromValue for T {}

fn typed<T: FromValue>(value: Value, at: &impl Place) -> Result<T, Error> {
    T::from_value(value).map_err(|found| Error::OtherKind { at: at.location(), wanted: T::KIND, found })
}

impl Step<'_> {
    /// Returns the value of the location, seen through the pushed moves.
    ///
    /// The step then depends on the location, if the value comes from the state that it began on. A read of a [`Prepared`] location
    /// is quicker.
    ///
    /// # Errors
    ///
    /// - [`Error::Many`]: it would depend on more than 256 locations and functions.
    /// - [`Error::Refused`]: the location is against the rules.
    /// - [`Error::Memory`].
    /// - Of a step of a run [`Error::Conflict`] with [`Past`](crate::Conflict::Past), [`Error::Broken`] and [`Error::Closed`], here
    ///   and below.
    pub fn get(&self, at: impl Place) -> Result<Value, Error> {
        at.get(self)
    }

    /// Returns the number there, as [`Step::get`] returns any value.
    ///
    /// # Errors
    ///
    /// Those of [`Step::get`], and [`Error::OtherKind`]: no number is there. The step depends on that too.
    pub fn get_num(&self, at: impl Place) -> Result<i64, Error> {
        typed(at.get(self)?, &at)
    }

    /// Returns the boolean there.
    ///
    /// # Errors
    ///
    /// Those of [`Step::get_num`].
    pub fn get_bool(&self, at: impl Place) -> Result<bool, Error> {
        typed(at.get(self)?, &at)
    }

    /// Returns the text there.
    ///
    /// # Errors
    ///
    /// Those of [`Step::get_num`].
    pub fn get_text(&self, at: impl Place) -> Result<String, Error> {
        typed(at.get(self)?, &at)
    }

    /// Returns the value there as that of the type of `otherwise`, and `otherwise` if nothing is there.
    ///
    /// ```
    /// use folugben::{Error, Storage};
    /// # fn main() -> Result<(), Error> {
    /// let storage = Storage::open([("name".into(), "anna".into())], 10)?;
    /// let mut agent = storage.agent(0)?;
    /// let step = agent.step()?;
    /// assert_eq!(step.get_or("visits", 0)?, 0);
    /// assert_eq!(step.get_or("name", String::new())?, "anna");
    /// assert!(matches!(step.get_or("name", 0), Err(Error::OtherKind { .. })));
    /// # Ok(())
    /// # }
    /// ```
    ///
    /// # Errors
    ///
    /// Those of [`Step::get`], and [`Error::OtherKind`]: a value of another kind is there. The step depends on that too.
    pub fn get_or<T: FromValue>(&self, at: impl Place, otherwise: T) -> Result<T, Error> {
        match at.get(self)? {
            Value::Undef => Ok(otherwise),
            value => typed(value, &at),
        }
    }
}
