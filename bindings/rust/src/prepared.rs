//! Locations and moves that are prepared once, for steps that write and read no text.
use crate::cause::OutOfRange;
use crate::error::{Error, answer, done, done_with};
use crate::json::{Json, ToJson};
use crate::owned_slot::OwnedSlot;
use crate::sys;
use crate::value::{Element, Location, Value};
use std::fmt;

/// A location that the library has read once, for agents and steps of any storage.
pub struct Prepared {
    location: Location,
    pub(crate) slot: OwnedSlot,
}

impl Prepared {
    /// Prepares the location.
    ///
    /// # Errors
    ///
    /// [`Error::Refused`]: it is against the rules of locations. [`Error::Memory`].
    pub fn new(location: &Location) -> Result<Prepared, Error> {
        let text = location.json();
        let slot = OwnedSlot::empty();
        // SAFETY: the slots are held by this thread, and the texts outlive the call.
        match unsafe { sys::asm_location(text.as_ptr(), text.len(), slot.at()) } {
            code @ (sys::NOT_JSON | sys::SHAPE) => {
                done_with(code, sys::FORM_LOCATIONS, &format!("[{text}]"))?;
            }
            code => done(code)?,
        }
        Ok(Prepared { location: location.clone(), slot })
    }

    /// The location.
    #[must_use]
    pub fn location(&self) -> &Location {
        &self.location
    }
}

impl fmt::Debug for Prepared {
    fn fmt(&self, f: &mut fmt::Formatter<'_>) -> fmt::Result {
        f.debug_tuple("Prepared").field(&self.location).finish()
    }
}

/// The element that a call returned by its kind, its number and its bytes.
pub(crate) fn element_of(head: &sys::Value, bytes: &[u8]) -> Result<Element, Error> {
    Ok(match head.kind {
        sys::KIND_UNDEF => Element::Undef,
        sys::KIND_BOOL => Element::from(head.number == 1),
        sys::KIND_NUM => Element::from(head.number),
        sys::KIND_TEXT => Element::from(String::from_utf8_lossy(bytes).into_owned()),
        _ => answer(bytes, Json::element)?,
    })
}

/// The same of a value.
pub(crate) fn value_of(head: &sys::Value, bytes: &[u8]) -> Result<Value, Error> {
    match head.kind {
        sys::KIND_SET | sys::KIND_BAG => answer(bytes, Json::value),
        _ => element_of(head, bytes).map(Value::from),
    }
}

/// The kind, the number and the bytes of a value, as calls take it.
pub(crate) fn operand_of(value: Value) -> (i32, i64, String) {
    match value {
        Value::Undef => (sys::KIND_UNDEF, 0, String::new()),
        Value::Bool(is_true) => (sys::KIND_BOOL, i64::from(is_true), String::new()),
        Value::Num(number) => (sys::KIND_NUM, number, String::new()),
        Value::Text(text) => (sys::KIND_TEXT, 0, text),
        list @ Value::List(_) => (sys::KIND_LIST, 0, list.json()),
        set @ Value::Set(_) => (sys::KIND_SET, 0, set.json()),
        bag @ Value::Bag(_) => (sys::KIND_BAG, 0, bag.json()),
    }
}

/// Why kind, number and bytes made no instruction at the location, if the code says that they made none.
pub(crate) fn expect_instructed(code: i32, at: &Prepared, bytes: &str, amount: u32) -> Result<(), Error> {
    match code {
        sys::NOT_JSON | sys::SHAPE => {
            let call = format!("{{\"fire\":[[\"put\",{},{bytes}]],\"reads\":[]}}", at.location.json());
            done_with(code, sys::FORM_MOVE, &call)
        }
        sys::OPERAND => {
            let most = u32::MAX.into();
            Err(Error::Range(OutOfRange { what: "the amount", value: amount.into(), least: 1, most }))
        }
        _ => Ok(()),
    }
}

/// A move that is gathered at prepared locations, instruction by instruction.
///
/// A text is made of lists, sets and bags alone. More can be gathered after what [`Step::pop_move`](crate::Step::pop_move)
/// returns.
pub struct PreparedMove {
    pub(crate) slot: OwnedSlot,
}

impl PreparedMove {
    /// The move without instructions.
    #[must_use]
    pub fn new() -> PreparedMove {
        PreparedMove { slot: OwnedSlot::empty() }
    }

    /// The move that the call puts into the slot.
    pub(crate) fn put_by(call: impl FnOnce(*mut sys::Slot) -> Result<(), Error>) -> Result<PreparedMove, Error> {
        let slot = OwnedSlot::empty();
        call(slot.at())?;
        Ok(PreparedMove { slot })
    }

    /// How many instructions it has.
    #[must_use]
    pub fn len(&self) -> usize {
        // SAFETY: the slot is held by this thread.
        unsafe { sys::asm_move_length(self.slot.at()) as usize }
    }

    /// Whether it has none.
    #[must_use]
    pub fn is_empty(&self) -> bool {
        self.len() == 0
    }

    /// Leaves it without instructions.
    pub fn clear(&mut self) -> &mut PreparedMove {
        self.slot.free();
        self
    }

    fn instruct(&mut self, verb: i32, at: &Prepared, operand: Value, amount: u32) -> Result<&mut PreparedMove, Error> {
        let (kind, number, bytes) = operand_of(operand);
        // SAFETY: the slots are held by this thread, and the texts outlive the call.
        let code = unsafe {
            let (slot, place) = (self.slot.at(), at.slot.at());
            sys::asm_instruct(slot, place, verb, kind, number, bytes.as_ptr(), bytes.len(), amount)
        };
        expect_instructed(code, at, &bytes, amount)?;
        done(code)?;
        Ok(self)
    }

    /// The location gets the value.
    ///
    /// # Errors
    ///
    /// The move is unchanged then, here and below.
    ///
    /// - [`Error::Many`]: it has 4,096 instructions.
    /// - [`Error::Refused`]: a list, a set or a bag is against the rules of values.
    /// - [`Error::Memory`].
    pub fn put(&mut self, at: &Prepared, value: impl Into<Value>) -> Result<&mut PreparedMove, Error> {
        self.instruct(0, at, value.into(), 0)
    }

    /// The set there gets the element.
    ///
    /// # Errors
    ///
    /// Those of [`PreparedMove::put`].
    pub fn add(&mut self, at: &Prepared, element: impl Into<Element>) -> Result<&mut PreparedMove, Error> {
        self.instruct(1, at, Element::into(element.into()), 0)
    }

    /// The set there loses the element.
    ///
    /// # Errors
    ///
    /// Those of [`PreparedMove::put`].
    pub fn remove(&mut self, at: &Prepared, element: impl Into<Element>) -> Result<&mut PreparedMove, Error> {
        self.instruct(2, at, Element::into(element.into()), 0)
    }

    /// The bag there gets the element the given number of times.
    ///
    /// # Errors
    ///
    /// Those of [`PreparedMove::put`], and [`Error::Range`] of 0 times.
    pub fn bag_add(
        &mut self,
        at: &Prepared,
        element: impl Into<Element>,
        amount: u32,
    ) -> Result<&mut PreparedMove, Error> {
        self.instruct(3, at, Element::into(element.into()), amount)
    }

    /// The bag there loses the element the given number of times.
    ///
    /// # Errors
    ///
    /// Those of [`PreparedMove::put`], and [`Error::Range`] of 0 times.
    pub fn bag_remove(
        &mut self,
        at: &Prepared,
        element: impl Into<Element>,
        amount: u32,
    ) -> Result<&mut PreparedMove, Error> {
        self.instruct(4, at, Element::into(element.into()), amount)
    }

    /// The same with the instructions of the other move, which are carried out at once with its own.
    ///
    /// ```
    /// use folugben::{Agent, Error, Prepared, PreparedMove, Storage};
    /// # fn main() -> Result<(), Error> {
    /// let (x, set) = (Prepared::new(&"x".into())?, Prepared::new(&"set".into())?);
    /// let (mut one, mut other) = (PreparedMove::new(), PreparedMove::new());
    /// one.put(&x, 1)?;
    /// other.inc(&x, 2)?.inc(&x, 2)?;
    /// assert_eq!(one.unite(&other)?.len(), 3);
    /// # Ok(())
    /// # }
    /// ```
    ///
    /// # Errors
    ///
    /// On error, nothing changes.
    ///
    /// - [`Error::Many`]: both have more than 4,096 instructions together.
    /// - [`Error::Memory`].
    pub fn unite(&mut self, other: &PreparedMove) -> Result<&mut PreparedMove, Error> {
        if other.is_empty() {
            return Ok(self);
        }
        // SAFETY: the slots are held by this thread, and are two.
        done(unsafe { sys::asm_unite(self.slot.at(), other.slot.at()) })?;
        Ok(self)
    }

    /// The number there grows by the given amount.
    ///
    /// # Errors
    ///
    /// Those of [`PreparedMove::put`].
    pub fn inc(&mut self, at: &Prepared, by: i64) -> Result<&mut PreparedMove, Error> {
        self.instruct(5, at, Value::from(by), 0)
    }
}

impl Default for PreparedMove {
    fn default() -> PreparedMove {
        PreparedMove::new()
    }
}

impl fmt::Debug for PreparedMove {
    fn fmt(&self, f: &mut fmt::Formatter<'_>) -> fmt::Result {
        f.debug_struct("PreparedMove").field("len", &self.len()).finish_non_exhaustive()
    }
}
