//! The instructions of a prepared move.
use crate::error::{Error, answer, done};
use crate::instruction::Instruction;
use crate::json::Json;
use crate::owned_slot::text_of_call;
use crate::prepared::{PreparedMove, element_of, value_of};
use crate::sys;

/// The instructions of a [`PreparedMove`], in their order.
///
/// An item is [`Error::Memory`] if memory is refused.
#[derive(Clone, Debug)]
pub struct PreparedInstructions<'a> {
    of: &'a PreparedMove,
    place: u32,
}

impl PreparedMove {
    /// The instructions, in the order in which they came.
    ///
    /// ```
    /// use folugben::{Error, Instruction, Prepared, PreparedMove};
    /// # fn main() -> Result<(), Error> {
    /// let (x, bag) = (Prepared::new(&"x".into())?, Prepared::new(&"bag".into())?);
    /// let mut both = PreparedMove::new();
    /// both.inc(&x, 2)?.bag_add(&bag, "a", 3)?;
    /// let all = both.iter().collect::<Result<Vec<_>, _>>()?;
    /// assert_eq!(all, [Instruction::Inc("x".into(), 2), Instruction::BagAdd("bag".into(), "a".into(), 3)]);
    /// # Ok(())
    /// # }
    /// ```
    #[must_use]
    pub fn iter(&self) -> PreparedInstructions<'_> {
        PreparedInstructions { of: self, place: 0 }
    }

    fn instruction(&self, place: u32) -> Result<Instruction, Error> {
        let mut found = sys::Instruction::default();
        let head = &raw mut found;
        // SAFETY: the slot is held by this thread, and the text and the numbers outlive the call.
        let (code, text) = text_of_call(|out, room, written| unsafe {
            sys::asm_move_at(self.slot.at(), place, head, out, room, written)
        });
        done(code)?;
        let (at, operand) = text.split_at(found.place);
        let (at, value) = (answer(at, Json::location)?, sys::Value { kind: found.kind, number: found.number });
        Ok(match found.verb {
            0 => Instruction::Put(at, value_of(&value, operand)?),
            1 => Instruction::Add(at, element_of(&value, operand)?),
            2 => Instruction::Remove(at, element_of(&value, operand)?),
            3 => Instruction::BagAdd(at, element_of(&value, operand)?, found.amount),
            4 => Instruction::BagRemove(at, element_of(&value, operand)?, found.amount),
            _ => Instruction::Inc(at, found.number),
        })
    }
}

impl Iterator for PreparedInstructions<'_> {
    type Item = Result<Instruction, Error>;

    fn next(&mut self) -> Option<Result<Instruction, Error>> {
        if self.len() == 0 {
            return None;
        }
        self.place += 1;
        Some(self.of.instruction(self.place - 1))
    }

    fn size_hint(&self) -> (usize, Option<usize>) {
        let left = self.of.len() - self.place as usize;
        (left, Some(left))
    }
}

impl ExactSizeIterator for PreparedInstructions<'_> {}

impl<'a> IntoIterator for &'a PreparedMove {
    type Item = Result<Instruction, Error>;
    type IntoIter = PreparedInstructions<'a>;

    fn into_iter(self) -> PreparedInstructions<'a> {
        self.iter()
    }
}
