//! Additions in a row to one set, bag or number, which become one move's instructions.
//!
//! So the step doesn't depend on the value there, as it would if each were a move that extends the one before: how much there is
//! then decides whether they fit together. They wait until the step makes another call.
use crate::error::Error;
use crate::instruction::Instruction;
use crate::prepared::{Prepared, PreparedMove};
use crate::step::Step;
use crate::sys;
use crate::value::Location;
use std::collections::BTreeSet;
use std::slice;

/// What additions add to.
#[derive(Clone, Copy, PartialEq, Eq, PartialOrd, Ord)]
enum Family {
    Set,
    Bag,
    Number,
}

impl Family {
    fn of(instruction: &Instruction) -> Option<Family> {
        match instruction {
            Instruction::Add(..) => Some(Family::Set),
            Instruction::BagAdd(..) => Some(Family::Bag),
            Instruction::Inc(..) => Some(Family::Number),
            _ => None,
        }
    }
}

struct Waiting {
    family: Family,
    at: Prepared,
    all: PreparedMove,
}

impl Waiting {
    fn begin(family: Family, at: &Location) -> Result<Waiting, Error> {
        Ok(Waiting { family, at: Prepared::new(at)?, all: PreparedMove::new() })
    }

    fn gather(&mut self, instruction: Instruction) -> Result<(), Error> {
        match instruction {
            Instruction::Add(_, element) => self.all.add(&self.at, element)?,
            Instruction::BagAdd(_, element, amount) => self.all.bag_add(&self.at, element, amount)?,
            Instruction::Inc(_, by) => self.all.inc(&self.at, by)?,
            _ => return Ok(()),
        };
        Ok(())
    }
}

/// The additions of a step that wait, and where a set or a bag has accepted one.
#[derive(Default)]
pub(crate) struct Additions {
    waiting: Option<Waiting>,
    accepted: BTreeSet<(Location, Family)>,
}

impl Additions {
    pub(crate) fn is_empty(&self) -> bool {
        self.waiting.is_none()
    }

    /// Something else is pushed or popped, after which there may be values of other kinds.
    pub(crate) fn forget(&mut self) {
        self.accepted.clear();
    }

    fn forget_at(&mut self, at: &Location) {
        for family in [Family::Set, Family::Bag] {
            if !self.accepted.is_empty() {
                self.accepted.remove(&(at.clone(), family));
            }
        }
    }
}

impl Step<'_> {
    /// Makes one instruction join the move that was pushed last, at once or with those that follow it.
    pub(crate) fn change(&mut self, instruction: Instruction) -> Result<(), Error> {
        let Some(family) = Family::of(&instruction) else {
            self.additions.get_mut().forget_at(instruction.at());
            return self.grow(sys::asm_extend, slice::from_ref(&instruction));
        };
        let additions = self.additions.get_mut();
        if let Some(waiting) = &mut additions.waiting
            && waiting.family == family
            && waiting.at.location() == instruction.at()
        {
            return waiting.gather(instruction);
        }
        self.settle()?;
        let key = (instruction.at().clone(), family);
        let mut waiting = Waiting::begin(family, &key.0)?;
        waiting.gather(instruction)?;
        if family == Family::Number || !self.additions.get_mut().accepted.contains(&key) {
            match self.grow_by_move(sys::asm_push_move, &waiting.all) {
                // There is no room for a move of its own.
                Err(Error::Deep) => return self.grow_by_move(sys::asm_extend_move, &waiting.all),
                refused => refused?,
            }
            // What nothing has joined is popped unchanged, and leaves no trace.
            PreparedMove::put_by(|slot| self.pop_into(slot))?;
            self.additions.get_mut().accepted.insert(key);
        }
        self.additions.get_mut().waiting = Some(waiting);
        Ok(())
    }

    /// Before any other call: has the additions that wait join the move that was pushed last. They wait on if that is refused.
    pub(crate) fn settle(&self) -> Result<(), Error> {
        let mut additions = self.additions.borrow_mut();
        if let Some(waiting) = &additions.waiting {
            self.grow_by_move(sys::asm_extend_move, &waiting.all)?;
            additions.waiting = None;
        }
        Ok(())
    }
}
