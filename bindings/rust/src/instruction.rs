//! Update instructions and moves.
use crate::value::{Element, Location, Value};
use std::ops::{BitOr, BitOrAssign};
use std::vec;

/// One update of a move.
#[derive(Clone, Debug, PartialEq, Eq)]
#[non_exhaustive]
pub enum Instruction {
    /// The location gets the value.
    Put(Location, Value),
    /// The set there gets the element.
    Add(Location, Element),
    /// The set there loses the element.
    Remove(Location, Element),
    /// The bag there gets the element the given number of times, at least once.
    BagAdd(Location, Element, u32),
    /// The bag there loses the element the given number of times, at least once.
    BagRemove(Location, Element, u32),
    /// The number there grows by the given amount.
    Inc(Location, i64),
}

impl Instruction {
    /// The location that it writes.
    #[must_use]
    pub fn at(&self) -> &Location {
        match self {
            Instruction::Put(at, _)
            | Instruction::Add(at, _)
            | Instruction::Remove(at, _)
            | Instruction::BagAdd(at, ..)
            | Instruction::BagRemove(at, ..)
            | Instruction::Inc(at, _) => at,
        }
    }
}

/// Instructions that are carried out at once.
///
/// Each location gets one value by all of them, or they clash. A move has at most 4,096 instructions; a call that is passed more
/// returns [`Error::Refused`](crate::Error::Refused).
///
/// ```
/// use folugben::{Location, Move};
/// let shelf = Location::new("shelf");
/// let restock = Move::new().add(&shelf, "rice").put("open", true).inc("visits", 1);
/// assert_eq!(restock.len(), 3);
/// ```
#[derive(Clone, Debug, Default, PartialEq, Eq)]
pub struct Move {
    instructions: Vec<Instruction>,
}

impl Move {
    /// The move without instructions.
    #[must_use]
    pub fn new() -> Move {
        Move::default()
    }

    /// The same with the instruction besides.
    #[must_use]
    pub fn with(mut self, instruction: Instruction) -> Move {
        self.instructions.push(instruction);
        self
    }

    /// The same, and the location gets the value.
    #[must_use]
    pub fn put(self, at: impl Into<Location>, value: impl Into<Value>) -> Move {
        self.with(Instruction::Put(at.into(), value.into()))
    }

    /// The same, and the set there gets the element.
    #[must_use]
    pub fn add(self, at: impl Into<Location>, element: impl Into<Element>) -> Move {
        self.with(Instruction::Add(at.into(), element.into()))
    }

    /// The same, and the set there loses the element.
    #[must_use]
    pub fn remove(self, at: impl Into<Location>, element: impl Into<Element>) -> Move {
        self.with(Instruction::Remove(at.into(), element.into()))
    }

    /// The same, and the bag there gets the element the given number of times.
    #[must_use]
    pub fn bag_add(self, at: impl Into<Location>, element: impl Into<Element>, amount: u32) -> Move {
        self.with(Instruction::BagAdd(at.into(), element.into(), amount))
    }

    /// The same, and the bag there loses the element the given number of times.
    #[must_use]
    pub fn bag_remove(self, at: impl Into<Location>, element: impl Into<Element>, amount: u32) -> Move {
        self.with(Instruction::BagRemove(at.into(), element.into(), amount))
    }

    /// The same, and the number there grows by the given amount.
    #[must_use]
    pub fn inc(self, at: impl Into<Location>, by: i64) -> Move {
        self.with(Instruction::Inc(at.into(), by))
    }

    /// The same with the instructions of the other move besides, as `|` and `|=` have it: both are carried out at once.
    ///
    /// ```
    /// use folugben::Move;
    /// let mut both = Move::new().put("open", true) | Move::new().inc("visits", 1);
    /// both |= Move::new().inc("visits", 1);
    /// assert_eq!(both, Move::new().put("open", true).inc("visits", 1).inc("visits", 1));
    /// ```
    #[must_use]
    pub fn unite(mut self, other: Move) -> Move {
        self |= other;
        self
    }

    /// How many instructions there are.
    #[must_use]
    pub fn len(&self) -> usize {
        self.instructions.len()
    }

    /// Whether there are none.
    #[must_use]
    pub fn is_empty(&self) -> bool {
        self.instructions.is_empty()
    }

    /// The instructions, in the order in which they came.
    #[must_use]
    pub fn instructions(&self) -> &[Instruction] {
        &self.instructions
    }
}

impl From<&Location> for Location {
    fn from(at: &Location) -> Location {
        at.clone()
    }
}

impl From<Instruction> for Move {
    fn from(instruction: Instruction) -> Move {
        Move::new().with(instruction)
    }
}

impl FromIterator<Instruction> for Move {
    fn from_iter<I: IntoIterator<Item = Instruction>>(instructions: I) -> Move {
        Move { instructions: instructions.into_iter().collect() }
    }
}

impl BitOrAssign for Move {
    fn bitor_assign(&mut self, other: Move) {
        self.extend(other);
    }
}

impl BitOr for Move {
    type Output = Move;

    fn bitor(self, other: Move) -> Move {
        self.unite(other)
    }
}

impl IntoIterator for Move {
    type Item = Instruction;
    type IntoIter = vec::IntoIter<Instruction>;

    fn into_iter(self) -> vec::IntoIter<Instruction> {
        self.instructions.into_iter()
    }
}

impl Extend<Instruction> for Move {
    fn extend<I: IntoIterator<Item = Instruction>>(&mut self, instructions: I) {
        self.instructions.extend(instructions);
    }
}
