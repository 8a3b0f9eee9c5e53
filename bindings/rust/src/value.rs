//! Elements, values and locations.
use std::cmp::Ordering;
use std::collections::{BTreeMap, BTreeSet};
use std::fmt;

/// What a location's arguments, sets and bags are made of.
///
/// Elements are ordered as the storage orders them: undef, false, true, numbers, texts, lists; a shorter list comes before
/// a longer one.
#[derive(Clone, Debug, Default, PartialEq, Eq, Hash)]
#[non_exhaustive]
pub enum Element {
    /// What a location holds that nothing was put at.
    #[default]
    Undef,
    /// True or false.
    Bool(bool),
    /// An integer.
    Num(i64),
    /// A text.
    Text(String),
    /// At most 4,096 elements, of which lists nest to a depth of 8 at most.
    List(Vec<Element>),
}

impl Element {
    fn rank(&self) -> u8 {
        match self {
            Element::Undef => 0,
            Element::Bool(_) => 1,
            Element::Num(_) => 2,
            Element::Text(_) => 3,
            Element::List(_) => 4,
        }
    }
}

impl Ord for Element {
    fn cmp(&self, other: &Element) -> Ordering {
        match (self, other) {
            (Element::Bool(one), Element::Bool(other)) => one.cmp(other),
            (Element::Num(one), Element::Num(other)) => one.cmp(other),
            (Element::Text(one), Element::Text(other)) => one.cmp(other),
            (Element::List(one), Element::List(other)) => one.len().cmp(&other.len()).then_with(|| one.cmp(other)),
            _ => self.rank().cmp(&other.rank()),
        }
    }
}

impl PartialOrd for Element {
    fn partial_cmp(&self, other: &Element) -> Option<Ordering> {
        Some(self.cmp(other))
    }
}

/// What a location holds: an element, a set or a bag.
#[derive(Clone, Debug, Default, PartialEq, Eq, Hash)]
#[non_exhaustive]
pub enum Value {
    /// What a location holds that nothing was put at.
    #[default]
    Undef,
    /// True or false.
    Bool(bool),
    /// An integer.
    Num(i64),
    /// A text.
    Text(String),
    /// At most 4,096 elements, of which lists nest to a depth of 8 at most.
    List(Vec<Element>),
    /// A set of elements.
    Set(BTreeSet<Element>),
    /// A bag of elements: how often each is there, at least once.
    Bag(BTreeMap<Element, u32>),
}

impl Value {
    /// Whether it is undef.
    #[must_use]
    pub fn is_undef(&self) -> bool {
        *self == Value::Undef
    }

    /// The number, if it is one.
    #[must_use]
    pub fn as_num(&self) -> Option<i64> {
        match self {
            Value::Num(number) => Some(*number),
            _ => None,
        }
    }

    /// The boolean, if it is one.
    #[must_use]
    pub fn as_bool(&self) -> Option<bool> {
        match self {
            Value::Bool(is_true) => Some(*is_true),
            _ => None,
        }
    }

    /// The text, if it is one.
    #[must_use]
    pub fn as_text(&self) -> Option<&str> {
        match self {
            Value::Text(text) => Some(text),
            _ => None,
        }
    }

    /// The list, if it is one.
    #[must_use]
    pub fn as_list(&self) -> Option<&[Element]> {
        match self {
            Value::List(items) => Some(items),
            _ => None,
        }
    }

    /// The set, if it is one.
    #[must_use]
    pub fn as_set(&self) -> Option<&BTreeSet<Element>> {
        match self {
            Value::Set(elements) => Some(elements),
            _ => None,
        }
    }

    /// The bag, if it is one.
    #[must_use]
    pub fn as_bag(&self) -> Option<&BTreeMap<Element, u32>> {
        match self {
            Value::Bag(counts) => Some(counts),
            _ => None,
        }
    }
}

macro_rules! from_plain {
    ($($from:ty, $it:ident => $element:expr;)*) => {$(
        impl From<$from> for Element {
            fn from($it: $from) -> Element {
                $element
            }
        }

        impl From<$from> for Value {
            fn from(it: $from) -> Value {
                Element::from(it).into()
            }
        }
    )*};
}

from_plain! {
    bool, it => Element::Bool(it);
    i64, it => Element::Num(it);
    i32, it => Element::Num(it.into());
    i16, it => Element::Num(it.into());
    i8, it => Element::Num(it.into());
    u32, it => Element::Num(it.into());
    u16, it => Element::Num(it.into());
    u8, it => Element::Num(it.into());
    &str, it => Element::Text(it.to_owned());
    String, it => Element::Text(it);
    Vec<Element>, it => Element::List(it);
}

impl From<Element> for Value {
    fn from(element: Element) -> Value {
        match element {
            Element::Undef => Value::Undef,
            Element::Bool(is_true) => Value::Bool(is_true),
            Element::Num(number) => Value::Num(number),
            Element::Text(text) => Value::Text(text),
            Element::List(items) => Value::List(items),
        }
    }
}

/// None is undef.
impl<T: Into<Element>> From<Option<T>> for Element {
    fn from(it: Option<T>) -> Element {
        it.map_or(Element::Undef, Into::into)
    }
}

/// None is undef.
impl<T: Into<Value>> From<Option<T>> for Value {
    fn from(it: Option<T>) -> Value {
        it.map_or(Value::Undef, Into::into)
    }
}

impl From<BTreeSet<Element>> for Value {
    fn from(elements: BTreeSet<Element>) -> Value {
        Value::Set(elements)
    }
}

impl From<BTreeMap<Element, u32>> for Value {
    fn from(counts: BTreeMap<Element, u32>) -> Value {
        Value::Bag(counts)
    }
}

/// A function name with arguments.
///
/// A name has 1 to 64 bytes: an ASCII letter or `_`, then ASCII letters, digits and `_`. There are at most 8 arguments. A
/// call that is passed a location against these rules answers [`Error::Refused`](crate::Error::Refused).
///
/// ```
/// use folugben::Location;
/// let balance = Location::new("balance").arg("anna").arg(7);
/// assert_eq!(balance.to_string(), r#"balance("anna", 7)"#);
/// ```
#[derive(Clone, Debug, PartialEq, Eq, Hash)]
pub struct Location {
    name: String,
    args: Vec<Element>,
}

impl Location {
    /// The location of a function without arguments.
    pub fn new(name: impl Into<String>) -> Location {
        Location { name: name.into(), args: Vec::new() }
    }

    /// The same with one argument more.
    #[must_use]
    pub fn arg(mut self, argument: impl Into<Element>) -> Location {
        self.args.push(argument.into());
        self
    }

    /// The same with these arguments besides.
    #[must_use]
    pub fn args_of(mut self, arguments: impl IntoIterator<Item = Element>) -> Location {
        self.args.extend(arguments);
        self
    }

    /// The function's name.
    #[must_use]
    pub fn name(&self) -> &str {
        &self.name
    }

    /// The arguments.
    #[must_use]
    pub fn args(&self) -> &[Element] {
        &self.args
    }
}

impl From<&str> for Location {
    fn from(name: &str) -> Location {
        Location::new(name)
    }
}

/// By the name's bytes, then the number of arguments, then the arguments from left to right.
impl Ord for Location {
    fn cmp(&self, other: &Location) -> Ordering {
        self.name
            .cmp(&other.name)
            .then_with(|| self.args.len().cmp(&other.args.len()))
            .then_with(|| self.args.cmp(&other.args))
    }
}

impl PartialOrd for Location {
    fn partial_cmp(&self, other: &Location) -> Option<Ordering> {
        Some(self.cmp(other))
    }
}

fn write_all(f: &mut fmt::Formatter<'_>, elements: &[Element]) -> fmt::Result {
    for (i, element) in elements.iter().enumerate() {
        if i > 0 {
            f.write_str(", ")?;
        }
        write!(f, "{element}")?;
    }
    Ok(())
}

fn write_list(f: &mut fmt::Formatter<'_>, items: &[Element]) -> fmt::Result {
    f.write_str("[")?;
    write_all(f, items)?;
    f.write_str("]")
}

impl fmt::Display for Element {
    fn fmt(&self, f: &mut fmt::Formatter<'_>) -> fmt::Result {
        match self {
            Element::Undef => f.write_str("undef"),
            Element::Bool(is_true) => write!(f, "{is_true}"),
            Element::Num(number) => write!(f, "{number}"),
            Element::Text(text) => write!(f, "{text:?}"),
            Element::List(items) => write_list(f, items),
        }
    }
}

impl fmt::Display for Value {
    fn fmt(&self, f: &mut fmt::Formatter<'_>) -> fmt::Result {
        match self {
            Value::Undef => f.write_str("undef"),
            Value::Bool(is_true) => write!(f, "{is_true}"),
            Value::Num(number) => write!(f, "{number}"),
            Value::Text(text) => write!(f, "{text:?}"),
            Value::List(items) => write_list(f, items),
            Value::Set(elements) => {
                let texts: Vec<String> = elements.iter().map(Element::to_string).collect();
                write!(f, "{{{}}}", texts.join(", "))
            }
            Value::Bag(counts) => {
                let texts: Vec<String> = counts.iter().map(|(it, count)| format!("{it}: {count}")).collect();
                write!(f, "bag {{{}}}", texts.join(", "))
            }
        }
    }
}

impl fmt::Display for Location {
    fn fmt(&self, f: &mut fmt::Formatter<'_>) -> fmt::Result {
        f.write_str(&self.name)?;
        if self.args.is_empty() {
            return Ok(());
        }
        f.write_str("(")?;
        write_all(f, &self.args)?;
        f.write_str(")")
    }
}
