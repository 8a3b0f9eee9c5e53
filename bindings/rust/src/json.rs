//! The JSON forms of the library's texts: what is passed is written, and what is answered is read.
use crate::instruction::{Instruction, Move};
use crate::number::MoveNumber;
use crate::value::{Element, Location, Value};
use std::collections::{BTreeMap, BTreeSet};
use std::fmt::Write;

/// What can be written as JSON.
pub(crate) trait ToJson {
    fn write(&self, out: &mut String);

    fn json(&self) -> String {
        let mut out = String::new();
        self.write(&mut out);
        out
    }
}

fn write_text(out: &mut String, text: &str) {
    out.push('"');
    for c in text.chars() {
        match c {
            '"' => out.push_str("\\\""),
            '\\' => out.push_str("\\\\"),
            c if c < ' ' => {
                let _ = write!(out, "\\u{:04x}", u32::from(c));
            }
            c => out.push(c),
        }
    }
    out.push('"');
}

/// Writes the items between brackets.
pub(crate) fn write_list<T: ToJson>(out: &mut String, items: impl IntoIterator<Item = T>) {
    out.push('[');
    for (i, item) in items.into_iter().enumerate() {
        if i > 0 {
            out.push(',');
        }
        item.write(out);
    }
    out.push(']');
}

impl<T: ToJson + ?Sized> ToJson for &T {
    fn write(&self, out: &mut String) {
        (**self).write(out);
    }
}

impl ToJson for str {
    fn write(&self, out: &mut String) {
        write_text(out, self);
    }
}

impl ToJson for u32 {
    fn write(&self, out: &mut String) {
        let _ = write!(out, "{self}");
    }
}

impl ToJson for MoveNumber {
    fn write(&self, out: &mut String) {
        let _ = write!(out, "{self}");
    }
}

impl<T: ToJson> ToJson for [T] {
    fn write(&self, out: &mut String) {
        write_list(out, self);
    }
}

impl<A: ToJson, B: ToJson> ToJson for (A, B) {
    fn write(&self, out: &mut String) {
        out.push('[');
        self.0.write(out);
        out.push(',');
        self.1.write(out);
        out.push(']');
    }
}

fn write_elements(out: &mut String, items: &[Element]) {
    out.push_str("{\"list\":");
    write_list(out, items);
    out.push('}');
}

fn write_num(out: &mut String, number: i64) {
    let _ = write!(out, "{number}");
}

impl ToJson for Element {
    fn write(&self, out: &mut String) {
        match self {
            Element::Undef => out.push_str("null"),
            Element::Bool(true) => out.push_str("true"),
            Element::Bool(false) => out.push_str("false"),
            Element::Num(number) => write_num(out, *number),
            Element::Text(text) => write_text(out, text),
            Element::List(items) => write_elements(out, items),
        }
    }
}

impl ToJson for Value {
    fn write(&self, out: &mut String) {
        match self {
            Value::Undef => out.push_str("null"),
            Value::Bool(true) => out.push_str("true"),
            Value::Bool(false) => out.push_str("false"),
            Value::Num(number) => write_num(out, *number),
            Value::Text(text) => write_text(out, text),
            Value::List(items) => write_elements(out, items),
            Value::Set(elements) => {
                out.push_str("{\"set\":");
                write_list(out, elements);
                out.push('}');
            }
            Value::Bag(counts) => {
                out.push_str("{\"bag\":");
                write_list(out, counts);
                out.push('}');
            }
        }
    }
}

impl ToJson for Location {
    fn write(&self, out: &mut String) {
        out.push('[');
        write_text(out, self.name());
        for argument in self.args() {
            out.push(',');
            argument.write(out);
        }
        out.push(']');
    }
}

impl ToJson for Instruction {
    fn write(&self, out: &mut String) {
        let mut three = |word: &str, at: &Location, operand: &dyn ToJson| {
            let _ = write!(out, "[\"{word}\",");
            at.write(out);
            out.push(',');
            operand.write(out);
        };
        match self {
            Instruction::Put(at, value) => three("put", at, value),
            Instruction::Add(at, element) => three("add", at, element),
            Instruction::Remove(at, element) => three("remove", at, element),
            Instruction::BagAdd(at, element, amount) => {
                three("bagadd", at, element);
                let _ = write!(out, ",{amount}");
            }
            Instruction::BagRemove(at, element, amount) => {
                three("bagremove", at, element);
                let _ = write!(out, ",{amount}");
            }
            Instruction::Inc(at, by) => three("inc", at, &Element::Num(*by)),
        }
        out.push(']');
    }
}

/// A JSON value as the library writes one: its numbers are integers.
#[derive(Debug, PartialEq)]
pub(crate) enum Json {
    Null,
    Bool(bool),
    Num(i128),
    Text(String),
    List(Vec<Json>),
    Object(BTreeMap<String, Json>),
}

struct Reader<'a> {
    left: &'a [u8],
}

impl Reader<'_> {
    fn next(&mut self) -> Option<u8> {
        let (first, left) = self.left.split_first()?;
        self.left = left;
        Some(*first)
    }

    fn skips(&mut self, wanted: &[u8]) -> Option<()> {
        self.left = self.left.strip_prefix(wanted)?;
        Some(())
    }

    fn value(&mut self) -> Option<Json> {
        match self.left.first()? {
            b'n' => self.skips(b"null").map(|()| Json::Null),
            b't' => self.skips(b"true").map(|()| Json::Bool(true)),
            b'f' => self.skips(b"false").map(|()| Json::Bool(false)),
            b'"' => self.text().map(Json::Text),
            b'[' => self.items(b']', Reader::value).map(Json::List),
            b'{' => self.items(b'}', Reader::entry).map(|entries| Json::Object(entries.into_iter().collect())),
            _ => self.number(),
        }
    }

    fn number(&mut self) -> Option<Json> {
        let end = self.left.iter().position(|it| !matches!(it, b'-' | b'0'..=b'9')).unwrap_or(self.left.len());
        let (digits, left) = self.left.split_at(end);
        self.left = left;
        std::str::from_utf8(digits).ok()?.parse().ok().map(Json::Num)
    }

    fn items<T>(&mut self, close: u8, item: impl Fn(&mut Self) -> Option<T>) -> Option<Vec<T>> {
        let mut items = Vec::new();
        self.next()?;
        if self.left.first() == Some(&close) {
            self.next()?;
            return Some(items);
        }
        loop {
            items.push(item(self)?);
            match self.next()? {
                b',' => {}
                it if it == close => return Some(items),
                _ => return None,
            }
        }
    }

    fn entry(&mut self) -> Option<(String, Json)> {
        let key = self.text()?;
        self.skips(b":")?;
        Some((key, self.value()?))
    }

    fn text(&mut self) -> Option<String> {
        self.skips(b"\"")?;
        let mut bytes = Vec::new();
        loop {
            match self.next()? {
                b'"' => return String::from_utf8(bytes).ok(),
                b'\\' => {
                    let c = self.escaped()?;
                    bytes.extend_from_slice(c.encode_utf8(&mut [0; 4]).as_bytes());
                }
                byte => bytes.push(byte),
            }
        }
    }

    fn escaped(&mut self) -> Option<char> {
        Some(match self.next()? {
            b'b' => '\u{8}',
            b'f' => '\u{c}',
            b'n' => '\n',
            b'r' => '\r',
            b't' => '\t',
            b'u' => {
                let (digits, left) = self.left.split_at_checked(4)?;
                self.left = left;
                let code = u32::from_str_radix(std::str::from_utf8(digits).ok()?, 16).ok()?;
                char::from_u32(code)?
            }
            byte @ (b'"' | b'\\' | b'/') => char::from(byte),
            _ => return None,
        })
    }
}

/// The value of a text that the library wrote.
pub(crate) fn read(text: &[u8]) -> Option<Json> {
    let mut reader = Reader { left: text };
    let value = reader.value()?;
    reader.left.is_empty().then_some(value)
}

impl Json {
    pub(crate) fn list(self) -> Option<Vec<Json>> {
        match self {
            Json::List(items) => Some(items),
            _ => None,
        }
    }

    pub(crate) fn text(self) -> Option<String> {
        match self {
            Json::Text(text) => Some(text),
            _ => None,
        }
    }

    pub(crate) fn member(self, key: &str) -> Option<Json> {
        match self {
            Json::Object(mut members) => members.remove(key),
            _ => None,
        }
    }

    /// As many items as wanted, no more.
    pub(crate) fn tuple<const N: usize>(self) -> Option<[Json; N]> {
        self.list()?.try_into().ok()
    }

    pub(crate) fn number<T: TryFrom<i128>>(self) -> Option<T> {
        match self {
            Json::Num(number) => number.try_into().ok(),
            _ => None,
        }
    }

    pub(crate) fn element(self) -> Option<Element> {
        Some(match self {
            Json::Null => Element::Undef,
            Json::Bool(is_true) => Element::Bool(is_true),
            Json::Num(number) => Element::Num(number.try_into().ok()?),
            Json::Text(text) => Element::Text(text),
            Json::Object(_) => {
                let items = self.member("list")?.list()?;
                Element::List(items.into_iter().map(Json::element).collect::<Option<_>>()?)
            }
            Json::List(_) => return None,
        })
    }

    pub(crate) fn value(self) -> Option<Value> {
        let Json::Object(mut members) = self else {
            return self.element().map(Value::from);
        };
        if let Some(elements) = members.remove("set") {
            let elements = elements.list()?.into_iter().map(Json::element);
            return elements.collect::<Option<BTreeSet<_>>>().map(Value::Set);
        }
        if let Some(counts) = members.remove("bag") {
            let counts = counts.list()?.into_iter().map(|it| {
                let [element, count] = it.tuple()?;
                Some((element.element()?, count.number()?))
            });
            return counts.collect::<Option<BTreeMap<_, _>>>().map(Value::Bag);
        }
        Json::Object(members).element().map(Value::from)
    }

    pub(crate) fn location(self) -> Option<Location> {
        let mut items = self.list()?.into_iter();
        let name = items.next()?.text()?;
        Some(Location::new(name).args_of(items.map(Json::element).collect::<Option<Vec<_>>>()?))
    }

    pub(crate) fn pairs(self) -> Option<Vec<(Location, Value)>> {
        let pairs = self.list()?.into_iter().map(|pair| {
            let [at, value] = pair.tuple()?;
            Some((at.location()?, value.value()?))
        });
        pairs.collect()
    }

    pub(crate) fn values(self) -> Option<Vec<Value>> {
        self.list()?.into_iter().map(Json::value).collect()
    }

    /// A move, and the locations that it names with their numbers.
    pub(crate) fn offer(self) -> Option<(Move, Vec<(Location, MoveNumber)>)> {
        let Json::Object(mut members) = self else {
            return None;
        };
        let instructions = members.remove("fire")?.list()?.into_iter().map(Json::instruction);
        let reads = members.remove("reads")?.list()?.into_iter().map(|read| {
            let [at, number] = read.tuple()?;
            Some((at.location()?, MoveNumber::new(number.number()?)))
        });
        Some((instructions.collect::<Option<Move>>()?, reads.collect::<Option<_>>()?))
    }

    pub(crate) fn instruction(self) -> Option<Instruction> {
        let mut items = self.list()?.into_iter();
        let word = items.next()?.text()?;
        let at = items.next()?.location()?;
        let operand = items.next()?;
        let amount = items.next();
        Some(match (word.as_str(), amount) {
            ("put", None) => Instruction::Put(at, operand.value()?),
            ("add", None) => Instruction::Add(at, operand.element()?),
            ("remove", None) => Instruction::Remove(at, operand.element()?),
            ("inc", None) => Instruction::Inc(at, operand.number()?),
            ("bagadd", Some(amount)) => Instruction::BagAdd(at, operand.element()?, amount.number()?),
            ("bagremove", Some(amount)) => Instruction::BagRemove(at, operand.element()?, amount.number()?),
            _ => return None,
        })
    }
}
