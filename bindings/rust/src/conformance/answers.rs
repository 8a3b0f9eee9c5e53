//! Answers to calls in the words of the table, and whether they are the wanted ones.
use crate::json::{Json, ToJson, read};
use crate::{AuditError, Cause, Conflict, Error, JournalError, Limit, Location, sys};

/// Why a call has no answer.
#[derive(Debug)]
pub(super) enum Refusal {
    /// The words are none of the crate's types.
    Untyped,
    Call(Error),
    Journal(JournalError),
    Audit(AuditError),
    Illegal(u64),
}

impl From<Error> for Refusal {
    fn from(error: Error) -> Refusal {
        Refusal::Call(error)
    }
}

pub(super) type Answer = Result<String, Refusal>;

fn of_journal(fault: &JournalError) -> (&'static str, Vec<u64>) {
    match fault {
        JournalError::NotJson(line) => ("NOT_JSON", vec![*line]),
        JournalError::Shape(line) => ("SHAPE", vec![*line]),
        JournalError::Version => ("VERSION", vec![]),
        JournalError::Cut => ("CUT", vec![]),
        JournalError::Memory => ("MEMORY", vec![]),
    }
}

fn of_audit(error: &AuditError) -> (&'static str, Vec<u64>) {
    match error {
        AuditError::Illegal { part, call } => ("ILLEGAL", vec![*call, *part]),
        AuditError::Journal { part, fault } => {
            let (name, mut numbers) = of_journal(fault);
            numbers.push(*part);
            (name, numbers)
        }
        AuditError::Apart { part } => ("APART", vec![*part]),
        AuditError::LongLine { part } => ("LONG_LINE", vec![*part]),
        AuditError::Memory => ("MEMORY", vec![]),
    }
}

/// Returns the code of a call's error; what it is said to be if the table has that as an answer. A clash of a commit is a conflict.
fn of_call(call: &str, error: &Error) -> Result<(&'static str, Vec<u64>), String> {
    let clash = |at: &Location, cause: Cause| format!("{{\"clash\":[{},\"{cause:?}\"]}}", at.json());
    Ok(match error {
        Error::Conflict(Conflict::Stale(at)) => return Err(format!("{{\"stale\":{}}}", at.json())),
        Error::Conflict(Conflict::Clash { at, cause }) if call == "commit" => return Err(clash(at, *cause)),
        Error::Clash { at, cause } if call != "commit" => return Err(clash(at, *cause)),
        Error::Large(at) => return Err(format!("{{\"large\":{}}}", at.json())),
        Error::Full => ("FULL", vec![]),
        Error::Many(Limit::Places(_)) => ("MANY", vec![]),
        Error::Many(Limit::Instructions) => ("LONG_MOVE", vec![]),
        Error::Deep => ("DEEP", vec![]),
        Error::Range(it) if it.what == "the capacity" => ("CAPACITY", vec![]),
        Error::Range(it) if it.what == "the number of a read" => ("AHEAD", vec![]),
        Error::NoMove => ("NO_PUSH", vec![]),
        Error::NoJournal => ("NO_JOURNAL", vec![]),
        Error::NotGiven(_) => ("NO_AGENT", vec![]),
        Error::NotFull => ("NOT_FULL", vec![]),
        Error::NumberTaken(_) => ("NUMBER", vec![]),
        Error::Missing(number) => ("MISSING", vec![number.get()]),
        Error::OtherStorage => ("OTHER", vec![]),
        Error::Refused(_) | Error::OtherKind { .. } => ("SHAPE", vec![]),
        Error::Unknown(sys::EMPTY) => ("EMPTY", vec![]),
        Error::Unknown(sys::MOVED) => ("MOVED", vec![]),
        Error::Unknown(sys::NO_ANSWER) => ("NO_ANSWER", vec![]),
        other => return Err(other.to_string()),
    })
}

/// Whether the call was answered so; an answer that can't be in the crate's types is refused by them.
pub(super) fn matches_wanted(call: &str, answer: &Answer, wanted: &str) -> bool {
    let refusal = match answer {
        Ok(answer) => return read(answer.as_bytes()) == read(wanted.as_bytes()),
        Err(Refusal::Untyped) => {
            return ["SHAPE", "AGENTS"].iter().any(|it| wanted.starts_with(&format!("{{\"error\":\"{it}\"")));
        }
        Err(refusal) => refusal,
    };
    let (name, numbers) = match refusal {
        Refusal::Call(error) => match of_call(call, error) {
            Ok(answer) => answer,
            Err(answer) => return read(answer.as_bytes()) == read(wanted.as_bytes()),
        },
        Refusal::Journal(fault) => of_journal(fault),
        Refusal::Audit(error) => of_audit(error),
        Refusal::Illegal(call) => ("ILLEGAL", vec![*call]),
        Refusal::Untyped => return false,
    };
    let Some(Json::Object(mut wanted)) = read(wanted.as_bytes()) else { return false };
    let is_reported = match (wanted.remove("said").and_then(Json::text), refusal) {
        (Some(said), Refusal::Call(error)) => error.to_string() == said,
        _ => true,
    };
    let wanted_numbers: Option<Vec<u64>> =
        wanted.remove("numbers").and_then(Json::list).map(|it| it.into_iter().filter_map(Json::number).collect());
    is_reported
        && wanted.remove("error").and_then(Json::text).as_deref() == Some(name)
        && wanted_numbers.is_none_or(|it| it == numbers)
}

/// The text of the last word of a line, split at its commas outside of brackets and strings.
pub(super) fn last_word(line: &str) -> &str {
    let (mut depth, mut is_in_text, mut is_escaped, mut begin) = (0, false, false, 1);
    for (i, byte) in line.bytes().enumerate() {
        match byte {
            _ if is_escaped => is_escaped = false,
            b'\\' => is_escaped = true,
            b'"' => is_in_text = !is_in_text,
            b'[' | b'{' if !is_in_text => depth += 1,
            b']' | b'}' if !is_in_text => depth -= 1,
            b',' if !is_in_text && depth == 1 => begin = i + 1,
            _ => {}
        }
    }
    &line[begin..line.len() - 1]
}
