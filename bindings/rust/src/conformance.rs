//! Does the calls of the table of conformance, and compares the answers: bindings/conformance/README.md says what its lines are.
//! They are done twice, the second time by agents that record.
mod answers;

use crate::holder::{Holder, commit};
use crate::instruction::{Instruction, Move};
use crate::json::{Json, ToJson, read};
use crate::{
    Agent, Auditor, Error, Journal, Legality, Location, MoveNumber, Prepared, PreparedMove, Step, Storage, aggregate,
    compose, sys,
};
use answers::{Answer, Refusal, last_word, matches_wanted};
use std::collections::BTreeMap;
use std::io::Write;
use std::path::{Path, PathBuf};
use std::{env, fs, mem};

const TABLES: [&str; 7] = ["moves", "calls", "polls", "steps", "gathered", "commits", "journals"];

fn typed<T>(word: Option<T>) -> Result<T, Refusal> {
    word.ok_or(Refusal::Untyped)
}

fn places(word: Json) -> Result<Vec<Location>, Refusal> {
    typed(typed(word.list())?.into_iter().map(Json::location).collect())
}

fn move_of(word: Json) -> Result<Move, Refusal> {
    Ok(instructions(word)?.into_iter().collect())
}

fn instructions(word: Json) -> Result<Vec<Instruction>, Refusal> {
    typed(typed(word.list())?.into_iter().map(Json::instruction).collect())
}

fn prepared(word: Json) -> Result<Prepared, Refusal> {
    Ok(Prepared::new(&typed(word.location())?)?)
}

/// Appends the instruction to a move that is gathered.
fn gather(into: &mut PreparedMove, instruction: Instruction) -> Result<(), Error> {
    let at = Prepared::new(instruction.at())?;
    let result = match instruction {
        Instruction::Put(_, value) => into.put(&at, value),
        Instruction::Add(_, element) => into.add(&at, element),
        Instruction::Remove(_, element) => into.remove(&at, element),
        Instruction::BagAdd(_, element, amount) => into.bag_add(&at, element, amount),
        Instruction::BagRemove(_, element, amount) => into.bag_remove(&at, element, amount),
        Instruction::Inc(_, by) => into.inc(&at, by),
    };
    result.map(drop)
}

fn named<T>(word: Json, name: impl Fn(Json) -> Option<T>) -> Result<Vec<(T, MoveNumber)>, Refusal> {
    let pair = |it: Json| {
        let [at, number] = it.tuple()?;
        Some((name(at)?, MoveNumber::from(number.number::<u32>()?)))
    };
    typed(typed(word.list())?.into_iter().map(pair).collect())
}

fn fired(number: MoveNumber) -> String {
    format!("{{\"fired\":{number}}}")
}

#[derive(Default)]
struct Replayer {
    is_recording: bool,
    storage: Option<Storage>,
    agents: BTreeMap<u8, Agent>,
    /// How many reads each agent made by itself.
    read: BTreeMap<u8, u64>,
    /// The moves that are gathered, or were popped.
    gathered: BTreeMap<u8, PreparedMove>,
    journal: Option<Journal>,
}

impl Replayer {
    fn new(is_recording: bool) -> Replayer {
        Replayer { is_recording, ..Replayer::default() }
    }

    fn open(&mut self, storage: Storage) {
        let is_recording = self.is_recording;
        storage.set_recording(is_recording);
        *self = Replayer { storage: Some(storage), ..Replayer::new(is_recording) };
    }

    /// How many reads of the journal were recorded by commits: those that no agent made by itself.
    fn recorded(&self, journal: &Journal) -> u64 {
        let reads = String::from_utf8_lossy(journal.as_bytes()).matches(r#","call":{"read":"#).count() as u64;
        let own = self.read.iter().filter(|(number, _)| !self.agents.contains_key(number));
        reads - own.map(|(_, count)| count).sum::<u64>()
    }

    fn storage(&self) -> &Storage {
        self.storage.as_ref().unwrap()
    }

    fn agent(&mut self, number: u8) -> Result<&mut Agent, Refusal> {
        self.agents.get_mut(&number).ok_or(Refusal::Call(Error::Unknown(sys::EMPTY)))
    }

    /// Calls the agent's step, which stays open.
    fn step(&mut self, number: u8, call: impl FnOnce(&mut Step<'_>) -> Answer) -> Answer {
        let agent = self.agent(number)?;
        let mut step = Step::new(Holder::Own(agent), 0);
        let result = call(&mut step);
        mem::forget(step);
        result
    }

    fn answer(&mut self, name: &str, words: Vec<Json>) -> Answer {
        let null = || Ok("null".to_owned());
        let mut words = words.into_iter();
        let mut next = || words.next().unwrap();
        match name {
            "case" => *self = Replayer::new(self.is_recording),
            "open" => {
                let (state, capacity) = (typed(next().pairs())?, typed(next().number())?);
                self.open(Storage::open(state, capacity)?);
            }
            "next" => {
                let storage = self.storage().next(typed(next().number())?)?;
                self.open(storage);
            }
            "moves" => return Ok(self.storage().moves().to_string()),
            "close" => self.journal = Some(self.storage().close()?),
            "journal" => {
                let journal = self.journal.as_ref().unwrap();
                return checked(journal, self.recorded(journal));
            }
            "lines" | "recorded" => {
                let text = String::from_utf8_lossy(self.journal.as_ref().unwrap().as_bytes()).into_owned();
                return Ok(format!("[{}]", text.lines().skip(1).collect::<Vec<_>>().join(",")));
            }
            "left" => return Ok(self.journal.as_ref().unwrap().replay().map_err(Refusal::Journal)?.as_slice().json()),
            "length" => return Ok(self.gathered.entry(next().number().unwrap()).or_default().len().to_string()),
            "gather" | "unite" | "drop" => self.gather(name, words)?,
            "instructions" => {
                let gathered = self.gathered.entry(typed(next().number())?).or_default();
                return Ok(gathered.iter().collect::<Result<Vec<_>, _>>()?.json());
            }
            "check" => return checked(&next().text().unwrap().into_bytes().into(), 0),
            "replay" => {
                let journal = Journal::from(next().text().unwrap().into_bytes());
                return Ok(journal.replay().map_err(Refusal::Journal)?.as_slice().json());
            }
            "audit" => return audited(&next().text().unwrap()),
            "aggregate" => return Ok(aggregate(&typed(next().pairs())?, &move_of(next())?)?.as_slice().json()),
            "compose" => return Ok(compose(&move_of(next())?, &move_of(next())?)?.instructions().json()),
            _ => {
                let number = typed(next().number())?;
                return self.of_agent(name, number, words);
            }
        }
        null()
    }

    fn gather(&mut self, name: &str, mut words: impl Iterator<Item = Json>) -> Result<(), Refusal> {
        let number = typed(words.next().unwrap().number())?;
        if name == "drop" {
            self.gathered.remove(&number);
        } else if name == "unite" {
            let other_number = words.next().unwrap().number().unwrap();
            let other = self.gathered.remove(&other_number).unwrap_or_default();
            let united = self.gathered.entry(number).or_default().unite(&other).map(drop);
            self.gathered.insert(other_number, other);
            united?;
        } else {
            let into = self.gathered.entry(number).or_default();
            instructions(words.next().unwrap())?.into_iter().try_for_each(|it| gather(into, it))?;
        }
        Ok(())
    }

    fn of_agent(&mut self, name: &str, number: u8, mut words: impl Iterator<Item = Json>) -> Answer {
        let mut next = || words.next().unwrap();
        match name {
            "agent" => drop(self.agents.insert(number, self.storage().agent(number)?)),
            "take" => drop(self.agents.insert(number, self.storage().take(number)?)),
            "give" => drop(self.agents.remove(&number)),
            "abandon" => self.agents.remove(&number).unwrap().abandon(),
            "go_on" => {
                let storage = self.agent(number)?.go_on(typed(next().number())?)?;
                self.open(storage);
            }
            "answer" => return Ok(String::from_utf8_lossy(&self.agent(number)?.last_answer()?).into_owned()),
            "peek_at" => {
                let (number, value) = self.agent(number)?.peek_at(&prepared(next())?)?;
                return Ok(format!("{{\"number\":{number},\"values\":[{}]}}", value.json()));
            }
            "learn" => {
                let other_number = next().number().unwrap();
                let mut other = self.agents.remove(&other_number).unwrap();
                let learnt = self.agent(number)?.learn(&mut other);
                self.agents.insert(other_number, other);
                learnt?;
            }
            "read" | "peek" => {
                let (places, agent) = (places(next())?, self.agent(number)?);
                let result = if name == "read" { agent.read(&places)? } else { agent.peek(&places)? };
                if name == "read" {
                    *self.read.entry(number).or_default() += 1;
                }
                return Ok(format!("{{\"number\":{},\"values\":{}}}", result.number, result.values.as_slice().json()));
            }
            "fire" => {
                let (instructions, reads) = (move_of(next())?, named(next(), Json::location)?);
                let scans = named(next(), Json::text)?;
                let scans: Vec<_> = scans.iter().map(|(name, number)| (name.as_str(), *number)).collect();
                return Ok(fired(self.agent(number)?.fire_over(&instructions, &reads, &scans)?));
            }
            "follow" => return Ok(self.agent(number)?.follow()?.to_string()),
            "stands" => self.agent(number)?.stands(&named(next(), Json::location)?)?,
            "state" | "scan" => {
                let (at, result) = match name {
                    "scan" => self.agent(number)?.scan(&next().text().unwrap())?,
                    _ => self.agent(number)?.state()?,
                };
                assert_eq!(at.get(), next().number::<u64>().unwrap());
                return Ok(result.as_slice().json());
            }
            "seen" => return Ok(self.agent(number)?.seen().to_string()),
            "won" => return Ok(self.agent(number)?.won().to_string()),
            "misses" => return Ok(self.agent(number)?.misses().to_string()),
            other => return self.of_step(other, number, words),
        }
        Ok("null".to_owned())
    }

    /// A call of the step with a move that is gathered.
    fn of_move(&mut self, name: &str, number: u8, its: u8) -> Answer {
        let mut gathered = self.gathered.remove(&its).unwrap_or_default();
        let result = self.step(number, |step| {
            match name {
                "push_move" => step.push_prepared(&gathered)?,
                "extend_move" => step.extend_prepared(&gathered)?,
                _ => gathered = step.pop_move()?,
            }
            Ok("null".to_owned())
        });
        self.gathered.insert(its, gathered);
        result
    }

    fn of_step(&mut self, name: &str, number: u8, mut words: impl Iterator<Item = Json>) -> Answer {
        let mut next = || words.next().unwrap();
        match name {
            "begin" => {
                let step = self.agent(number)?.step()?;
                let start = step.number();
                mem::forget(step);
                return Ok(start.to_string());
            }
            "step_stands" => {
                return self.step(number, |it| {
                    it.stands()?;
                    Ok("null".to_owned())
                });
            }
            "end" => self.agent(number)?.slots.end_step(),
            "commit" => return Ok(fired(commit(self.agent(number)?)?.into())),
            "get" => return self.step(number, |it| Ok(it.get_each(&places(next())?)?.as_slice().json())),
            "get_at" => return self.step(number, |it| Ok(it.get(&prepared(next())?)?.json())),
            "see" => return self.step(number, |it| Ok(it.see(&places(next())?)?.as_slice().json())),
            "get_all" => return self.step(number, |it| Ok(it.scan(&next().text().unwrap())?.as_slice().json())),
            "has" | "count_of" => {
                let (at, element) = (typed(next().location())?, typed(next().element())?);
                let has = name == "has";
                return self.step(number, |it| {
                    Ok(if has { it.has(at, element)?.to_string() } else { it.count_of(at, element)?.to_string() })
                });
            }
            "size" => {
                let at = typed(next().location())?;
                return self.step(number, |it| Ok(it.size(at)?.to_string()));
            }
            "any" => return self.step(number, |it| Ok(it.any(&next().text().unwrap())?.to_string())),
            "count" => return self.step(number, |it| Ok(it.count(&next().text().unwrap())?.to_string())),
            // The step of an agent that was returned is gone with it.
            "depth" if !self.agents.contains_key(&number) => return Ok("0".to_owned()),
            "depth" => return self.step(number, |it| Ok(it.depth().to_string())),
            "offer" => {
                return self.step(number, |it| {
                    let (instructions, reads) = it.offer()?;
                    let (fire, reads) = (instructions.instructions().json(), reads.as_slice().json());
                    Ok(format!("{{\"fire\":{fire},\"reads\":{reads}}}"))
                });
            }
            "push" => drop(self.step(number, |it| Ok(it.push(&move_of(next())?).map(|()| String::new())?))?),
            "extend" => drop(self.step(number, |it| Ok(it.extend(&move_of(next())?).map(|()| String::new())?))?),
            "push_move" | "extend_move" | "pop_move" => return self.of_move(name, number, next().number().unwrap()),
            "pop" => drop(self.step(number, |it| Ok(it.pop().map(|()| String::new())?))?),
            other => panic!("{other}"),
        }
        Ok("null".to_owned())
    }
}

fn checked(journal: &Journal, recorded: u64) -> Answer {
    match journal.check().map_err(Refusal::Journal)? {
        Legality::Legal { calls, moves } => Ok(format!("[{},{moves}]", calls - recorded)),
        Legality::Illegal { call } => Err(Refusal::Illegal(call)),
    }
}

fn audited(run: &str) -> Answer {
    let mut auditor = Auditor::new();
    let refused = |error: std::io::Error| match Error::from(error) {
        Error::Audit(error) => Refusal::Audit(error),
        error => Refusal::Call(error),
    };
    auditor.write_all(run.as_bytes()).map_err(refused)?;
    let counts = auditor.finish().map_err(Refusal::Audit)?;
    Ok(format!("[{},{},{}]", counts.calls, counts.moves, counts.parts))
}

/// The line with the items that each `{"each":COUNT,"of":ITEM}` stands for.
fn expanded(line: &str) -> String {
    let Some((before, rest)) = line.split_once("{\"each\":") else { return line.to_owned() };
    let (each, behind) = rest.split_once('}').unwrap();
    let (count, item) = each.split_once(",\"of\":").unwrap();
    let items: Vec<_> = (0..count.parse().unwrap()).map(|at: u32| item.replace("\"#\"", &at.to_string())).collect();
    format!("{before}{}{}", items.join(","), expanded(behind))
}

/// The name of a line's call, and the words behind it, of which the last is the answer.
fn call_of(line: &str) -> (String, Vec<Json>) {
    let mut words = read(line.as_bytes()).and_then(Json::list).unwrap();
    (words.remove(0).text().unwrap(), words)
}

/// How many calls of a table there are, and how many of them can't be written in Rust.
fn replay(path: &Path, is_recording: bool) -> (usize, usize) {
    let (mut replayer, mut calls, mut untyped) = (Replayer::new(is_recording), 0, 0);
    let mut times = 1;
    for (i, line) in fs::read_to_string(path).unwrap().lines().map(expanded).enumerate() {
        let line = line.as_str();
        let (name, mut words) = call_of(line);
        match name.as_str() {
            "case" => replayer = Replayer::new(is_recording),
            // The sentences alone, which errors of the crate have, and texts that are no values.
            "explain" | "text" => {}
            // The journal of agents that record has their reads too.
            "lines" if is_recording => {}
            "recorded" if !is_recording => {}
            "repeat" => times = words.remove(0).number().unwrap(),
            _ => {
                let wanted = if name == "end" { "null" } else { last_word(line) };
                for _ in 0..mem::replace(&mut times, 1) {
                    // A step that isn't there ends nothing.
                    let answer = replayer.answer(&name, call_of(line).1);
                    assert!(
                        matches_wanted(&name, &answer, wanted),
                        "{}:{}: {line:.300} answered {answer:?}",
                        path.display(),
                        i + 1
                    );
                    untyped += usize::from(matches!(answer, Err(Refusal::Untyped)));
                    calls += 1;
                }
            }
        }
    }
    (calls, untyped)
}

#[test]
fn calls_are_answered_as_in_the_table() {
    let beside = Path::new(env!("CARGO_MANIFEST_DIR")).join("../conformance");
    let folder = env::var_os("FOLUGBEN_CONFORMANCE").map_or(beside, PathBuf::from);
    // A crate by itself has no tables.
    if !folder.is_dir() && env::var_os("FOLUGBEN_CONFORMANCE").is_none() {
        eprintln!("left out: no tables in {}", folder.display());
        return;
    }
    for is_recording in [false, true] {
        let result = TABLES.map(|it| replay(&folder.join(format!("{it}.jsonl")), is_recording));
        assert!(result.iter().all(|(calls, untyped)| *calls > 15 && untyped * 8 < *calls), "{result:?}");
    }
}
