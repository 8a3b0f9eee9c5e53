//! What the tests of runs share.
#![allow(dead_code, reason = "each test uses some of it")]
use folugben::{Auditor, Conflict, Counts, Error, Location, Played, Run, RunAgent, Value, audit_run};
use std::fs;
use std::io::Write;
use std::path::{Path, PathBuf};

/// A path of the test's own, at which nothing is; what is then made there is removed with it.
pub struct Room(PathBuf);

impl Room {
    pub fn new(name: &str) -> Room {
        let path = Path::new(env!("CARGO_TARGET_TMPDIR")).join(format!("{name}-{}", std::process::id()));
        let room = Room(path);
        room.remove();
        room
    }

    pub fn path(&self) -> &Path {
        &self.0
    }

    fn remove(&self) {
        let _ = fs::remove_dir_all(&self.0);
        let _ = fs::remove_file(&self.0);
    }

    /// The names of the segments, in their order.
    pub fn segments(&self) -> Vec<PathBuf> {
        let mut all: Vec<_> = fs::read_dir(&self.0).unwrap().map(|it| it.unwrap().path()).collect();
        all.retain(|it| it.extension().is_some_and(|it| it == "journal"));
        all.sort();
        all
    }

    /// The texts of all segments, one behind the other.
    pub fn bytes(&self) -> Vec<u8> {
        self.segments().iter().flat_map(|it| fs::read(it).unwrap()).collect()
    }

    /// The state after the run.
    pub fn state(&self) -> Vec<(Location, Value)> {
        let mut auditor = Auditor::new();
        auditor.write_all(&self.bytes()).unwrap();
        auditor.state().unwrap().unwrap()
    }

    /// The result of an audit of the folder, and the state after the run.
    pub fn audited(&self) -> (Counts, Vec<(Location, Value)>) {
        let mut auditor = Auditor::new();
        auditor.write_all(&self.bytes()).unwrap();
        let counts = auditor.finish().unwrap();
        assert_eq!(audit_run(&self.0), Ok(counts));
        (counts, auditor.state().unwrap().unwrap())
    }
}

impl Drop for Room {
    fn drop(&mut self) {
        self.remove();
    }
}

pub fn count() -> Location {
    Location::new("count")
}

pub fn open(room: &Room, moves: u32) -> Run {
    Run::open([(count(), 0.into())], room.path(), moves).unwrap()
}

/// Adds 1 to the count, by a step that depends on it; returns the move's number.
pub fn add_one(agent: &mut RunAgent) -> Result<u64, Error> {
    agent.play(|step| step.put(count(), step.get(count())?.as_num().unwrap() + 1)).map(fired)
}

/// The number of the move that was fired.
#[expect(clippy::needless_pass_by_value, reason = "it is passed by `map`")]
pub fn fired<T>(played: Played<T>) -> u64 {
    played.number.unwrap().get()
}

/// A step's part has ended.
pub const PAST: Error = Error::Conflict(Conflict::Past);

/// The parts, calls and moves.
pub fn numbers(it: Counts) -> (u64, u64, u64) {
    (it.parts, it.calls, it.moves)
}

/// Draws numbers, the same ones for the same seed.
pub struct Draw(pub u64);

impl Draw {
    /// A number below the most.
    pub fn below(&mut self, most: u64) -> u64 {
        self.0 ^= self.0 << 13;
        self.0 ^= self.0 >> 7;
        self.0 ^= self.0 << 17;
        self.0 % most
    }
}
