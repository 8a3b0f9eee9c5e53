//! Endless runs.
//!
//! A run is a chain of storages, its parts, of which steps begin in the newest one. Invariants, whatever threads do:
//!
//! 1. *A part has ended* once a further one is open after it, once it must come to rest, or once the run ends. No agent
//!    enters a part that has ended. One that came to rest goes on if its state is too long to open a further part.
//! 2. *The next part is opened* by an agent that has seen all moves of a full part, or by the writer once a part that has ended
//!    is at rest and its journal made. So it opens with the state after all moves of the part, and none is fired there later.
//! 3. *A part has ended before any agent is in the next one.* Whoever learns of a move of that finds its own part ended when it
//!    begins a step, and begins it in the newest part.
//! 4. *An agent comes back* as its step ends, or as it begins one, if its part has ended; if it does neither, the writer takes
//!    it: at once between two steps, after 0.1 s in a step. So a part that has ended comes to rest, whatever becomes of its
//!    steps.
//! 5. *Only the writer saves*, the oldest part first, once that has ended and all its agents came back. A file has the name
//!    of a segment once it is complete and on the disk, and is never changed. After an error nothing more is saved.
//! 6. *Nobody waits for an agent.* Agents wait for the writer alone, holding no lock: while two parts that have ended aren't
//!    saved, and while a part comes to rest.
//!
//! The locks are taken in this order: that of one seat, that of `State`, that of a storage.

mod agent;
mod ended;
mod folder;
mod part;
mod parts;
mod reading;
mod seat;
mod trail;
mod writer;

pub use agent::{RunAgent, RunStep};
pub use ended::{Broken, EndCause};
pub use reading::audit_run;
pub(crate) use seat::SeatStep;

use crate::audit::Counts;
use crate::cause::OutOfRange;
use crate::error::Error;
use crate::number::AgentNumber;
use crate::run::folder::RunFolder;
use crate::run::part::Limits;
use crate::run::parts::Core;
use crate::run::reading::names;
use crate::storage::Storage;
use crate::value::{Location, Value};
use std::ffi::OsString;
use std::fmt;
use std::path::{Path, PathBuf};
use std::sync::Arc;
use std::thread::{Builder, JoinHandle};
use std::time::Duration;

/// How many agents a run has at most.
const AGENTS: usize = 256;
/// How many moves a part has room for, by default.
const MOVES: u32 = 100_000;

/// What is audited of an earlier run before it is resumed.
#[derive(Clone, Copy, Debug, Default, PartialEq, Eq)]
pub enum Check {
    /// All segments.
    #[default]
    All,
    /// The last segment alone; of the others only the names are checked.
    Last,
}

/// When the parts of a [`Run`] end.
///
/// ```no_run
/// use folugben::{Check, RunOptions};
/// use std::time::Duration;
/// # fn main() -> Result<(), folugben::Error> {
/// let options = RunOptions::new().moves(10_000).every(Duration::from_secs(5));
/// let run = options.resume("bank.run", Check::Last)?;
/// # run.close()?;
/// # Ok(())
/// # }
/// ```
#[derive(Clone, Copy, Debug)]
#[must_use = "options do nothing until a run is opened or resumed"]
pub struct RunOptions {
    moves: u32,
    receipts: Option<u64>,
    every: Option<Duration>,
    is_recording: bool,
    keep: Option<u64>,
}

impl RunOptions {
    /// Makes options for parts of 100,000 moves.
    pub fn new() -> RunOptions {
        RunOptions { moves: MOVES, receipts: None, every: None, is_recording: false, keep: None }
    }

    /// Ends each part after this number of moves, 1 to 1,048,576.
    pub fn moves(self, moves: u32) -> RunOptions {
        RunOptions { moves, ..self }
    }

    /// Ends a part if its agents have more receipts than that.
    ///
    /// There is one of each fire, also in vain, and one of each read that a commit records. By default the limit is twice the
    /// number of moves, or four times that of a run that records.
    pub fn receipts(self, receipts: u64) -> RunOptions {
        RunOptions { receipts: Some(receipts), ..self }
    }

    /// Ends each part this long after its first move.
    pub fn every(self, every: Duration) -> RunOptions {
        RunOptions { every: Some(every), ..self }
    }

    /// Sets whether the run's agents record what their steps read.
    ///
    /// See [`Agent::set_recording`](crate::Agent::set_recording).
    pub fn record(self, is_recording: bool) -> RunOptions {
        RunOptions { is_recording, ..self }
    }

    /// Keeps this many of the last segments, at least 1: after each save older ones are removed, one after the other.
    ///
    /// A run whose first segments were removed may be audited and resumed; it then begins with the state with which the first
    /// segment opens that is there. By default all segments stay.
    pub fn keep(self, segments: u64) -> RunOptions {
        RunOptions { keep: Some(segments), ..self }
    }

    fn expect_keep(self) -> Result<(), Error> {
        if self.keep == Some(0) { Err(OutOfRange::keep(0)) } else { Ok(()) }
    }

    /// Opens a run with this state in a folder that is new or empty.
    ///
    /// It begins with a segment without a move, so that it may be resumed from then on.
    ///
    /// # Errors
    ///
    /// - [`Error::File`]: of the kind `AlreadyExists` if there is a run or anything else; or the folder can't be written.
    /// - [`Error::InUse`]: another process makes a run there.
    /// - [`Error::TooLong`]: the state is too long for a line.
    /// - [`Error::Range`]: the number of moves, or that of the segments to keep, is out of its range.
    /// - [`Error::Refused`]: as of [`Storage::open`].
    pub fn open(
        self,
        state: impl IntoIterator<Item = (Location, Value)>,
        path: impl AsRef<Path>,
    ) -> Result<Run, Error> {
        self.expect_keep()?;
        let storage = Storage::open(state, self.moves)?;
        let opening = storage.close()?;
        let path = path.as_ref();
        let folder = writer::on_own_thread(|| RunFolder::create(path, opening.as_bytes()))?;
        let there = names(folder.path())?;
        self.start(storage, folder, there)
    }

    /// Resumes a run from the end of its last segment, also if its process was killed.
    ///
    /// That cuts and removes nothing.
    ///
    /// # Errors
    ///
    /// - [`Error::File`]: of the kind `NotFound` if there is no run, of the kind `NotADirectory` if the path leads to a file;
    ///   or the folder can't be read or written.
    /// - [`Error::InUse`]: another run uses the folder.
    /// - [`Error::Damaged`]: a segment is missing, or isn't the one that was saved.
    /// - [`Error::Audit`]: a segment isn't legal.
    /// - [`Error::Range`]: the number of moves, or that of the segments to keep, is out of its range.
    pub fn resume(self, path: impl AsRef<Path>, check: Check) -> Result<Run, Error> {
        self.expect_keep()?;
        let path = path.as_ref();
        let (mut folder, names) = writer::on_own_thread(|| RunFolder::reopen(path))?;
        let unread = match check {
            Check::All => 0,
            Check::Last => names.len() - 1,
        };
        let (before, checked) = names.split_at(unread);
        let state = folder.read(before, checked)?;
        let storage = Storage::open_text(&state, self.moves)?;
        self.start(storage, folder, names)
    }

    fn start(self, storage: Storage, mut folder: RunFolder, there: Vec<OsString>) -> Result<Run, Error> {
        let each = if self.is_recording { 4 } else { 2 };
        let receipts = self.receipts.unwrap_or(each * u64::from(self.moves));
        let limits = Limits { moves: self.moves, receipts, every: self.every, is_recording: self.is_recording };
        if let Some(most) = self.keep {
            folder.set_keep(most, there);
        }
        let core = Arc::new(Core::new(storage, limits, folder.counts()));
        let (path, shared) = (folder.path().to_owned(), Arc::clone(&core));
        let writer =
            Builder::new().name("folugben run".to_owned()).spawn(move || writer::save_parts(&shared, folder))?;
        Ok(Run { core, writer: Some(writer), path })
    }
}

impl Default for RunOptions {
    fn default() -> RunOptions {
        RunOptions::new()
    }
}

/// An endless run in a folder: each part of it is saved as a text file, a segment.
///
/// Its agents fire moves as those of a [`Storage`] do. When a part ends, as it is full or as [`RunOptions`] say, they go on in
/// the next one by themselves, and a thread of the run saves the part before its memory is released. At most three parts are in
/// memory, however long the run is. The runs of Python and Java have the same folder, and each goes on with the others'.
///
/// ```
/// use folugben::{Check, Error, Location, Run, audit_run};
/// # fn main() -> Result<(), Error> {
/// # let path = std::env::temp_dir().join(format!("folugben-doc-{}", std::process::id()));
/// let count = Location::new("count");
/// let run = Run::open([(count.clone(), 0.into())], &path, 100)?;
/// std::thread::scope(|threads| {
///     for mut agent in run.agents(4)? {
///         let count = &count;
///         threads.spawn(move || {
///             for _ in 0..250 {
///                 agent.play(|step| step.put(count, step.get_num(count)? + 1))?;
///             }
///             Ok::<(), Error>(())
///         });
///     }
///     Ok::<(), Error>(())
/// })?;
/// let saved = run.close()?;
/// assert_eq!(saved.moves, 1_000);
/// assert_eq!(audit_run(&path)?, saved);
///
/// let run = Run::resume(&path, Check::Last)?; // also after a crash
/// let mut agent = run.agent(0)?;
/// assert_eq!(agent.step()?.get_num(&count)?, 1_000);
/// # run.close()?;
/// # std::fs::remove_dir_all(&path)?;
/// # Ok(())
/// # }
/// ```
///
/// A run that is dropped is closed, but no error is reported: so [`Run::close`] it. If a part can't be saved, the run
/// ends: each further call on it and its agents is [`Error::Broken`] with the part. What was saved before is complete.
#[must_use = "a run is closed when it is dropped"]
pub struct Run {
    core: Arc<Core>,
    writer: Option<JoinHandle<()>>,
    path: PathBuf,
}

impl Run {
    /// Opens a run with parts of the given number of moves, as [`RunOptions::open`] does.
    ///
    /// # Errors
    ///
    /// Those of [`RunOptions::open`].
    pub fn open(
        state: impl IntoIterator<Item = (Location, Value)>,
        path: impl AsRef<Path>,
        moves: u32,
    ) -> Result<Run, Error> {
        RunOptions::new().moves(moves).open(state, path)
    }

    /// Resumes a run, with parts of 100,000 moves, as [`RunOptions::resume`] does.
    ///
    /// # Errors
    ///
    /// Those of [`RunOptions::resume`].
    pub fn resume(path: impl AsRef<Path>, check: Check) -> Result<Run, Error> {
        RunOptions::new().resume(path, check)
    }

    /// Makes an agent with this number, for any one thread at a time.
    ///
    /// # Errors
    ///
    /// - [`Error::NumberTaken`]: an agent with this number is in use; once that is dropped, another may be made.
    /// - [`Error::Broken`], [`Error::Closed`].
    pub fn agent(&self, number: impl Into<AgentNumber>) -> Result<RunAgent, Error> {
        let seat = self.core.seat(number.into())?;
        Ok(RunAgent { core: Arc::clone(&self.core), seat })
    }

    /// Makes agents with the numbers from 0 up, all of them or none.
    ///
    /// # Errors
    ///
    /// Those of [`Run::agent`], and [`Error::Range`] of more than 256.
    pub fn agents(&self, count: usize) -> Result<Vec<RunAgent>, Error> {
        if count > AGENTS {
            return Err(OutOfRange::agents(count));
        }
        let seats = self.core.seats(count)?;
        Ok(seats.into_iter().map(|seat| RunAgent { core: Arc::clone(&self.core), seat }).collect())
    }

    /// Returns the path of its folder.
    #[must_use]
    pub fn path(&self) -> &Path {
        &self.path
    }

    /// Returns how much of the run is on the disk, or was until it was removed ([`RunOptions::keep`]).
    ///
    /// Each move with a number up to `moves` is safe, also from a power failure. Of parts that were removed before the run was
    /// resumed the calls aren't counted.
    #[must_use]
    pub fn saved(&self) -> Counts {
        self.core.saved()
    }

    /// Saves all moves up to now: they are on the disk when this returns.
    ///
    /// It ends the part, which makes a segment, and waits for steps for 0.1 s; one that lasts longer is in conflict
    /// ([`Conflict::Past`](crate::Conflict::Past)), and `play` begins again.
    ///
    /// # Errors
    ///
    /// - [`Error::Broken`]: a part couldn't be saved.
    /// - [`Error::Closed`]: the run was closed.
    /// - [`Error::TooLong`]: the state is too long for a line, so the part goes on until it is full.
    pub fn flush(&self) -> Result<Counts, Error> {
        self.core.flush()
    }

    /// Ends the run: returns all agents, saves the fired moves, and returns the counts.
    ///
    /// Those are the counts of what is on the disk. It waits for no step: one that goes on fires nothing once this has returned,
    /// and its next call is [`Error::Closed`], as those of all agents are.
    ///
    /// # Errors
    ///
    /// [`Error::Broken`]: a part couldn't be saved.
    pub fn close(&self) -> Result<Counts, Error> {
        self.core.close()
    }
}

impl Drop for Run {
    fn drop(&mut self) {
        let _ = self.core.close();
        if let Some(writer) = self.writer.take() {
            let _ = writer.join();
        }
    }
}

impl fmt::Debug for Run {
    fn fmt(&self, f: &mut fmt::Formatter<'_>) -> fmt::Result {
        f.debug_struct("Run").field("path", &self.path).field("saved", &self.saved()).finish_non_exhaustive()
    }
}
