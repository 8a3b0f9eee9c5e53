//! Abstract state storage for simulators of abstract state machines: a state in memory that the agents of many threads read,
//! and fire (commit) moves on, at once. A fire that depends on an old read is refused as stale, a conflict, so no update is
//! lost. All recorded calls are one history, which can be checked.
//!
//! This is a safe crate over the library for C. The core of that library is proved: docs/PROVED.md says what, and what is
//! trusted. This crate isn't proved, only tested.
//!
//! An agent works in steps, which are transactions. All that a step gets is of one state; its later calls see what it pushes,
//! which is fired as one move. [`Agent::play`] begins again if another agent wrote first:
//!
//! ```
//! use folugben::{Error, Location, MoveNumber, Storage, Value};
//!
//! fn main() -> Result<(), Error> {
//!     let balance = |name: &str| Location::new("balance").arg(name);
//!     let storage = Storage::open([(balance("anna"), 100.into()), (balance("ben"), 0.into())], 1_000)?;
//!     let mut teller = storage.agent(0)?;
//!
//!     let played = teller.play(|step| {
//!         let there = step.get_num(balance("anna"))?;
//!         let moved = there.min(30);
//!         step.inc(balance("anna"), -moved)?;
//!         step.inc(balance("ben"), moved)?;
//!         Ok::<_, Error>(moved)
//!     })?;
//!     assert_eq!((played.number, played.result), (Some(MoveNumber::new(1)), 30));
//!
//!     drop(teller); // it is returned
//!     let journal = storage.close()?;
//!     assert!(journal.check()?.is_legal());
//!     assert_eq!(journal.replay()?, [(balance("anna"), Value::from(70)), (balance("ben"), Value::from(30))]);
//!     Ok(())
//! }
//! ```
//!
//! A storage has room for the number of moves that it is opened with, and its history is in memory. [`Run`] passes from one to
//! the next by itself, and saves the history in a folder, which [`audit_run`] checks at any length.
//!
//! A step that is moved, an empty slot and a foreign agent's step can't be written: a [`Step`] borrows its [`Agent`].
//!
//! ```compile_fail
//! # use folugben::{Error, Storage};
//! # fn main() -> Result<(), Error> {
//! # let storage = Storage::open([], 10)?;
//! let mut agent = storage.agent(0)?;
//! let step = agent.step()?;
//! agent.follow()?; // the step still borrows the agent
//! step.commit()?;
//! # Ok(())
//! # }
//! ```
//!
//! Except the threads that write the files of a run, no thread is begun; a storage ends with its last agent, and nothing is
//! stored elsewhere. Don't use any of this in the child of a fork of a process with threads.

mod additions;
mod agent;
mod audit;
mod cause;
#[cfg(test)]
mod conformance;
mod counting;
mod error;
mod holder;
mod instruction;
mod journal;
mod json;
mod members;
mod number;
mod own_state;
mod owned_slot;
mod play;
mod prepared;
mod prepared_iter;
mod pushed_at;
mod run;
mod step;
mod storage;
mod sys;
mod turns;
mod typed;
mod value;
mod waiting;

pub use agent::{Agent, Reading};
pub use audit::{AuditError, Auditor, Counts, audit};
pub use cause::{Cause, Conflict, Limit, OutOfRange};
pub use error::Error;
pub use instruction::{Instruction, Move};
pub use journal::{Journal, JournalError, Legality, aggregate, compose, version};
pub use number::{AgentNumber, MoveNumber};
pub use play::{Outcome, Patience, Played};
pub use prepared::{Prepared, PreparedMove};
pub use prepared_iter::PreparedInstructions;
pub use run::{Broken, Check, EndCause, Run, RunAgent, RunOptions, RunStep, audit_run};
pub use step::Step;
pub use storage::Storage;
pub use typed::{FromValue, Place};
pub use value::{Element, Location, Value};
