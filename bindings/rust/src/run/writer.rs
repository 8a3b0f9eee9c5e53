//! The thread that saves the parts of a run.
use crate::audit::Counts;
use crate::error::Error;
use crate::run::ended::EndCause;
use crate::run::folder::RunFolder;
use crate::run::part::Part;
use crate::run::parts::Core;
use crate::sys;
use std::io;
use std::panic::resume_unwind;
use std::ptr;
use std::thread;

/// Reports to the run that its writer has ended, however it ends.
struct Writer<'a>(&'a Core);

impl Drop for Writer<'_> {
    fn drop(&mut self) {
        if thread::panicking() {
            self.0.end(EndCause::Write {
                kind: io::ErrorKind::Other,
                why: "the thread that writes has panicked".to_owned(),
            });
        }
        self.0.done();
    }
}

/// Saves each part of the run, in their order, until the run is closed or has ended.
pub(crate) fn save_parts(core: &Core, folder: RunFolder) {
    hold_size_signal();
    let _writer = Writer(core);
    // It is closed before the run learns that this thread has ended.
    let mut folder = folder;
    while let Some(part) = core.due() {
        let result = match save(core, &part, &mut folder) {
            Ok(true) => {
                core.is_saved(folder.counts());
                drop(part); // its memory is released before old segments are dropped
                folder.drop_oldest()
            }
            result => result.map(drop),
        };
        if let Err(error) = result {
            return core.end(cause(error));
        }
    }
}

/// Returns how many events a journal has, which are the lines after its header.
fn events(journal: &[u8]) -> u64 {
    // The text ends with a line feed, so there is an empty piece behind the last one.
    journal.split(|it| *it == b'\n').count() as u64 - 2
}

/// Saves the part, unless it is the last one and nothing was called in it; returns false if it goes on.
fn save(core: &Core, part: &Part, folder: &mut RunFolder) -> Result<bool, Error> {
    let journal = part.storage.close()?;
    let calls = events(journal.as_bytes());
    let Some(is_last) = core.open_next_at_rest(part)? else { return Ok(false) };
    if !is_last || calls > 0 {
        folder.save(journal.as_bytes(), Counts { calls, moves: part.storage.moves().into(), ..Counts::default() })?;
    }
    Ok(true)
}

fn cause(error: Error) -> EndCause {
    match error {
        Error::Missing(number) => EndCause::Missing(number),
        Error::File { kind, why } => EndCause::Write { kind, why },
        Error::Damaged { segment, why } => EndCause::Damaged { segment, why },
        Error::TooLong => EndCause::TooLong,
        _ => EndCause::Memory,
    }
}

/// Does what writes files in a thread of its own, in which a file that becomes too large is an error and kills nobody.
pub(crate) fn on_own_thread<T: Send>(work: impl FnOnce() -> T + Send) -> T {
    let work = || {
        hold_size_signal();
        work()
    };
    thread::scope(|threads| threads.spawn(work).join()).unwrap_or_else(|panic| resume_unwind(panic))
}

/// Blocks SIGXFSZ in this thread, which kills the process if a file becomes larger than the system's limit.
fn hold_size_signal() {
    let mut signals = sys::SignalSet::default();
    // SAFETY: the set is as large as the system's, and no other thread has it.
    unsafe {
        sys::sigemptyset(&raw mut signals);
        sys::sigaddset(&raw mut signals, sys::SIGXFSZ);
        sys::pthread_sigmask(sys::SIG_BLOCK, &raw const signals, ptr::null_mut());
    }
}
