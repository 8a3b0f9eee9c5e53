//! One part of a run.
use crate::storage::Storage;
use std::sync::OnceLock;
use std::sync::atomic::{AtomicBool, AtomicU64, Ordering};
use std::time::{Duration, Instant};

/// How a run's parts end.
#[derive(Clone, Copy)]
pub(crate) struct Limits {
    pub(crate) moves: u32,
    pub(crate) receipts: u64,
    pub(crate) every: Option<Duration>,
    /// Whether agents record, unless one is set otherwise.
    pub(crate) is_recording: bool,
}

/// A storage of the run.
pub(crate) struct Part {
    pub(crate) number: u64,
    /// How many moves the parts before have.
    pub(crate) before: u64,
    pub(crate) storage: Storage,
    /// No step begins in it any more.
    has_ended: AtomicBool,
    receipts: AtomicU64,
    first_move: OnceLock<Instant>,
}

impl Part {
    pub(crate) fn new(number: u64, before: u64, storage: Storage) -> Part {
        let (has_ended, receipts) = (AtomicBool::new(false), AtomicU64::new(0));
        Part { number, before, storage, has_ended, receipts, first_move: OnceLock::new() }
    }

    pub(crate) fn has_ended(&self) -> bool {
        self.has_ended.load(Ordering::Acquire)
    }

    pub(crate) fn set_ended(&self, has_ended: bool) {
        self.has_ended.store(has_ended, Ordering::Release);
    }

    /// Whether there are more receipts than so many.
    pub(crate) fn is_heavy(&self, receipts: u64) -> bool {
        self.receipts.load(Ordering::Relaxed) > receipts
    }

    /// Notes the time of the first move: whether this was it.
    pub(crate) fn begin_time(&self) -> bool {
        self.first_move.set(Instant::now()).is_ok()
    }

    /// How long ago its first move was fired.
    pub(crate) fn age(&self) -> Option<Duration> {
        self.first_move.get().map(Instant::elapsed)
    }

    pub(crate) fn count_receipts(&self, receipts: u64) {
        self.receipts.fetch_add(receipts, Ordering::Relaxed);
    }
}
