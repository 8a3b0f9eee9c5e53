//! Slots that are freed when they are dropped, and texts that calls write.
use crate::sys;
use std::cell::{Cell, UnsafeCell};
use std::ptr;

/// The room that a thread's first call has for its text.
const FIRST_SIZE: usize = 1024;
/// The most room that a thread keeps for its next call.
const LARGEST_BUFFER: usize = 64 * FIRST_SIZE;

/// A slot that never moves, and is freed when it is dropped.
pub(crate) struct OwnedSlot(Box<UnsafeCell<sys::Slot>>);

// SAFETY: A slot goes from one thread to another with what holds it; it isn't Sync, so no two threads call with it at once.
unsafe impl Send for OwnedSlot {}

impl OwnedSlot {
    pub(crate) fn empty() -> OwnedSlot {
        OwnedSlot(Box::new(UnsafeCell::new(sys::Slot { full: false, at: ptr::null_mut() })))
    }

    /// For one call: none of the library's calls keeps the pointer.
    pub(crate) fn at(&self) -> *mut sys::Slot {
        self.0.get()
    }

    pub(crate) fn is_full(&self) -> bool {
        // SAFETY: No call is at work on the slot: those of this thread have returned, and no other thread has it.
        unsafe { (*self.0.get()).full }
    }

    pub(crate) fn free(&self) {
        // SAFETY: the slot never moves, and this thread alone has it.
        unsafe { sys::asm_free(self.at()) }
    }
}

impl Drop for OwnedSlot {
    fn drop(&mut self) {
        self.free();
    }
}

/// Makes a call that writes a text, again with more room if there is too little; returns its code with the text.
pub(crate) fn text_of_call(mut call: impl FnMut(*mut u8, usize, *mut usize) -> i32) -> (i32, Vec<u8>) {
    thread_local! {
        static BUFFER: Cell<Vec<u8>> = const { Cell::new(Vec::new()) };
    }
    // In the destructors of a thread's locals nothing is kept any more.
    let mut text = BUFFER.try_with(Cell::take).unwrap_or_default();
    if text.is_empty() {
        text.resize(FIRST_SIZE, 0);
    }
    loop {
        let mut written = 0;
        let code = call(text.as_mut_ptr(), text.len(), &raw mut written);
        if code != sys::SMALL {
            if text.len() > LARGEST_BUFFER {
                text.truncate(written);
                return (code, text);
            }
            let answer = text[..written].to_vec();
            let _ = BUFFER.try_with(|buffer| buffer.set(text));
            return (code, answer);
        }
        text.resize(written, 0);
    }
}
