//! The calls of folugben.h, as it declares them.
use std::ffi::c_void;

#[repr(C)]
pub(crate) struct Slot {
    pub(crate) full: bool,
    pub(crate) at: *mut c_void,
}

#[repr(C)]
#[derive(Default)]
pub(crate) struct Numbers {
    pub(crate) fired: u32,
    pub(crate) from: u32,
    pub(crate) to: u32,
}

#[repr(C)]
#[derive(Default)]
pub(crate) struct Value {
    pub(crate) kind: i32,
    pub(crate) number: i64,
}

#[repr(C)]
#[derive(Default)]
pub(crate) struct Instruction {
    pub(crate) verb: i32,
    pub(crate) amount: u32,
    pub(crate) kind: i32,
    pub(crate) number: i64,
    pub(crate) place: usize,
}

#[repr(C)]
#[derive(Clone, Copy, Default)]
pub(crate) struct AuditNumbers {
    pub(crate) parts: u64,
    pub(crate) calls: u64,
    pub(crate) moves: u64,
}

/// What the name of a segment says.
#[repr(C)]
#[derive(Clone, Copy, Default)]
pub(crate) struct Segment {
    pub(crate) number: u64,
    pub(crate) first: u64,
    pub(crate) moves: u64,
    pub(crate) events: u64,
}

/// What is saved of a run.
#[repr(C)]
#[derive(Clone, Copy, Default)]
pub(crate) struct RunNumbers {
    pub(crate) first: u64,
    pub(crate) segments: u64,
    pub(crate) moves: u64,
}

/// A set of signals, as glibc on x86-64 has it.
#[repr(C)]
#[derive(Default)]
pub(crate) struct SignalSet([u64; 16]);

pub(crate) const SIGXFSZ: i32 = 25;
pub(crate) const SIG_BLOCK: i32 = 0;

unsafe extern "C" {
    pub(crate) fn sigemptyset(set: *mut SignalSet) -> i32;
    pub(crate) fn sigaddset(set: *mut SignalSet, signal: i32) -> i32;
    pub(crate) fn pthread_sigmask(how: i32, set: *const SignalSet, before: *mut SignalSet) -> i32;
    safe fn geteuid() -> u32;
}

/// The number of the user with whose rights this process works.
pub(crate) fn effective_user() -> u32 {
    geteuid()
}

pub(crate) const KIND_UNDEF: i32 = 0;
pub(crate) const KIND_BOOL: i32 = 1;
pub(crate) const KIND_NUM: i32 = 2;
pub(crate) const KIND_TEXT: i32 = 3;
pub(crate) const KIND_LIST: i32 = 4;
pub(crate) const KIND_SET: i32 = 5;
pub(crate) const KIND_BAG: i32 = 6;

pub(crate) const FORM_LOCATIONS: i32 = 0;
pub(crate) const FORM_MOVE: i32 = 1;
pub(crate) const FORM_STATE: i32 = 2;

// Written by tools/declarations from bindings/calls.toml.
#[allow(dead_code, reason = "the list has all calls")]
unsafe extern "C" {
    pub(crate) fn asm_error_text(code: i32, out: *mut u8, room: usize, written: *mut usize) -> i32;
    pub(crate) fn asm_version() -> u32;
    pub(crate) fn asm_open(init: *const u8, len: usize, capacity: u32, storage: *mut Slot) -> i32;
    pub(crate) fn asm_agent(storage: *mut Slot, number: u32, agent: *mut Slot) -> i32;
    pub(crate) fn asm_agents(storage: *mut Slot, agents: *mut Slot, count: usize) -> i32;
    pub(crate) fn asm_read(agent: *mut Slot, locations: *const u8, len: usize) -> i32;
    pub(crate) fn asm_try_fire(agent: *mut Slot, call: *const u8, len: usize, numbers: *mut Numbers) -> i32;
    pub(crate) fn asm_try_fire_over(
        agent: *mut Slot,
        call: *const u8,
        call_len: usize,
        scans: *const u8,
        scans_len: usize,
        numbers: *mut Numbers,
    ) -> i32;
    pub(crate) fn asm_answer(agent: *mut Slot, out: *mut u8, room: usize, written: *mut usize) -> i32;
    pub(crate) fn asm_learn(agent: *mut Slot, other: *mut Slot) -> i32;
    pub(crate) fn asm_take_state(agent: *mut Slot, other: *mut Slot) -> i32;
    pub(crate) fn asm_follow(agent: *mut Slot, number: *mut u32) -> i32;
    pub(crate) fn asm_peek(
        agent: *mut Slot,
        locations: *const u8,
        len: usize,
        out: *mut u8,
        room: usize,
        written: *mut usize,
    ) -> i32;
    pub(crate) fn asm_state(agent: *mut Slot, number: *mut u32, out: *mut u8, room: usize, written: *mut usize) -> i32;
    pub(crate) fn asm_scan(
        agent: *mut Slot,
        name: *const u8,
        len: usize,
        number: *mut u32,
        out: *mut u8,
        room: usize,
        written: *mut usize,
    ) -> i32;
    pub(crate) fn asm_stands(
        agent: *mut Slot,
        reads: *const u8,
        len: usize,
        out: *mut u8,
        room: usize,
        written: *mut usize,
    ) -> i32;
    pub(crate) fn asm_begin(agent: *mut Slot, step: *mut Slot, number: *mut u32) -> i32;
    pub(crate) fn asm_get(
        agent: *mut Slot,
        step: *mut Slot,
        locations: *const u8,
        len: usize,
        out: *mut u8,
        room: usize,
        written: *mut usize,
    ) -> i32;
    pub(crate) fn asm_see(
        agent: *mut Slot,
        step: *mut Slot,
        locations: *const u8,
        len: usize,
        out: *mut u8,
        room: usize,
        written: *mut usize,
    ) -> i32;
    pub(crate) fn asm_step_scan(
        agent: *mut Slot,
        step: *mut Slot,
        name: *const u8,
        len: usize,
        out: *mut u8,
        room: usize,
        written: *mut usize,
    ) -> i32;
    pub(crate) fn asm_push(
        agent: *mut Slot,
        step: *mut Slot,
        instrs: *const u8,
        len: usize,
        out: *mut u8,
        room: usize,
        written: *mut usize,
    ) -> i32;
    pub(crate) fn asm_extend(
        agent: *mut Slot,
        step: *mut Slot,
        instrs: *const u8,
        len: usize,
        out: *mut u8,
        room: usize,
        written: *mut usize,
    ) -> i32;
    pub(crate) fn asm_pop(step: *mut Slot) -> i32;
    pub(crate) fn asm_pop_move(step: *mut Slot, instrs: *mut Slot) -> i32;
    pub(crate) fn asm_depth(step: *mut Slot) -> u32;
    pub(crate) fn asm_offer(step: *mut Slot, out: *mut u8, room: usize, written: *mut usize) -> i32;
    pub(crate) fn asm_step_stands(
        agent: *mut Slot,
        step: *mut Slot,
        out: *mut u8,
        room: usize,
        written: *mut usize,
    ) -> i32;
    pub(crate) fn asm_commit(agent: *mut Slot, step: *mut Slot, numbers: *mut Numbers) -> i32;
    pub(crate) fn asm_commit_recorded(agent: *mut Slot, step: *mut Slot, numbers: *mut Numbers) -> i32;
    pub(crate) fn asm_location(location: *const u8, len: usize, at: *mut Slot) -> i32;
    pub(crate) fn asm_peek_at(
        agent: *mut Slot,
        at: *mut Slot,
        number: *mut u32,
        value: *mut Value,
        out: *mut u8,
        room: usize,
        written: *mut usize,
    ) -> i32;
    pub(crate) fn asm_get_at(
        agent: *mut Slot,
        step: *mut Slot,
        at: *mut Slot,
        value: *mut Value,
        out: *mut u8,
        room: usize,
        written: *mut usize,
    ) -> i32;
    pub(crate) fn asm_count_of(
        agent: *mut Slot,
        step: *mut Slot,
        at: *mut Slot,
        kind: i32,
        number: i64,
        bytes: *const u8,
        len: usize,
        count: *mut u32,
    ) -> i32;
    pub(crate) fn asm_size(agent: *mut Slot, step: *mut Slot, at: *mut Slot, size: *mut u64) -> i32;
    pub(crate) fn asm_any(agent: *mut Slot, step: *mut Slot, name: *const u8, len: usize, any: *mut u32) -> i32;
    pub(crate) fn asm_count(agent: *mut Slot, step: *mut Slot, name: *const u8, len: usize, count: *mut u64) -> i32;
    pub(crate) fn asm_instruct(
        instrs: *mut Slot,
        at: *mut Slot,
        verb: i32,
        kind: i32,
        number: i64,
        bytes: *const u8,
        len: usize,
        amount: u32,
    ) -> i32;
    pub(crate) fn asm_unite(instrs: *mut Slot, other: *mut Slot) -> i32;
    pub(crate) fn asm_move_length(instrs: *mut Slot) -> u32;
    pub(crate) fn asm_move_at(
        instrs: *mut Slot,
        number: u32,
        found: *mut Instruction,
        out: *mut u8,
        room: usize,
        written: *mut usize,
    ) -> i32;
    pub(crate) fn asm_push_move(
        agent: *mut Slot,
        step: *mut Slot,
        instrs: *mut Slot,
        out: *mut u8,
        room: usize,
        written: *mut usize,
    ) -> i32;
    pub(crate) fn asm_extend_move(
        agent: *mut Slot,
        step: *mut Slot,
        instrs: *mut Slot,
        out: *mut u8,
        room: usize,
        written: *mut usize,
    ) -> i32;
    pub(crate) fn asm_push_at(
        agent: *mut Slot,
        step: *mut Slot,
        at: *mut Slot,
        verb: i32,
        kind: i32,
        number: i64,
        bytes: *const u8,
        len: usize,
        amount: u32,
        out: *mut u8,
        room: usize,
        written: *mut usize,
    ) -> i32;
    pub(crate) fn asm_seen(agent: *mut Slot) -> u32;
    pub(crate) fn asm_won(agent: *mut Slot) -> u32;
    pub(crate) fn asm_misses(agent: *mut Slot) -> u64;
    pub(crate) fn asm_moves(storage: *mut Slot, moves: *mut u32) -> i32;
    pub(crate) fn asm_give(storage: *mut Slot, agent: *mut Slot) -> i32;
    pub(crate) fn asm_take(storage: *mut Slot, number: u32, agent: *mut Slot) -> i32;
    pub(crate) fn asm_close(storage: *mut Slot, number: *mut u32) -> i32;
    pub(crate) fn asm_journal(storage: *mut Slot, out: *mut u8, room: usize, written: *mut usize) -> i32;
    pub(crate) fn asm_next(storage: *mut Slot, capacity: u32, next: *mut Slot) -> i32;
    pub(crate) fn asm_go_on(agent: *mut Slot, capacity: u32, next: *mut Slot) -> i32;
    pub(crate) fn asm_free(slot: *mut Slot);
    pub(crate) fn asm_check(journal: *const u8, len: usize, calls: *mut u64, moves: *mut u32) -> i32;
    pub(crate) fn asm_audit(
        audit: *mut Slot,
        bytes: *const u8,
        len: usize,
        taken: *mut usize,
        told: *mut AuditNumbers,
    ) -> i32;
    pub(crate) fn asm_audited(audit: *mut Slot, told: *mut AuditNumbers) -> i32;
    pub(crate) fn asm_audit_state(audit: *mut Slot, out: *mut u8, room: usize, written: *mut usize) -> i32;
    pub(crate) fn asm_run_open(run: *mut Slot) -> i32;
    pub(crate) fn asm_run_name(run: *mut Slot, name: *const u8, len: usize, bytes: u64, found: *mut Segment) -> i32;
    pub(crate) fn asm_run_text(run: *mut Slot, bytes: *const u8, len: usize) -> i32;
    pub(crate) fn asm_run_end(run: *mut Slot, told: *mut AuditNumbers) -> i32;
    pub(crate) fn asm_run_skip(run: *mut Slot) -> i32;
    pub(crate) fn asm_run_state(run: *mut Slot, out: *mut u8, room: usize, written: *mut usize) -> i32;
    pub(crate) fn asm_run_read(run: *mut Slot) -> i32;
    pub(crate) fn asm_run_hand(
        run: *mut Slot,
        moves: u64,
        events: u64,
        text: *const u8,
        len: usize,
        out: *mut u8,
        room: usize,
        written: *mut usize,
    ) -> i32;
    pub(crate) fn asm_run_drop(run: *mut Slot, number: *mut u64) -> i32;
    pub(crate) fn asm_run_request(run: *mut Slot, request: *mut i32) -> i32;
    pub(crate) fn asm_run_done(run: *mut Slot) -> i32;
    pub(crate) fn asm_run_failed(run: *mut Slot) -> i32;
    pub(crate) fn asm_run_saved(
        run: *mut Slot,
        saved: *mut RunNumbers,
        out: *mut u8,
        room: usize,
        written: *mut usize,
    ) -> i32;
    pub(crate) fn asm_replay(
        journal: *const u8,
        len: usize,
        out: *mut u8,
        room: usize,
        written: *mut usize,
        line: *mut u64,
    ) -> i32;
    pub(crate) fn asm_trace(
        journal: *const u8,
        len: usize,
        out: *mut u8,
        room: usize,
        written: *mut usize,
        line: *mut u64,
    ) -> i32;
    pub(crate) fn asm_aggregate(
        state: *const u8,
        state_len: usize,
        instrs: *const u8,
        instrs_len: usize,
        out: *mut u8,
        room: usize,
        written: *mut usize,
    ) -> i32;
    pub(crate) fn asm_compose(
        first: *const u8,
        first_len: usize,
        second: *const u8,
        second_len: usize,
        out: *mut u8,
        room: usize,
        written: *mut usize,
    ) -> i32;
    pub(crate) fn asm_explain(
        form: i32,
        text: *const u8,
        len: usize,
        out: *mut u8,
        room: usize,
        written: *mut usize,
    ) -> i32;
}

#[allow(dead_code, reason = "the list has all codes")]
mod codes {
    pub(crate) const DONE: i32 = 0;
    pub(crate) const STALE: i32 = 1;
    pub(crate) const CLASH: i32 = 2;
    pub(crate) const MEMORY: i32 = 3;
    pub(crate) const FULL: i32 = 4;
    pub(crate) const EMPTY: i32 = 5;
    pub(crate) const CAPACITY: i32 = 6;
    pub(crate) const SMALL: i32 = 7;
    pub(crate) const BUSY: i32 = 8;
    pub(crate) const MANY: i32 = 9;
    pub(crate) const NO_ANSWER: i32 = 10;
    pub(crate) const TAKEN: i32 = 11;
    pub(crate) const NUMBER: i32 = 12;
    pub(crate) const MISSING: i32 = 13;
    pub(crate) const OTHER: i32 = 14;
    pub(crate) const ILLEGAL: i32 = 15;
    pub(crate) const NOT_JSON: i32 = 16;
    pub(crate) const SHAPE: i32 = 17;
    pub(crate) const VERSION: i32 = 18;
    pub(crate) const CUT: i32 = 19;
    pub(crate) const LARGE: i32 = 20;
    pub(crate) const MOVED: i32 = 21;
    pub(crate) const DEEP: i32 = 22;
    pub(crate) const APART: i32 = 23;
    pub(crate) const AGENTS: i32 = 24;
    pub(crate) const AHEAD: i32 = 25;
    pub(crate) const OPERAND: i32 = 26;
    pub(crate) const NO_FORM: i32 = 27;
    pub(crate) const NO_JOURNAL: i32 = 28;
    pub(crate) const NO_PUSH: i32 = 29;
    pub(crate) const NO_AGENT: i32 = 30;
    pub(crate) const NO_PART: i32 = 31;
    pub(crate) const NOT_FULL: i32 = 32;
    pub(crate) const MANY_CALLS: i32 = 33;
    pub(crate) const LONG_LINE: i32 = 34;
    pub(crate) const LONG_MOVE: i32 = 35;
    pub(crate) const NAME: i32 = 36;
    pub(crate) const ORDER: i32 = 37;
    pub(crate) const NOT_NEXT: i32 = 38;
    pub(crate) const OPENING: i32 = 39;
    pub(crate) const PREVIOUS: i32 = 40;
    pub(crate) const DAMAGED: i32 = 41;
    pub(crate) const COUNTS: i32 = 42;
    pub(crate) const LONG_RUN: i32 = 43;
    pub(crate) const ONE_SEGMENT: i32 = 44;
    pub(crate) const NO_INSTRUCTION: i32 = 45;
}
pub(crate) use codes::*;
// End of what tools/declarations writes.
