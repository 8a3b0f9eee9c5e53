/* folugben.h: abstract state storage for simulators of abstract state machines, for C.
 *
 * A storage holds a state. Its agents read that state and fire (commit) moves on it, each in a
 * thread of its own: a move fires only if no location that it names was written since the number of
 * moves (the version) at which it is named. So no update is lost if an agent names what its move
 * depends on, as it read it itself or as an agent did whose moves it has learnt. asm_close makes
 * the journal of the returned agents: each recorded call with its answer, which can be checked.
 *
 * An engine's agent works in steps, which are transactions: asm_begin; asm_get and asm_push in any
 * order, all of which see one state; and asm_commit, which fires one move that does what the pushed
 * ones do in turn, unless something was written since that the step depends on (its read set). The
 * commit names that by itself. If a step is stale by then (a conflict), or clashes with what was
 * written since, begin it again.
 *
 * REQUIREMENTS ON THE CALLER
 *
 *  - Threads. Never use one slot in two calls at the same time. Different slots may be in calls at
 *    once, those of one storage too. A slot goes from one thread to another by the start or the end
 *    of a thread, or under a lock. No call starts a thread, waits, or takes a lock, except as
 *    malloc, realloc and free do; and each returns. Make no call from a signal handler, nor in the
 *    child of a fork of a process with threads.
 *  - Slots. Initialise a slot with {0}. Never move it or pass a copy of it. It may lie anywhere.
 *    What it holds is released by asm_free_storage, asm_free_agent and so on, or handed over by
 *    asm_give.
 *  - Pointers. None may be null, except that of bytes, of a buffer or of slots whose length is 0.
 *    asm_free(NULL) isn't allowed either.
 *  - Buffers. A buffer is at least `room` bytes long. The bytes passed, the buffer and the numbers
 *    that a call writes overlap neither one another nor a slot. No text has a zero byte at its end.
 *  - Storages. asm_learn and asm_take_state take two agents of one storage, and asm_give an agent
 *    of the storage. A step goes with agents of the storage that it began on; with one of another
 *    storage, what it reads and commits has no meaning, and no code reports it. ASM_OTHER reports a
 *    mistake, except possibly while other threads are in asm_learn, asm_take_state or asm_give on
 *    both storages. The behaviour is undefined if a mistake isn't reported.
 *  - Stack. A call without text took less than 16 KiB of its thread's stack, one with well-formed
 *    texts less than 40 KiB, and one with a text that is nested as deep as any is read up to 60 KiB;
 *    all were measured. So a thread that makes calls with texts has 128 KiB or more.
 *  - malloc, realloc and free are of one allocator, and malloc aligns a block to each power of two
 *    up to 16 that divides its size.
 *  - The platform has pointers and size_t of 64 bits. ./build_c builds for Linux on x86-64
 *    processors of level v2 or above.
 *
 * WORDS
 *
 *  - A receipt is an agent's record of one call that was answered: the call and its answer. The
 *    journal is made of the receipts.
 *  - A poll is one read of the first move that the agent hasn't seen; it finds that move, or that
 *    no further move was fired yet.
 *  - An attempt to append tries to make the agent's move the next one of the storage; it is lost if
 *    another agent's move is there first.
 *
 * STATE AFTER A CALL
 *
 *  - asm_read and asm_try_fire add a receipt with ASM_DONE, ASM_STALE, ASM_CLASH and ASM_FULL.
 *    So do asm_try_fire_over and asm_commit. Any other code of these four means that no receipt was
 *    added; the agent may have seen more moves. asm_commit_recorded may also add the receipt of a
 *    read before that of its fire, and with ASM_BUSY and ASM_MEMORY the first alone. No other call
 *    adds one.
 *  - After asm_follow, asm_stands, asm_step_stands and asm_begin the agent may have seen more moves,
 *    with ASM_MEMORY too. asm_audit takes bytes with each code except ASM_TAKEN. After asm_run_end
 *    with another code than ASM_DONE, ASM_EMPTY and ASM_ORDER a run reads nothing more. A push or an
 *    extension that is refused (ASM_CLASH, ASM_MANY, ASM_LONG_MOVE, ASM_LARGE, ASM_SMALL) leaves the
 *    pushed moves unchanged, and may track locations. ASM_MANY of asm_commit_recorded and
 *    ASM_LONG_LINE of each call on an agent leave the slots unchanged. After any other call, each
 *    code except ASM_DONE means that the slots are unchanged.
 *  - A number that a call writes is 0 unless its code is said to set it. `*written` is set with
 *    ASM_DONE and with each code that is said to come with a text, to the length of the text, and
 *    with ASM_SMALL.
 *  - ASM_MEMORY: nothing was fired or lost, and the call may be made again; asm_audit with the bytes
 *    that it didn't take.
 *  - ASM_SMALL: nothing was written to the buffer; `*written` is the room that is needed, or of
 *    asm_explain the room that any sentence fits into. The call may be made again: nothing is read,
 *    fired or closed by it.
 *
 * TEXTS are JSON in UTF-8, in the forms of journals (docs/FORMATS.md):
 *
 *    LOC     ["name",ELEMENT,..]          ELEMENT  null, true, 7, "text" or {"list":[ELEMENT,..]}
 *    VALUE   ELEMENT, {"set":[ELEMENT,..]} or {"bag":[[ELEMENT,COUNT],..]}
 *    PAIR    [LOC,VALUE]                  COUNT    1 to 4294967295, as AMOUNT
 *    NAMED   [LOC,NUMBER], with the number that the read of the location returned
 *    SCAN    ["name",NUMBER], with the number at which asm_scan returned the function of this name
 *    INSTR   ["put",LOC,VALUE]; of a set ["add",LOC,ELEMENT] and ["remove",LOC,ELEMENT]; of a bag
 *            ["bagadd",LOC,ELEMENT,AMOUNT] and ["bagremove",LOC,ELEMENT,AMOUNT]; of a number
 *            ["inc",LOC,N], with a whole number N
 *    CAUSE   why updates of one location clash:
 *            "Two"      two different values are put
 *            "Mixed"    instructions of two of these: sets, bags, numbers
 *            "Kind"     the value that is there is no set, no bag or no number
 *            "Both"     an element is added to a set and removed from it
 *            "Against"  a value is put that the other instructions don't agree with
 *            "Short"    more of an element is removed than the bag has
 *            "Large"    a count above 4294967295, or a number outside the range of int64_t
 *
 * AN EXAMPLE: one agent adds 1 to a count.
 *
 *    const char *init = "[[[\"count\"],0]]", *locations = "[[\"count\"]]";
 *    const char *move = "{\"fire\":[[\"put\",[\"count\"],1]],\"reads\":[[[\"count\"],0]]}";
 *    struct asm_storage storage = {0};
 *    struct asm_agent agent = {0};
 *    asm_numbers numbers;
 *    uint8_t text[4096];
 *    size_t written;
 *    uint32_t missing;
 *
 *    if (asm_open((const uint8_t *)init, strlen(init), 1000, &storage) != ASM_DONE) ..
 *    if (asm_agent(&storage, 0, &agent) != ASM_DONE) ..
 *    if (asm_read(&agent, (const uint8_t *)locations, strlen(locations)) != ASM_DONE) ..
 *    if (asm_answer(&agent, text, sizeof text, &written) != ASM_DONE) .. {"number":0,"values":[0]}
 *    switch (asm_try_fire(&agent, (const uint8_t *)move, strlen(move), &numbers)) {
 *    case ASM_DONE: printf("move %u\n", numbers.fired); break;
 *    case ASM_STALE: .. read again; break;
 *    }
 *    if (asm_give(&storage, &agent) == ASM_DONE && asm_close(&storage, &missing) == ASM_DONE &&
 *        asm_journal(&storage, text, sizeof text, &written) == ASM_DONE)
 *        printf("%.*s", (int)written, (const char *)text);
 *    asm_free_storage(&storage);
 *
 * bindings/c/example.c is a complete program, with an agent on each of eight threads. Link with
 * libfolugben.a or libfolugben.so, which ./build_c makes; both need the C library alone. */
#ifndef FOLUGBEN_H
#define FOLUGBEN_H

#include <stdbool.h>
#include <stddef.h>
#include <stdint.h>

#ifdef __cplusplus
extern "C" {
#endif

/* A refused call has done nothing, so check each code: C++17 and C23 warn if one isn't checked. To
 * have no warnings, define this as nothing before the header is included. */
#ifndef FOLUGBEN_NODISCARD
#if (defined(__cplusplus) && __cplusplus >= 201703L) || \
    (defined(__STDC_VERSION__) && __STDC_VERSION__ >= 202311L)
#define FOLUGBEN_NODISCARD [[nodiscard]]
#else
#define FOLUGBEN_NODISCARD
#endif
#endif

/* The version of this header, as asm_version returns that of the library: a million for each major
 * version, a thousand for each minor one. */
#define FOLUGBEN_VERSION 2000

/* What calls answer. Each code has one meaning, which asm_error_text writes too. */
enum asm_code {
    ASM_DONE = 0,        /* done; of asm_try_fire: fired; of asm_check: legal */
    ASM_STALE = 1,       /* a location was written since that the move names, or of a function that it
                            scans; nothing was fired */
    ASM_CLASH = 2,       /* the updates of the move clash; nothing was fired */
    ASM_MEMORY = 3,      /* out of memory; nothing was fired or lost */
    ASM_FULL = 4,        /* as many moves were fired as the capacity; nothing was fired */
    ASM_EMPTY = 5,       /* a slot holds nothing of the kind that is wanted, or is passed twice */
    ASM_CAPACITY = 6,    /* the capacity isn't 1 to 1,048,576: asm_open, asm_next, asm_go_on */
    ASM_SMALL = 7,       /* the buffer is too small, and `*written` is the room that is needed */
    ASM_BUSY = 8,        /* 64 attempts to append were lost to other agents; nothing was fired */
    ASM_MANY = 9,        /* more than 256 locations, or locations and scanned functions */
    ASM_NO_ANSWER = 10,  /* no call was answered yet: asm_answer */
    ASM_TAKEN = 11,      /* a slot that was to be filled holds something else */
    ASM_NUMBER = 12,     /* the storage has, or had, another agent with this number */
    ASM_MISSING = 13,    /* a move has no receipt among the returned agents: asm_close */
    ASM_OTHER = 14,      /* the two slots are of two storages */
    ASM_ILLEGAL = 15,    /* the journal isn't legal */
    ASM_NOT_JSON = 16,   /* the bytes, or a line of the journal, are not JSON */
    ASM_SHAPE = 17,      /* they are JSON of another shape, or beyond a limit; or the value is no set
                            and no bag: asm_count_of, asm_size */
    ASM_VERSION = 18,    /* a journal of another version than 1 and 2 */
    ASM_CUT = 19,        /* the journal ends too early */
    ASM_LARGE = 20,      /* an amount or a sum is too large */
    ASM_MOVED = 21,      /* the agent's own state isn't at the step's number */
    ASM_DEEP = 22,       /* 64 moves are pushed already */
    ASM_APART = 23,      /* a part of a run opens with another state than the one before it leaves */
    ASM_AGENTS = 24,     /* an agent's number isn't below 256, or more than 256 agents are asked for:
                            asm_agent, asm_agents */
    ASM_AHEAD = 25,      /* a location or a function is named at a number above that of the moves that
                            the agent has seen: asm_try_fire, asm_try_fire_over, asm_stands */
    ASM_OPERAND = 26,    /* the verb, the kind, the number, the bytes and the amount make no
                            instruction: asm_instruct; or no element: asm_count_of */
    ASM_NO_FORM = 27,    /* there is no such form: asm_explain */
    ASM_NO_JOURNAL = 28, /* no journal was made since an agent was returned or taken: asm_journal,
                            asm_next */
    ASM_NO_PUSH = 29,    /* no move is pushed: asm_pop, asm_pop_move */
    ASM_NO_AGENT = 30,   /* no agent with this number was returned: asm_take */
    ASM_NO_PART = 31,    /* no part has begun: asm_audit_state */
    ASM_NOT_FULL = 32,   /* the agent's own state is at fewer moves than its storage has room for:
                            asm_go_on */
    ASM_MANY_CALLS = 33, /* more calls than the 4,294,967,295 that a journal holds: asm_close */
    ASM_LONG_LINE = 34,  /* a line of more than 1,073,741,824 bytes: asm_audit; a journal would have
                            one */
    ASM_LONG_MOVE = 35,  /* a move of more than 4,096 instructions */
    ASM_NAME = 36,       /* not the name of a segment: asm_run_name */
    ASM_ORDER = 37,      /* another call on the run comes next */
    ASM_NOT_NEXT = 38,   /* not the number of the next segment: asm_run_name */
    ASM_OPENING = 39,    /* segment 0 has events, or something before it: asm_run_name,
                            asm_run_hand */
    ASM_PREVIOUS = 40,   /* not the segment after the one before it: asm_run_name */
    ASM_DAMAGED = 41,    /* not the text that was saved: asm_run_end */
    ASM_COUNTS = 42,     /* a segment has other counts than its name says: asm_run_end */
    ASM_LONG_RUN = 43,   /* 100,000,000 segments, or 2^64 moves or more */
    ASM_ONE_SEGMENT = 44, /* the only segment of a run isn't dropped: asm_run_drop */
    ASM_NO_INSTRUCTION = 45 /* the move has no instruction at this place: asm_move_at */
};

/* Writes what a code means, in a line of English. ASM_SMALL. */
FOLUGBEN_NODISCARD int32_t asm_error_text(int32_t code, uint8_t *out, size_t room, size_t *written);

/* The version of the library. */
uint32_t asm_version(void);

/* Room for what a call makes. Zeros hold nothing. `full` may be read between calls; write neither. */
typedef struct asm_slot {
    bool full;
    void *at;
} asm_slot;

/* A slot for each kind, so that the compiler refuses one kind in the place of another. Each is laid out
 * as its slot, of which `slot.full` says whether it holds something. Their names are tags, as some of
 * them are names of calls too: struct asm_agent agent = {0}. */
struct asm_storage {
    asm_slot slot;
};
struct asm_agent {
    asm_slot slot;
};
struct asm_step {
    asm_slot slot;
};
struct asm_location {
    asm_slot slot;
};
struct asm_move {
    asm_slot slot;
};
struct asm_audit {
    asm_slot slot;
};
struct asm_run {
    asm_slot slot;
};

/* Opens a storage with the state [PAIR, ..], for 1 to 1,048,576 moves, in an empty slot.
 * ASM_TAKEN, ASM_NOT_JSON, ASM_SHAPE, ASM_CAPACITY, ASM_LONG_LINE, ASM_MEMORY. */
FOLUGBEN_NODISCARD int32_t asm_open(const uint8_t *init, size_t len, uint32_t capacity,
    struct asm_storage *storage);

/* Makes an agent with this number, below 256, in an empty slot, at any time. A storage has one
 * agent of each number: also one that was freed keeps its number, as its moves may be in the
 * journal. ASM_AGENTS (the number), ASM_TAKEN (`agent` is full), ASM_EMPTY (`storage`), ASM_NUMBER,
 * ASM_MEMORY; the first of these that holds is returned. */
FOLUGBEN_NODISCARD int32_t asm_agent(struct asm_storage *storage, uint32_t number,
    struct asm_agent *agent);

/* Makes an agent in each of at most 256 empty slots, with the numbers from 0 up. ASM_AGENTS (the
 * count), ASM_TAKEN (one of the slots), ASM_EMPTY (`storage`), ASM_NUMBER (an agent with one of the
 * numbers was made before), ASM_MEMORY; the first of these that holds is returned. */
FOLUGBEN_NODISCARD int32_t asm_agents(struct asm_storage *storage, struct asm_agent *agents,
    size_t count);

/* Reads the locations [LOC, ..], at most 256. The answer is the text {"number":N,"values":[VALUE,
 * ..]}: their values after the first N moves, which asm_answer writes. ASM_LONG_LINE: with the
 * values in the agent's own state, before it polls. ASM_EMPTY, ASM_NOT_JSON, ASM_SHAPE, ASM_MANY,
 * ASM_MEMORY. */
FOLUGBEN_NODISCARD int32_t asm_read(struct asm_agent *agent, const uint8_t *locations, size_t len);

/* The numbers of a fire; each is 0 unless its code is returned. */
typedef struct asm_numbers {
    uint32_t fired; /* ASM_DONE: the number of the move that was fired */
    uint32_t from;  /* ASM_BUSY: how many moves the agent had seen at the start of the call */
    uint32_t to;    /* ASM_BUSY: how many at its end */
} asm_numbers;

/* Fires the move {"fire":[INSTR, ..],"reads":[NAMED, ..]} of at most 4,096 instructions (else
 * ASM_SHAPE), unless one of the at most 256 named locations (else ASM_MANY) was written since the
 * number of moves under which it is named: that of a reading of this agent, or of one of which it
 * has learnt. A number above what asm_seen returns when the call begins would guard nothing:
 * ASM_AHEAD, before the agent polls and before ASM_MANY. After asm_next numbers begin again at 0.
 * ASM_DONE: fired. ASM_STALE, ASM_CLASH and ASM_FULL are answers too: asm_answer writes
 * {"fired":N}, {"stale":LOC}, {"clash":[LOC,CAUSE]} or "full". ASM_BUSY, ASM_EMPTY, ASM_NOT_JSON,
 * ASM_SHAPE, ASM_AHEAD, ASM_LONG_LINE, ASM_MANY, ASM_MEMORY: no answer, and nothing was fired.
 * ASM_LONG_LINE: with the longest reply that it may have, before the agent polls. */
FOLUGBEN_NODISCARD int32_t asm_try_fire(struct asm_agent *agent, const uint8_t *call, size_t len,
    asm_numbers *numbers);

/* The same for a move that depends on complete functions too, those of the scans [SCAN, ..]: on all
 * locations with the name, those that have a value and those that have none, as they were at the
 * scan's number. If one of these was written since, including its first value, the answer is
 * ASM_STALE too, and the receipt names the smallest such location of one scan, behind the others;
 * otherwise the journal doesn't record scans. Named locations and scans are at most 256 together
 * (ASM_MANY), each at a number that the agent has seen (ASM_AHEAD). ASM_NOT_JSON, ASM_SHAPE: the
 * call, or else the scans. ASM_LONG_LINE is without the location that a scan adds. All else is as of
 * asm_try_fire. A scan costs a walk of the locations of this name that moves wrote; with a text that
 * is no name of a function, of all that they wrote. */
FOLUGBEN_NODISCARD int32_t asm_try_fire_over(struct asm_agent *agent, const uint8_t *call,
    size_t call_len, const uint8_t *scans, size_t scans_len, asm_numbers *numbers);

/* Writes the text of the answer to the agent's last answered call.
 * ASM_EMPTY, ASM_NO_ANSWER, ASM_SMALL, ASM_MEMORY. */
FOLUGBEN_NODISCARD int32_t asm_answer(struct asm_agent *agent, uint8_t *out, size_t room,
    size_t *written);

/* Takes in what the other agent of the same storage has seen, so that what the agent is answered
 * from then on comes after all that the other was answered before. Neither slot may be in another
 * call. ASM_EMPTY (one of the slots, or they are one), ASM_OTHER. */
FOLUGBEN_NODISCARD int32_t asm_learn(struct asm_agent *agent, struct asm_agent *other);

/* Takes in what the other agent of the same storage has seen, as asm_learn does, and exchanges the
 * states of the two if the other's is at more moves. For agents that one thread plays by turns: the
 * one that is about to act calls it on the one that acted last, and then asm_begin or asm_read. So
 * each move is followed about once, and not once for each agent. It polls nothing and takes no
 * memory; the receipts and the counts of both are unchanged. A step of the other agent is ASM_MOVED
 * while that agent's state is at another number. Neither slot may be in another call. ASM_EMPTY
 * (one of the slots, or they are one), ASM_OTHER. */
FOLUGBEN_NODISCARD int32_t asm_take_state(struct asm_agent *agent, struct asm_agent *other);

/* AN AGENT'S OWN STATE is the state after a number of moves, its version. It moves on only in
 * asm_follow, asm_stands, asm_step_stands, asm_begin, asm_read, asm_try_fire, asm_try_fire_over,
 * asm_commit and asm_commit_recorded; asm_take_state exchanges it. A move that the agent fired
 * itself is taken in by its next poll, such as asm_follow makes. asm_peek, asm_state and asm_scan
 * read that state, without a poll or a receipt. A later fire may name each location, and each
 * scanned function, with the number that they return. */

/* Polls until no further move is found; the agent's own state follows. `*number` is then how many
 * moves it has seen. ASM_EMPTY, ASM_MEMORY. */
FOLUGBEN_NODISCARD int32_t asm_follow(struct asm_agent *agent, uint32_t *number);

/* Writes {"number":N,"values":[VALUE, ..]}: the values of the locations [LOC, ..], any number of
 * them, in the agent's own state, after N moves. ASM_EMPTY, ASM_SMALL, ASM_NOT_JSON, ASM_SHAPE,
 * ASM_MEMORY. */
FOLUGBEN_NODISCARD int32_t asm_peek(struct asm_agent *agent, const uint8_t *locations, size_t len,
    uint8_t *out, size_t room, size_t *written);

/* Writes the agent's own state [PAIR, ..], in ascending order of locations, after `*number` moves;
 * with ASM_SMALL `*number` is set too. ASM_EMPTY, ASM_MEMORY. */
FOLUGBEN_NODISCARD int32_t asm_state(struct asm_agent *agent, uint32_t *number, uint8_t *out,
    size_t room, size_t *written);

/* The same with the locations of one function name alone, which is passed in UTF-8 without quotes.
 * A fire that names each that was found doesn't notice that a further one is written later; one
 * over the scan does (asm_try_fire_over), as the commit of a step that reads them by asm_step_scan.
 * ASM_EMPTY, ASM_SHAPE (the name isn't UTF-8), ASM_SMALL, ASM_MEMORY. */
FOLUGBEN_NODISCARD int32_t asm_scan(struct asm_agent *agent, const uint8_t *name, size_t len,
    uint32_t *number, uint8_t *out, size_t room, size_t *written);

/* Validates the declared reads [NAMED, ..], at most 256, after polling as asm_follow does.
 * ASM_DONE: none of the locations was written since. ASM_STALE, with the text {"stale":LOC}: the
 * smallest location that was. A fire may still be refused, by a move that comes in between.
 * ASM_AHEAD as of asm_try_fire. ASM_EMPTY, ASM_MANY, ASM_SMALL, ASM_NOT_JSON, ASM_SHAPE,
 * ASM_MEMORY. */
FOLUGBEN_NODISCARD int32_t asm_stands(struct asm_agent *agent, const uint8_t *reads, size_t len,
    uint8_t *out, size_t room, size_t *written);

/* A STEP is a transaction, what an engine does between a poll and a fire. Its slot holds the number
 * of moves at which it began, the pushed moves, the tracked locations and the scanned functions.
 * asm_free_step abandons it.
 *
 * A get is tracked if its value comes from the state at the step's number: if no pushed move writes
 * the location, or the first that does has partial updates alone there (it adds, removes or
 * increments). If that one puts a value, the value is the step's own. The step depends on tracked
 * locations. These are tracked too, if a get of them would be:
 *  - of a push or an extension that is refused, the location of the refusal, and the smaller ones
 *    at which its move has partial updates: that it comes there shows that these fit. Of one that
 *    has too many instructions, each at which it has partial updates.
 *  - of moves that asm_pop takes away, each location at which they have partial updates: that they
 *    were accepted shows that these fit.
 *  - of moves that asm_pop_move takes away, each location that two of them write, if the first of
 *    these has partial updates alone there: their one move may do less there than they did in turn.
 *    Anything else that the pop reports is judged again if that move is pushed. If it isn't pushed
 *    again, the step doesn't depend on it.
 * A step depends on what is tracked, and on each location where the first of its moves that writes
 * has partial updates alone and another one writes too; asm_commit names these, and no others. So
 * steps that each add to one set don't make each other stale; what one move alone adds, removes or
 * increments is judged when it is fired.
 *
 * asm_step_scan scans a function. The step then depends on all its locations, those that have a value
 * and those that have none, so that a value which comes to a further one makes the commit stale.
 * What is tracked and scanned takes at most 256 places: one for each location, and one for each
 * function, whatever its number of locations. A location that only a scan returned isn't tracked.
 *
 * ASM_MOVED: the agent's own state has moved on since the step began, so begin it again; or it is
 * that of a second agent, which hasn't come so far and has to follow, as an agent has whose state
 * another one took (asm_take_state). */

/* Follows, and begins a step at `*number` moves, in a slot that is empty or holds a step, which is
 * dropped. ASM_TAKEN (`step` holds something else), ASM_EMPTY (`agent`), ASM_MEMORY. */
FOLUGBEN_NODISCARD int32_t asm_begin(struct asm_agent *agent, struct asm_step *step,
    uint32_t *number);

/* Writes {"number":N,"values":[VALUE, ..]}: what is seen through the pushed moves at the locations
 * [LOC, ..], any number of them. Those are tracked whose value comes from the state. ASM_MANY: more
 * than 256 places would be taken. ASM_MOVED, ASM_EMPTY (one of the slots), ASM_SMALL, ASM_NOT_JSON,
 * ASM_SHAPE, ASM_MEMORY. */
FOLUGBEN_NODISCARD int32_t asm_get(struct asm_agent *agent, struct asm_step *step,
    const uint8_t *locations, size_t len, uint8_t *out, size_t room, size_t *written);

/* Writes what asm_get writes, and tracks nothing, so a commit fires though another agent has
 * written there since. It is for what is only shown. The codes are those of asm_get except
 * ASM_MANY. */
FOLUGBEN_NODISCARD int32_t asm_see(struct asm_agent *agent, struct asm_step *step,
    const uint8_t *locations, size_t len, uint8_t *out, size_t room, size_t *written);

/* Writes [PAIR, ..]: what is seen through the pushed moves at all locations with a function name,
 * which is passed in UTF-8 without quotes, any number of them. The function is scanned, also if
 * none is found. ASM_MANY: it isn't scanned yet, and 256 places are taken. ASM_SHAPE: the name
 * isn't UTF-8. Else as asm_get. */
FOLUGBEN_NODISCARD int32_t asm_step_scan(struct asm_agent *agent, struct asm_step *step,
    const uint8_t *name, size_t len, uint8_t *out, size_t room, size_t *written);

/* Pushes the move [INSTR, ..]: later gets and pushes see what it leaves. A push that is refused, or
 * is popped, is a dry run, on which the step depends. ASM_CLASH, with the text
 * {"clash":[LOC,CAUSE]}: its updates clash on what is seen. ASM_DEEP. ASM_LONG_MOVE: the one move
 * of all would have more than 4,096 instructions. ASM_MANY: the move is refused, and tracking it
 * would take more than 256 places, so that nothing is tracked. ASM_LARGE, with {"large":LOC}: never
 * for a step of the agent's storage. ASM_MOVED, ASM_EMPTY (one of the slots), ASM_SMALL (for the
 * text of a refusal), ASM_NOT_JSON, ASM_SHAPE, ASM_MEMORY. It costs by the move's own instructions,
 * not by those pushed before, and by the size of a set or a bag that they change and the earlier
 * updates of it. */
FOLUGBEN_NODISCARD int32_t asm_push(struct asm_agent *agent, struct asm_step *step,
    const uint8_t *move, size_t len, uint8_t *out, size_t room, size_t *written);

/* The same, but the move joins the one that was pushed last, and is popped with it: a loop of a
 * thousand rounds is one move deep, and each round costs by what it does itself. A round of one partial
 * update changes a set or a bag in place: it costs by the logarithm of the size, after
 * the first two in a pushed move, which copy the value. Any other round costs also by the size of a set
 * or a bag that it changes and the earlier updates of it. A copy of a set or a bag of more than 32
 * elements reads none of them. Without a pushed move it is pushed. Never ASM_DEEP. */
FOLUGBEN_NODISCARD int32_t asm_extend(struct asm_agent *agent, struct asm_step *step,
    const uint8_t *move, size_t len, uint8_t *out, size_t room, size_t *written);

/* Takes away the move that was pushed last, with those that joined it, and tracks the locations
 * where these have partial updates that were judged on the state. What was tracked and scanned
 * stays so. ASM_NO_PUSH, ASM_EMPTY, ASM_MANY (more than 256 places would be taken), ASM_MEMORY. */
FOLUGBEN_NODISCARD int32_t asm_pop(struct asm_step *step);

/* Takes these away too, and puts the one move that does what they do in turn into a slot that is
 * empty or holds a move, which is then dropped: asm_push_move and asm_extend_move take it, on this
 * step or on another. At a location that one of them alone changes it does what that one does. If it
 * is pushed again in their place, the commit depends on the same locations, and has the same answer
 * and effect. A move that none joined is put unchanged, and tracks nothing; of others the locations
 * are tracked that two of them change, if the first has partial updates alone that were judged on the
 * state. ASM_TAKEN (`move` holds something else), before all others; ASM_EMPTY (`step`), ASM_NO_PUSH;
 * ASM_LONG_MOVE: the first of the moves come to more than 4,096 instructions, though all might come
 * to fewer; ASM_MANY: more than 256 places would be taken; ASM_CLASH, ASM_LARGE: never for a step of
 * the agent's storage; ASM_MEMORY. */
FOLUGBEN_NODISCARD int32_t asm_pop_move(struct asm_step *step, struct asm_move *move);

/* How many moves are pushed; 0 for a slot without a step. */
uint32_t asm_depth(struct asm_step *step);

/* Writes {"fire":[INSTR, ..],"reads":[NAMED, ..]}: the one move that asm_commit would fire, and the
 * locations that it would name, as the step is now; asm_try_fire takes it if these are at most 256.
 * The functions that were scanned aren't in it; a commit depends on them too. ASM_EMPTY, ASM_SMALL,
 * ASM_MEMORY. */
FOLUGBEN_NODISCARD int32_t asm_offer(struct asm_step *step, uint8_t *out, size_t room,
    size_t *written);

/* Validates what the step depends on, after polling as asm_follow does. ASM_DONE: no move after the
 * step's number has written a location that asm_commit would name, or one of a scanned function.
 * ASM_STALE, with the text {"stale":LOC}: one has, so asm_commit would be stale too. To wait for
 * that, repeat the call, with a pause in between. The agent's own state follows, so the step may
 * read no more (ASM_MOVED); asm_commit may still be called. ASM_EMPTY (one of the slots), ASM_SMALL,
 * ASM_MEMORY. */
FOLUGBEN_NODISCARD int32_t asm_step_stands(struct asm_agent *agent, struct asm_step *step,
    uint8_t *out, size_t room, size_t *written);

/* Fires one move that does what the pushed moves do in turn, naming each location on which the step
 * depends, at the step's number. Codes, numbers and receipt are as of asm_try_fire, and asm_answer
 * writes the reply in full. With ASM_DONE the step is over, and its slot is empty; with any other
 * code it stays, until asm_begin or asm_free_step. ASM_CLASH: each push was accepted, but another
 * agent has since written a value that one of the moves doesn't fit, such as a bag from which it
 * took what the move removes; begin the step again, as after ASM_STALE. ASM_STALE comes too if a
 * location of a scanned function was written since: the receipt names the smallest of these too.
 * ASM_MANY: the locations that would be named and the functions that were scanned are more than
 * 256. ASM_LONG_LINE is as of asm_try_fire_over. It polls, so it answers neither ASM_MOVED nor
 * ASM_AHEAD. */
FOLUGBEN_NODISCARD int32_t asm_commit(struct asm_agent *agent, struct asm_step *step,
    asm_numbers *numbers);

/* Records what the step read, and then commits it as asm_commit does: the journal has a read in
 * front of the fire. The call polls first, and reads the locations that the fire names, in its
 * order. If none of them was written since the step's number, the read has their values of then,
 * so asm_check tests these too; it is at the number of moves that the agent has then seen. If one
 * was written, or the fire names no location, there is no read. The functions that were scanned
 * aren't in it. Codes and numbers are those of asm_commit. ASM_MANY comes before anything else, and
 * then ASM_LONG_LINE: also of the read, with the values in the agent's own state. With both nothing
 * has changed. After ASM_BUSY and ASM_MEMORY the receipt of the read may be there; it
 * is right, and the same call may be made again. */
FOLUGBEN_NODISCARD int32_t asm_commit_recorded(struct asm_agent *agent, struct asm_step *step,
    asm_numbers *numbers);

/* WITHOUT TEXT: calls that do what asm_peek, asm_get, asm_push and asm_extend do, with a location
 * that is prepared once, and with a move that is gathered in a slot. No JSON is made or read,
 * except for the value of a list, a set or a bag. */

/* What a value is, or an operand. */
enum asm_kind {
    ASM_KIND_UNDEF = 0,
    ASM_KIND_BOOL = 1, /* the number is 0 or 1 */
    ASM_KIND_NUM = 2,
    ASM_KIND_TEXT = 3, /* the bytes are its UTF-8, without quotes */
    ASM_KIND_LIST = 4, /* the bytes are the VALUE, as of those below; of an operand any JSON of it */
    ASM_KIND_SET = 5,
    ASM_KIND_BAG = 6
};

/* What an instruction does, as INSTR has it. */
enum asm_verb {
    ASM_PUT = 0,
    ASM_ADD = 1,
    ASM_REMOVE = 2,
    ASM_BAGADD = 3,
    ASM_BAGREMOVE = 4,
    ASM_INC = 5
};

/* A value without its bytes. The number is that of ASM_KIND_NUM, and 0 or 1 of ASM_KIND_BOOL; of
 * any other kind it is 0. */
typedef struct asm_value {
    int32_t kind; /* an asm_kind */
    int64_t number;
} asm_value;

/* Prepares the location LOC in an empty slot, for agents and steps of any storage.
 * asm_free_location releases it. ASM_TAKEN, ASM_NOT_JSON, ASM_SHAPE, ASM_MEMORY. */
FOLUGBEN_NODISCARD int32_t asm_location(const uint8_t *location, size_t len,
    struct asm_location *at);

/* Returns the value at a prepared location in the agent's own state, after `*number` moves. The
 * bytes of the value, if it is of a kind that has some, are written to the buffer. `*number` and
 * `*value` are 0 with each code except ASM_DONE. ASM_EMPTY (one of the slots), ASM_SMALL,
 * ASM_MEMORY. */
FOLUGBEN_NODISCARD int32_t asm_peek_at(struct asm_agent *agent, struct asm_location *at,
    uint32_t *number, asm_value *value, uint8_t *out, size_t room, size_t *written);

/* Returns what is seen through the pushed moves at a prepared location, as asm_peek_at does. The
 * location is tracked as by asm_get. `*value` is 0 with each code except ASM_DONE. ASM_MANY: more
 * than 256 places would be taken. ASM_MOVED, ASM_EMPTY (one of the slots), ASM_SMALL,
 * ASM_MEMORY. */
FOLUGBEN_NODISCARD int32_t asm_get_at(struct asm_agent *agent, struct asm_step *step,
    struct asm_location *at, asm_value *value, uint8_t *out, size_t room, size_t *written);

/* Returns how often the set or the bag at a prepared location has an element: 0 or 1 of a set, the
 * count of a bag, and 0 where nothing is. The value is that of asm_get_at, and isn't copied. The
 * element is given as to asm_instruct. The location is tracked as by asm_get_at. `*count` is 0 with
 * each code except ASM_DONE. ASM_SHAPE: the location has another value, and is tracked too; or, with
 * nothing tracked, as of asm_instruct. ASM_OPERAND (also for a set or a bag), ASM_NOT_JSON: as of
 * asm_instruct. ASM_MANY, ASM_MOVED, ASM_EMPTY (one of the slots), ASM_MEMORY. */
FOLUGBEN_NODISCARD int32_t asm_count_of(struct asm_agent *agent, struct asm_step *step,
    struct asm_location *at, int32_t kind, int64_t number, const uint8_t *bytes, size_t len,
    uint32_t *count);

/* The same, but returns whether it has the element at all. */
FOLUGBEN_NODISCARD static inline int32_t asm_has(struct asm_agent *agent, struct asm_step *step,
    struct asm_location *at, int32_t kind, int64_t number, const uint8_t *bytes, size_t len,
    bool *has) {
    uint32_t count;
    int32_t code = asm_count_of(agent, step, at, kind, number, bytes, len, &count);
    *has = count > 0;
    return code;
}

/* Returns how many elements the set or the bag at a prepared location has, each of a bag as often as
 * it is there: at most UINT64_MAX, and 0 where nothing is. A set answers at once, a bag in time that
 * grows with its different elements. The value isn't copied, and the location is tracked as by
 * asm_get_at. `*size` is 0 with each code except ASM_DONE. ASM_SHAPE: the location has another value,
 * and is tracked too. ASM_MANY, ASM_MOVED, ASM_EMPTY (one of the slots), ASM_MEMORY. */
FOLUGBEN_NODISCARD int32_t asm_size(struct asm_agent *agent, struct asm_step *step,
    struct asm_location *at, uint64_t *size);

/* `*any` is 1 if asm_step_scan would list a location of the function, else 0. It writes no text, and
 * asks for locations up to the first that has a value. The function is scanned as by that call,
 * whatever the answer. `*any` is 0 with each code except ASM_DONE. ASM_MANY: the function isn't
 * scanned yet, and 256 places are taken. ASM_SHAPE: the name isn't UTF-8. ASM_MOVED, ASM_EMPTY (one
 * of the slots), ASM_MEMORY. */
FOLUGBEN_NODISCARD int32_t asm_any(struct asm_agent *agent, struct asm_step *step,
    const uint8_t *name, size_t len, uint32_t *any);

/* The same, but returns how many locations asm_step_scan would list, in time that grows with them. */
FOLUGBEN_NODISCARD int32_t asm_count(struct asm_agent *agent, struct asm_step *step,
    const uint8_t *name, size_t len, uint64_t *count);

/* Appends an instruction at a prepared location to the move in a slot; an empty slot holds the move
 * of this instruction then. The operand is given by its kind, its number (as in asm_value) and its
 * bytes, of which a text, a list, a set and a bag alone have any; a set and a bag can be put, and
 * no more. `amount` is 1 or above for ASM_BAGADD and ASM_BAGREMOVE, and 0 for any other verb.
 * ASM_INC takes a number alone. ASM_TAKEN (`move` holds something else than a move), ASM_EMPTY
 * (`at`), ASM_OPERAND (the verb, the kind, the number or the bytes of this kind, the amount, or a
 * set or a bag that isn't put), ASM_NOT_JSON (the bytes of a list, a set or a bag), ASM_SHAPE
 * (these are JSON of no value of this kind, or the bytes of a text aren't UTF-8), ASM_LONG_MOVE
 * (the move has 4,096 instructions), ASM_MEMORY. ASM_TAKEN comes before all others; if several of
 * these hold, one of them is returned. */
FOLUGBEN_NODISCARD int32_t asm_instruct(struct asm_move *move, struct asm_location *at,
    int32_t verb, int32_t kind, int64_t number, const uint8_t *bytes, size_t len, uint32_t amount);

/* Appends the instructions of the other move to those of `move`: it is then the move that does what
 * both do at once, as the agents of a block in parallel do. Instructions that occur in both count twice.
 * An empty slot is the move of no instructions, so `move` holds a move afterwards. ASM_TAKEN (`move`
 * holds something else), before all others; ASM_EMPTY (`other` holds something else, or the two slots
 * are one); ASM_LONG_MOVE (the two have more than 4,096 instructions together); ASM_MEMORY. */
FOLUGBEN_NODISCARD int32_t asm_unite(struct asm_move *move, struct asm_move *other);

/* How many instructions the move has; 0 for a slot without a move. */
uint32_t asm_move_length(struct asm_move *move);

/* An instruction without its texts, by the words that asm_instruct takes. */
typedef struct asm_instruction {
    int32_t verb;    /* an asm_verb */
    uint32_t amount; /* of ASM_BAGADD and ASM_BAGREMOVE; 0 of any other verb */
    int32_t kind;    /* of the operand, an asm_kind */
    int64_t number;  /* of the operand, as in asm_value */
    size_t place;    /* how many of the bytes that were written are the location's */
} asm_instruction;

/* Returns the instruction at a place of the move, counted from 0: of a gathered move in the order of
 * gathering. `place` bytes of the text are LOC, and those behind it the bytes of the operand, as
 * asm_get_at writes those of a value. Everything in `*found` is 0 with each code except ASM_DONE.
 * ASM_EMPTY, ASM_NO_INSTRUCTION (the move has `number` instructions or fewer), ASM_SMALL,
 * ASM_MEMORY. */
FOLUGBEN_NODISCARD int32_t asm_move_at(struct asm_move *move, uint32_t number,
    asm_instruction *found, uint8_t *out, size_t room, size_t *written);

/* As asm_push and asm_extend, with the move in a slot, which stays there until asm_free_move. ASM_EMPTY:
 * one of the slots; an empty one has no move, not one of no instructions. */
FOLUGBEN_NODISCARD int32_t asm_push_move(struct asm_agent *agent, struct asm_step *step,
    struct asm_move *move, uint8_t *out, size_t room, size_t *written);
FOLUGBEN_NODISCARD int32_t asm_extend_move(struct asm_agent *agent, struct asm_step *step,
    struct asm_move *move, uint8_t *out, size_t room, size_t *written);

/* Pushes the move of one instruction at a prepared location. It does what asm_instruct into an empty
 * slot and then asm_push_move of that slot do, with less memory and in less time. The codes are those
 * of asm_instruct except ASM_TAKEN, and then those of asm_push_move. ASM_EMPTY: one of the slots. */
FOLUGBEN_NODISCARD int32_t asm_push_at(struct asm_agent *agent, struct asm_step *step,
    struct asm_location *at, int32_t verb, int32_t kind, int64_t number, const uint8_t *bytes,
    size_t len, uint32_t amount, uint8_t *out, size_t room, size_t *written);

/* OF ONE KIND: asm_get_at and asm_instruct for a number, a truth value or a text. A get returns
 * their codes, and ASM_SHAPE for a value of another kind, such as that of a location that holds
 * nothing; what it writes is 0 then, as with each code except ASM_DONE. After ASM_SHAPE the location
 * may not be tracked: call asm_get_at if it may hold values of several kinds. */

/* Returns the code of a get for a value of a wanted kind. ASM_SMALL without room is that of a value
 * with bytes. */
static inline int32_t asm_code_of_kind(int32_t code, int32_t kind, int32_t wanted, bool has_room) {
    bool is_other = code == ASM_DONE ? kind != wanted : code == ASM_SMALL && !has_room;
    return is_other ? ASM_SHAPE : code;
}

FOLUGBEN_NODISCARD static inline int32_t asm_get_num(struct asm_agent *agent, struct asm_step *step,
    struct asm_location *at, int64_t *number) {
    asm_value value;
    size_t written;
    int32_t code = asm_get_at(agent, step, at, &value, NULL, 0, &written);
    code = asm_code_of_kind(code, value.kind, ASM_KIND_NUM, false);
    *number = code == ASM_DONE ? value.number : 0;
    return code;
}

/* The same, but the number is `otherwise` if the location holds nothing. */
FOLUGBEN_NODISCARD static inline int32_t asm_get_num_or(struct asm_agent *agent,
    struct asm_step *step, struct asm_location *at, int64_t otherwise, int64_t *number) {
    asm_value value;
    size_t written;
    int32_t code = asm_get_at(agent, step, at, &value, NULL, 0, &written);
    bool is_undef = code == ASM_DONE && value.kind == ASM_KIND_UNDEF;
    code = asm_code_of_kind(code, is_undef ? ASM_KIND_NUM : value.kind, ASM_KIND_NUM, false);
    *number = is_undef ? otherwise : code == ASM_DONE ? value.number : 0;
    return code;
}

FOLUGBEN_NODISCARD static inline int32_t asm_get_bool(struct asm_agent *agent,
    struct asm_step *step, struct asm_location *at, bool *is_true) {
    asm_value value;
    size_t written;
    int32_t code = asm_get_at(agent, step, at, &value, NULL, 0, &written);
    code = asm_code_of_kind(code, value.kind, ASM_KIND_BOOL, false);
    *is_true = code == ASM_DONE && value.number == 1;
    return code;
}

/* Writes the UTF-8 of the text, without quotes. ASM_SMALL comes for any value whose bytes don't fit. */
FOLUGBEN_NODISCARD static inline int32_t asm_get_text(struct asm_agent *agent,
    struct asm_step *step, struct asm_location *at, uint8_t *out, size_t room, size_t *written) {
    asm_value value;
    int32_t code = asm_get_at(agent, step, at, &value, out, room, written);
    code = asm_code_of_kind(code, value.kind, ASM_KIND_TEXT, true);
    if (code == ASM_SHAPE)
        *written = 0;
    return code;
}

/* Append to a move that the location gets the number, the truth value or the text, that it is left
 * empty, and that the number there grows by `by`. */
FOLUGBEN_NODISCARD static inline int32_t asm_put_num(struct asm_move *move, struct asm_location *at,
    int64_t number) {
    return asm_instruct(move, at, ASM_PUT, ASM_KIND_NUM, number, NULL, 0, 0);
}
FOLUGBEN_NODISCARD static inline int32_t asm_put_bool(struct asm_move *move,
    struct asm_location *at, bool is_true) {
    return asm_instruct(move, at, ASM_PUT, ASM_KIND_BOOL, is_true, NULL, 0, 0);
}
FOLUGBEN_NODISCARD static inline int32_t asm_put_text(struct asm_move *move,
    struct asm_location *at, const uint8_t *text, size_t len) {
    return asm_instruct(move, at, ASM_PUT, ASM_KIND_TEXT, 0, text, len, 0);
}
FOLUGBEN_NODISCARD static inline int32_t asm_put_undef(struct asm_move *move,
    struct asm_location *at) {
    return asm_instruct(move, at, ASM_PUT, ASM_KIND_UNDEF, 0, NULL, 0, 0);
}
FOLUGBEN_NODISCARD static inline int32_t asm_inc_num(struct asm_move *move, struct asm_location *at,
    int64_t by) {
    return asm_instruct(move, at, ASM_INC, ASM_KIND_NUM, by, NULL, 0, 0);
}

/* How many moves the agent has seen, how many it fired, and how many of its polls found no further
 * move; 0 for a slot without an agent. */
uint32_t asm_seen(struct asm_agent *agent);
uint32_t asm_won(struct asm_agent *agent);
uint64_t asm_misses(struct asm_agent *agent);

/* How many moves were fired on the storage: `*moves` is that number. It polls all of them, and
 * agents may fire more meanwhile. ASM_EMPTY. */
FOLUGBEN_NODISCARD int32_t asm_moves(struct asm_storage *storage, uint32_t *moves);

/* Returns an agent to its storage, in any order; its slot is then empty, and the journal of an
 * earlier asm_close is discarded. ASM_EMPTY (one of the slots), ASM_OTHER, ASM_MEMORY, and
 * ASM_NUMBER if an agent with this number was returned before. That agent is then one of another
 * storage, which ASM_OTHER didn't detect: no two agents of one storage have the same number. */
FOLUGBEN_NODISCARD int32_t asm_give(struct asm_storage *storage, struct asm_agent *agent);

/* Checks a returned agent out of its storage again, into an empty slot: it continues with its
 * number and its receipts. So agents that leave and come again need no further numbers. The journal
 * of an earlier asm_close is discarded. ASM_TAKEN (`agent` is full), ASM_EMPTY (`storage`),
 * ASM_NO_AGENT, ASM_MEMORY; the first of these that holds is returned. */
FOLUGBEN_NODISCARD int32_t asm_take(struct asm_storage *storage, uint32_t number,
    struct asm_agent *agent);

/* Makes the journal of the returned agents, if they have a receipt of every move that was fired
 * before this call. ASM_MISSING: the move `*number`, the smallest such, has none among them; return
 * the agent that fired it, and close again. The moves of an agent that was freed are missing for
 * good. Else `*number` is 0. ASM_EMPTY, ASM_MANY_CALLS, ASM_MEMORY. */
FOLUGBEN_NODISCARD int32_t asm_close(struct asm_storage *storage, uint32_t *number);

/* Writes the journal that asm_close made. ASM_EMPTY, ASM_NO_JOURNAL, ASM_SMALL. */
FOLUGBEN_NODISCARD int32_t asm_journal(struct asm_storage *storage, uint8_t *out, size_t room,
    size_t *written);

/* Opens a storage for 1 to 1,048,576 moves, in an empty slot, that continues where a closed one
 * ended: its opening state is the one that the journal's moves leave, its agents start again, and
 * numbers begin at 0: keep no number of a read before, as it is taken for one of this storage once
 * so many moves were seen. The journals of both, one after the other, are one run; moves that were
 * fired after asm_close are in neither. ASM_TAKEN (`next`), ASM_EMPTY (`storage`), ASM_NO_JOURNAL,
 * ASM_CAPACITY, ASM_LONG_LINE (the first line of its journal), ASM_MEMORY. */
FOLUGBEN_NODISCARD int32_t asm_next(struct asm_storage *storage, uint32_t capacity,
    struct asm_storage *next);

/* Opens a storage for 1 to 1,048,576 moves, in an empty slot, with the agent's own state, if that
 * is after all moves that its storage has room for: the storage is full, and the agent has polled
 * to the end (asm_follow, asm_begin). No journal is needed, and no other agent waits: each may read
 * on, be returned and be closed into the first storage's journal later. The journals of both, one
 * after the other, are one run. Numbers begin at 0, as after asm_next. ASM_TAKEN (`next`),
 * ASM_EMPTY (`agent`), ASM_NOT_FULL, ASM_CAPACITY, ASM_LONG_LINE (the first line of its journal),
 * ASM_MEMORY; the first of these that holds is returned. */
FOLUGBEN_NODISCARD int32_t asm_go_on(struct asm_agent *agent, uint32_t capacity,
    struct asm_storage *next);

/* Releases what the slot holds, if anything, and leaves it empty. The memory of a storage is freed with
 * the last slot that holds it or an agent of it. */
void asm_free(asm_slot *slot);

/* The same for each kind; NULL is allowed here. */
static inline void asm_free_storage(struct asm_storage *storage) {
    if (storage)
        asm_free(&storage->slot);
}
static inline void asm_free_agent(struct asm_agent *agent) {
    if (agent)
        asm_free(&agent->slot);
}
static inline void asm_free_step(struct asm_step *step) {
    if (step)
        asm_free(&step->slot);
}
static inline void asm_free_location(struct asm_location *at) {
    if (at)
        asm_free(&at->slot);
}
static inline void asm_free_move(struct asm_move *move) {
    if (move)
        asm_free(&move->slot);
}
static inline void asm_free_audit(struct asm_audit *audit) {
    if (audit)
        asm_free(&audit->slot);
}
static inline void asm_free_run(struct asm_run *run) {
    if (run)
        asm_free(&run->slot);
}

/* Checks a journal: whether each answer is the one that a sequential storage gives there. ASM_DONE:
 * it is legal, with the numbers of its calls and of its moves. ASM_ILLEGAL: `*calls` is the number
 * of the first call whose answer is another, from 0 up. ASM_NOT_JSON, ASM_SHAPE: `*calls` is the
 * number of the line, from 1 up. ASM_VERSION, ASM_CUT, ASM_MEMORY. */
FOLUGBEN_NODISCARD int32_t asm_check(const uint8_t *journal, size_t len, uint64_t *calls,
    uint32_t *moves);

/* AN AUDIT checks a run of any length as its bytes come: parts, each a complete journal, one after
 * the other, each of which opens with the state that the one before it leaves. It holds that state
 * and the line that hasn't ended. asm_free_audit abandons it. */

/* The numbers of an audit; what a code isn't said to set is 0. */
typedef struct asm_audit_numbers {
    uint64_t parts; /* how many parts are complete; of a part that is at fault its number, from 0 */
    uint64_t calls; /* how many calls were judged, of all parts; with ASM_ILLEGAL the number of the
                       call in its part, from 0; with ASM_NOT_JSON and ASM_SHAPE the number of the
                       line in it, from 1 */
    uint64_t moves; /* how many moves were fired, of all parts */
} asm_audit_numbers;

/* Takes the next bytes, any number of them, into a slot that holds an audit or is empty: then one
 * begins. `*taken` is how many of them were taken. ASM_DONE: all were, and each answer in the lines
 * that have ended is right, with the numbers so far. With any other code those before the one at
 * which it comes were taken; a line is judged at its line feed. ASM_ILLEGAL: the first wrong
 * answer, with its part and its call. ASM_NOT_JSON and ASM_SHAPE, with part and line, ASM_VERSION,
 * ASM_CUT and ASM_APART, with the part: the first fault. ASM_LONG_LINE: a line of more than
 * 1,073,741,824 bytes. ASM_MEMORY: pass the bytes that weren't taken again. ASM_TAKEN: `audit` holds
 * something else. */
FOLUGBEN_NODISCARD int32_t asm_audit(struct asm_audit *audit, const uint8_t *bytes, size_t len,
    size_t *taken, asm_audit_numbers *told);

/* Reports what holds if no further byte comes; more may come. ASM_DONE: the run is complete parts,
 * at least one, and legal, with its numbers. ASM_CUT, ASM_NOT_JSON: its last part or its last line
 * isn't complete, with the numbers that asm_audit sets with them. ASM_EMPTY, ASM_MEMORY. */
FOLUGBEN_NODISCARD int32_t asm_audited(struct asm_audit *audit, asm_audit_numbers *told);

/* Writes the state [PAIR, ..] that the moves so far leave, in ascending order of locations. ASM_EMPTY,
 * ASM_NO_PART, ASM_SMALL, ASM_MEMORY. */
FOLUGBEN_NODISCARD int32_t asm_audit_state(struct asm_audit *audit, uint8_t *out, size_t room,
    size_t *written);

/* A RUN is a folder of segments, each the journal of one storage, which opens with the state that
 * the one before it leaves. The name of a segment has its number, the moves before it, its moves
 * and events, the digest of the one before it and its own (docs/FORMATS.md). The library makes no
 * call of the system: asm_run_request says which one comes next, the caller makes it, and reports
 * by asm_run_done or asm_run_failed. Then no crash and no power failure loses what asm_run_saved
 * reports, except what was dropped by order (docs/DURABILITY.md, which has the premises).
 *
 * To open: lock the folder (flock), so that one process has it. asm_run_open; flush the folder and
 * the one above it. Then for each file that ends in .journal, in ascending order of names:
 * asm_run_name, asm_run_text with all bytes of its text, in pieces of any length, and asm_run_end.
 * Then asm_run_read. A new run begins the same way, with no file.
 *
 * To save: asm_run_hand, then, until asm_run_request returns ASM_REST: make the call, asm_run_done.
 * To drop the oldest segment: asm_run_drop, and the same. If a call fails: asm_run_failed; nothing
 * more is saved, and another process, or asm_run_open on another slot, goes on with what is saved.
 * bindings/c/folder.c has all of it. asm_free_run abandons the run; what is saved stays. */
typedef enum asm_request {
    ASM_REST = 0,         /* nothing: what was ordered is done, or the run has ended */
    ASM_REMOVE_NEW = 1,   /* remove the file `new`, if there is one */
    ASM_CREATE_NEW = 2,   /* create `new`, which isn't there: O_CREAT and O_EXCL */
    ASM_WRITE_NEW = 3,    /* write all bytes of the text that was handed over */
    ASM_FLUSH_NEW = 4,    /* flush the file (fsync) */
    ASM_RENAME_NEW = 5,   /* rename it to the name that asm_run_hand wrote */
    ASM_FLUSH_FOLDER = 6, /* flush the folder (fsync) */
    ASM_REMOVE_OLDEST = 7 /* remove the segment with the number that asm_run_drop reported */
} asm_request;

/* What the name of a segment says. */
typedef struct asm_segment {
    uint64_t number; /* its number, from 0 */
    uint64_t first;  /* how many moves the segments before it have */
    uint64_t moves;  /* how many moves it has */
    uint64_t events; /* how many events it has */
} asm_segment;

/* What is saved of a run. */
typedef struct asm_run_numbers {
    uint64_t first;    /* the number of the oldest segment; those before it were dropped */
    uint64_t segments; /* how many segments there are, with those that were dropped */
    uint64_t moves;    /* how many moves they have */
} asm_run_numbers;

/* Begins with a folder that this process has locked, in an empty slot. ASM_TAKEN, ASM_MEMORY. */
FOLUGBEN_NODISCARD int32_t asm_run_open(struct asm_run *run);

/* Takes the next name, of a text of so many bytes; `*found` is what it says. The first one may have
 * any number: those before it were dropped. ASM_EMPTY; then the first of: ASM_ORDER (a text comes
 * next, or was refused), ASM_NAME (also if it isn't UTF-8), ASM_NOT_NEXT (a segment is missing, or
 * two have one number), ASM_OPENING (segment 0 has events, or something before it), ASM_PREVIOUS
 * (the name has another digest, or another number of moves, of the segments before it),
 * ASM_DAMAGED (2^64 - 1 bytes), ASM_LONG_RUN, ASM_MEMORY. With each of these nothing changes. */
FOLUGBEN_NODISCARD int32_t asm_run_name(struct asm_run *run, const uint8_t *name, size_t len,
    uint64_t bytes, asm_segment *found);

/* Takes the next bytes of its text; asm_run_end reports its faults, refused memory too. ASM_EMPTY,
 * ASM_ORDER (no text comes next): nothing changes. */
FOLUGBEN_NODISCARD int32_t asm_run_text(struct asm_run *run, const uint8_t *bytes, size_t len);

/* Ends the text. ASM_DONE: it is the one that was saved and continues the run, with the numbers of
 * all texts that were read. ASM_EMPTY, ASM_ORDER (no text comes next): nothing changes. Then the
 * first of: ASM_DAMAGED (it has another digest or length), the codes of asm_audit with their
 * numbers, where parts are the texts that were read, ASM_LONG_RUN, ASM_COUNTS (it isn't one journal
 * with the moves and events of its name). After one of these nothing more is read; after ASM_MEMORY
 * begin again with another slot. */
FOLUGBEN_NODISCARD int32_t asm_run_end(struct asm_run *run, asm_audit_numbers *told);

/* Ends the segment in place of asm_run_text and asm_run_end: its name is checked, its text isn't.
 * ASM_EMPTY, ASM_ORDER (no text comes next, or one was read): nothing changes. */
FOLUGBEN_NODISCARD int32_t asm_run_skip(struct asm_run *run);

/* Writes the state [PAIR, ..] that the segments leave, with which the next storage must open.
 * ASM_EMPTY, ASM_ORDER (a text is open or was refused), ASM_NO_PART (no text was read), ASM_SMALL,
 * ASM_MEMORY. */
FOLUGBEN_NODISCARD int32_t asm_run_state(struct asm_run *run, uint8_t *out, size_t room,
    size_t *written);

/* Goes on after the segments that were read: now they may be saved and dropped. ASM_EMPTY,
 * ASM_ORDER (it was called before, the run has failed, or a text is open or was refused). */
FOLUGBEN_NODISCARD int32_t asm_run_read(struct asm_run *run);

/* Begins to save the next segment, a journal with this text, which has so many moves and events,
 * and writes its name, of at most 209 bytes. The text isn't checked: it must be the journal of a
 * storage that opened with the state that the segments leave. Segment 0 is that of a storage without
 * a call, which may open with any state. ASM_EMPTY, ASM_ORDER (something is being saved or dropped,
 * the run has failed, or asm_run_read comes first), ASM_LONG_RUN, ASM_OPENING (segment 0 has moves
 * or events), ASM_SMALL, ASM_MEMORY. */
FOLUGBEN_NODISCARD int32_t asm_run_hand(struct asm_run *run, uint64_t moves, uint64_t events,
    const uint8_t *text, size_t len, uint8_t *out, size_t room, size_t *written);

/* Begins to drop the oldest segment, the file with this number. ASM_EMPTY, ASM_ORDER (as of
 * asm_run_hand), ASM_ONE_SEGMENT (there are fewer than two). */
FOLUGBEN_NODISCARD int32_t asm_run_drop(struct asm_run *run, uint64_t *number);

/* Reports the call of the system that comes next, an asm_request. ASM_EMPTY. */
FOLUGBEN_NODISCARD int32_t asm_run_request(struct asm_run *run, int32_t *request);

/* Notes that this call was made. A segment is saved, or dropped, once the folder was flushed for
 * it. Nothing changes before asm_run_read, with ASM_REST, and after a failure. ASM_EMPTY. */
FOLUGBEN_NODISCARD int32_t asm_run_done(struct asm_run *run);

/* Notes that this call failed: nothing more is saved or dropped. ASM_EMPTY. */
FOLUGBEN_NODISCARD int32_t asm_run_failed(struct asm_run *run);

/* Reports what is saved, and writes the digest of the last segment, 64 digits; zeros without a
 * segment. Before asm_run_read nothing is. ASM_EMPTY, ASM_SMALL (the numbers are set). */
FOLUGBEN_NODISCARD int32_t asm_run_saved(struct asm_run *run, asm_run_numbers *saved, uint8_t *out,
    size_t room, size_t *written);

/* Writes the state [PAIR, ..] that the moves of a journal leave, with its locations in ascending
 * order; the journal isn't checked. ASM_NOT_JSON, ASM_SHAPE: `*line` is the number of the line,
 * else 0. ASM_VERSION, ASM_CUT, ASM_SMALL, ASM_MEMORY. */
FOLUGBEN_NODISCARD int32_t asm_replay(const uint8_t *journal, size_t len, uint8_t *out, size_t room,
    size_t *written, uint64_t *line);

/* Writes the trace of a journal, legal or not: what each of its calls did, in the form of docs/FORMATS.md,
 * for a viewer or a debugger. ASM_NOT_JSON, ASM_SHAPE: `*line` is the number of the line,
 * else 0. ASM_VERSION, ASM_CUT, ASM_SMALL, ASM_MEMORY. */
FOLUGBEN_NODISCARD int32_t asm_trace(const uint8_t *journal, size_t len, uint8_t *out, size_t room,
    size_t *written, uint64_t *line);

/* Writes the updates [PAIR, ..] of the move [INSTR, ..] on the state [PAIR, ..], in ascending order
 * of locations; null leaves a location empty, as each is that the state doesn't have. The state
 * needs the locations of partial updates alone. ASM_CLASH, with the text {"clash":[LOC,CAUSE]} of
 * the smallest location that clashes. ASM_NOT_JSON, ASM_SHAPE (the state, or else the move),
 * ASM_SMALL, ASM_MEMORY. */
FOLUGBEN_NODISCARD int32_t asm_aggregate(const uint8_t *state, size_t state_len,
    const uint8_t *move, size_t move_len, uint8_t *out, size_t room, size_t *written);

/* Writes one move [INSTR, ..] that does what the first move [INSTR, ..] and then the second do: on
 * a state on which the first fires, it fires as the two in turn, or clashes as the second does
 * then. ASM_CLASH and ASM_LARGE come if on no state both fire, with the texts
 * {"clash":[LOC,CAUSE]}, and {"large":LOC} if an amount would be above 4294967295 or a sum of
 * increments farther from 0 than 18446744073709551615. ASM_LONG_MOVE: more than 4,096 instructions.
 * ASM_NOT_JSON, ASM_SHAPE (the first, or else the second), ASM_SMALL, ASM_MEMORY. */
FOLUGBEN_NODISCARD int32_t asm_compose(const uint8_t *first, size_t first_len,
    const uint8_t *second, size_t second_len, uint8_t *out, size_t room, size_t *written);

/* The forms that asm_explain knows, by the calls that take them; a script, which no call takes. */
enum asm_form {
    ASM_FORM_LOCATIONS = 0, /* [LOC, ..], of asm_read */
    ASM_FORM_MOVE = 1,      /* {"fire":[INSTR, ..],"reads":[NAMED, ..]}, of asm_try_fire */
    ASM_FORM_STATE = 2,     /* [PAIR, ..], of asm_open */
    ASM_FORM_EVENT = 3,     /* {"agent":N,"call":..,"reply":..}, a journal's line but the first */
    ASM_FORM_SCRIPT = 4     /* {"agents":[AGENT, ..],"init":[PAIR, ..]}, which asm_driver plays */
};

/* The most bytes of a sentence of asm_explain. */
#define ASM_SENTENCE_LIMIT 512

/* Writes a sentence that says where and why a text is refused as ASM_NOT_JSON or ASM_SHAPE, such as
 * "instruction 3: a set can't hold a set", "4,097 instructions, at most 4,096" or "not JSON at byte
 * 17"; the parts, the lines and the bytes of a text are counted from 1. Of a script it says "agent
 * 1 step 0 block 0 instruction 2: unknown word \"putt\"", all counted from 0. The text is empty,
 * with `*written` 0, exactly if the form's readers accept what they are passed: nothing is said of
 * what makes ASM_MANY, nor of an event that doesn't fit the journal's first line; a script is
 * within its limits. The sentences may change with the version, and are one line of at most
 * ASM_SENTENCE_LIMIT bytes, which `*written` is with ASM_SMALL. ASM_NO_FORM, ASM_SMALL,
 * ASM_MEMORY. */
FOLUGBEN_NODISCARD int32_t asm_explain(int32_t form, const uint8_t *text, size_t len, uint8_t *out,
    size_t room, size_t *written);

#ifdef __cplusplus
}
#endif

#endif
