/* Shared parts of the tests of runs: the journals of one, and its segments. */
#ifndef RUNS_H
#define RUNS_H

#include "tests.h"

enum { SEGMENTS = 12, DIGEST = 64, NAME_ROOM = 256 };

/* Bytes that a file may have. */
typedef struct text {
    const uint8_t *at;
    size_t len;
} text;

static uint64_t seed = 1;

static inline unsigned below(unsigned limit) {
    seed ^= seed << 13, seed ^= seed >> 7, seed ^= seed << 17;
    return (unsigned)((seed >> 11) % limit);
}

/* A segment: its journal, with its moves and events. */
static struct segment {
    char *journal;
    uint64_t moves, events;
} segments[SEGMENTS];

static inline text text_of(unsigned k) {
    return (text){bytes(segments[k].journal), strlen(segments[k].journal)};
}

/* Makes the journals of a run: each opens with what the one before it leaves. */
static inline void make_segments(void) {
    struct asm_storage storage = {0}, next = {0};
    open_with("[[['n'],0]]", 8, &storage);
    for (unsigned k = 0; k < SEGMENTS; k++) {
        struct asm_agent agent = {0};
        REQUIRE(asm_agent(&storage, 0, &agent) == ASM_DONE);
        segments[k].moves = segments[k].events = k ? 1 + k % 3 : 0;
        for (unsigned i = 0; i < segments[k].moves; i++)
            fire(&agent, "[['inc',['n'],1]]");
        REQUIRE(asm_give(&storage, &agent) == ASM_DONE);
        segments[k].journal = journal_of(&storage);
        REQUIRE(asm_next(&storage, 8, &next) == ASM_DONE);
        asm_free_storage(&storage);
        storage = next;
        next = (struct asm_storage){0};
    }
    asm_free_storage(&storage);
}

static inline void free_segments(void) {
    for (unsigned k = 0; k < SEGMENTS; k++)
        free(segments[k].journal);
}

static inline asm_run_numbers saved_of(struct asm_run *run, char *digest) {
    asm_run_numbers saved = {9, 9, 9};
    size_t written = 9;
    REQUIRE(asm_run_saved(run, &saved, (uint8_t *)digest, DIGEST, &written) == ASM_DONE &&
            written == DIGEST);
    return saved;
}

static inline int32_t request_of(struct asm_run *run) {
    int32_t request = 9;
    REQUIRE(asm_run_request(run, &request) == ASM_DONE);
    return request;
}

/* Begins to save the segment, and writes its name with a zero byte at its end. */
static inline int32_t hand(struct asm_run *run, unsigned k, char *name) {
    size_t written;
    text it = text_of(k);
    int32_t code = asm_run_hand(run, segments[k].moves, segments[k].events, it.at, it.len,
                                (uint8_t *)name, NAME_ROOM - 1, &written);
    name[code == ASM_DONE ? written : 0] = 0;
    return code;
}

/* Reads a segment in pieces, and returns its first code, with the numbers of its end. */
static inline int32_t code_of(struct asm_run *run, const char *name, text it,
                              asm_audit_numbers *told) {
    asm_segment found;
    int32_t code = asm_run_name(run, bytes(name), strlen(name), it.len, &found);
    *told = (asm_audit_numbers){0, 0, 0};
    if (code != ASM_DONE)
        return code;
    for (size_t at = 0, piece; at < it.len; at += piece) {
        piece = 1 + below(200);
        piece = piece < it.len - at ? piece : it.len - at;
        REQUIRE(asm_run_text(run, it.at + at, piece) == ASM_DONE);
    }
    return asm_run_end(run, told);
}

#endif
