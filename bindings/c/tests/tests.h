/* Shared parts of the tests of polls and steps. Their texts have ' in the place of ", which no
 * text of theirs has otherwise. */
#ifndef TESTS_H
#define TESTS_H

#include "folugben.h"

#include <inttypes.h>
#include <stdio.h>
#include <stdlib.h>
#include <string.h>

enum { UNTOUCHED = 0xA5, LONGEST = 4096 };

#define REQUIRE(holds) require((holds), #holds, __FILE__, __LINE__)

/* The bytes and the length of a text with ' for ". */
#define TEXT(text) bytes(json(text)), strlen(text)

/* The buffer of a call within ANSWERS and TELLS. */
#define OUT out, room, &written

/* The call returns this code and writes no text. */
#define ANSWERS(wanted, call)                                                                      \
    do {                                                                                           \
        size_t room = 8, written = 9;                                                              \
        uint8_t *out = buffer_of(room);                                                            \
        REQUIRE((call) == (wanted));                                                               \
        REQUIRE(written == 0 && is_untouched(out, room));                                          \
        free(out);                                                                                 \
    } while (0)

/* With a byte of room less than the text has, the call writes nothing and returns the room;
 * then, with that room, it returns this code and writes the text. */
#define WRITES(wanted, text, call)                                                                 \
    do {                                                                                           \
        size_t length = strlen(text), room = length - 1, written = 9;                              \
        uint8_t *out = buffer_of(room);                                                            \
        REQUIRE((call) == ASM_SMALL);                                                              \
        REQUIRE(written == length && is_untouched(out, room));                                     \
        free(out);                                                                                 \
        out = buffer_of(room = length);                                                            \
        answers_with((call), (wanted), json(text), out, written, __FILE__, __LINE__);              \
        free(out);                                                                                 \
    } while (0)

static inline void require(bool holds, const char *what, const char *file, int line) {
    if (!holds) {
        fprintf(stderr, "%s: line %d: %s\n", file, line, what);
        exit(1);
    }
}

static inline const uint8_t *bytes(const char *text) { return (const uint8_t *)text; }

/* The text with " for '; it is valid until the fourth call after this one. */
static inline const char *json(const char *text) {
    static _Thread_local char texts[4][LONGEST];
    static _Thread_local unsigned next;
    char *at = texts[next++ % 4];
    REQUIRE(strlen(text) < LONGEST);
    for (size_t i = 0; i <= strlen(text); i++)
        at[i] = text[i] == '\'' ? '"' : text[i];
    return at;
}

/* A buffer of exactly this many bytes, so that memcheck finds each byte that is written after
 * it. */
static inline uint8_t *buffer_of(size_t room) {
    uint8_t *buffer = malloc(room ? room : 1);
    REQUIRE(buffer != NULL);
    memset(buffer, UNTOUCHED, room);
    return buffer;
}

static inline bool is_untouched(const uint8_t *buffer, size_t room) {
    for (size_t i = 0; i < room; i++)
        if (buffer[i] != UNTOUCHED)
            return false;
    return true;
}

static inline void answers_with(int32_t code, int32_t wanted, const char *text, const uint8_t *out,
                                size_t written, const char *file, int line) {
    if (code == wanted && written == strlen(text) && !memcmp(out, text, written))
        return;
    fprintf(stderr, "%s: line %d: code %" PRId32 ", %.*s\n  wanted %" PRId32 ", %s\n", file, line,
            code, (int)written, (const char *)out, wanted, text);
    exit(1);
}

/* The handle as one of another kind, as no caller must pass it. */
#define AS(kind, handle) ((struct asm_##kind *)(void *)(handle))

/* Returns whether the handle is as the slot was. */
#define is_same(handle, was) is_same_slot((handle).slot, (was))

/* The slot of a handle of any kind. */
static inline asm_slot slot_of(const void *handle) { return *(const asm_slot *)handle; }

static inline bool is_same_slot(asm_slot slot, asm_slot was) {
    return slot.full == was.full && slot.at == was.at;
}

static inline void open_with(const char *init, uint32_t capacity, struct asm_storage *storage) {
    REQUIRE(asm_open(TEXT(init), capacity, storage) == ASM_DONE);
}

/* Fires a move that names nothing. */
static inline void fire(struct asm_agent *agent, const char *instructions) {
    char call[LONGEST];
    asm_numbers numbers;
    snprintf(call, sizeof call, "{'fire':%s,'reads':[]}", instructions);
    REQUIRE(asm_try_fire(agent, TEXT(call), &numbers) == ASM_DONE);
}

/* The retained journal; the caller must free it. */
static inline char *journal_of(struct asm_storage *storage) {
    uint32_t missing;
    size_t room;
    REQUIRE(asm_close(storage, &missing) == ASM_DONE && missing == 0);
    REQUIRE(asm_journal(storage, NULL, 0, &room) == ASM_SMALL);
    char *journal = malloc(room + 1);
    REQUIRE(journal != NULL);
    REQUIRE(asm_journal(storage, (uint8_t *)journal, room, &room) == ASM_DONE);
    journal[room] = 0;
    return journal;
}

/* The journal is legal, with this many calls and moves. */
static inline void is_legal(const char *journal, uint64_t calls, uint32_t moves) {
    uint64_t found;
    uint32_t fired;
    REQUIRE(asm_check(bytes(journal), strlen(journal), &found, &fired) == ASM_DONE);
    REQUIRE(found == calls && fired == moves);
}

#endif
