/* The state of a case of the table, and how its calls are made, for the test of conformance. */
#ifndef CONFORMANCE_CALLS_H
#define CONFORMANCE_CALLS_H

#include "conformance.h"

#include <stdarg.h>

static struct asm_storage *storage;
static struct asm_agent *agents[AGENTS];
static struct asm_step steps[AGENTS];
static struct asm_move moves[AGENTS];
static struct word words[WORDS];
static bool is_recording;
/* How many reads each agent made by itself. */
static uint64_t read_by[AGENTS];
static uint8_t journal[ROOM];
static size_t journal_len;
/* The answer of the last call, in as many bytes as it needs, so that memcheck finds each byte that is written after it. */
static uint8_t *out;
static size_t room, written, needed;
static int32_t last;
/* What an error has besides its code. */
static char said[4096], numbers[64];

#define OUT out, room, &written

enum { UNTOUCHED = 0xA5 };

static void give_room(size_t bytes) {
    free(out);
    out = malloc(bytes ? bytes : 1);
    if (!out)
        fail("no memory");
    memset(out, UNTOUCHED, bytes);
    room = bytes;
    written = 9;
}

static bool is_untouched(void) {
    size_t i = 0;
    while (i < room && out[i] == UNTOUCHED)
        i++;
    return i == room;
}

static void lack_a_byte(void) {
    needed = written;
    give_room(needed - 1);
}

static void had_no_room(int32_t code) {
    if (code != ASM_SMALL || written != needed || !is_untouched())
        fail("a call with a byte too few");
}

/* The code of a call that writes a text with some codes, and nothing with any other. */
static int32_t with_text(int32_t code) {
    if (code != ASM_DONE && code != ASM_STALE && code != ASM_CLASH && code != ASM_LARGE && (written || !is_untouched()))
        fail("a refused call has written");
    return code;
}

/* The code of a call that writes to OUT. It is made without room, with a byte too few, and with as many bytes as it needs. */
#define WRITES(call)                                                                                                                        \
    (give_room(0), (last = (call)) != ASM_SMALL ? with_text(last)                                                                           \
                                                : (lack_a_byte(), had_no_room(call), give_room(needed), with_text(call)))

static int32_t reply(const char *format, ...) {
    va_list all;
    give_room(128);
    va_start(all, format);
    written = (size_t)vsnprintf((char *)out, room, format, all);
    va_end(all);
    return ASM_DONE;
}

static uint32_t number(size_t word) { return (uint32_t)strtoul(words[word].at, NULL, 10); }
static struct asm_agent *agent(size_t word) { return agents[number(word)]; }
static struct asm_step *step(size_t word) { return &steps[number(word)]; }
static struct asm_move *move_at(size_t word) { return &moves[number(word)]; }

static struct word *text(size_t word) { return unquoted(&words[word]); }

/* Leaves the sentence in `said`: of a text that is refused, the call is also made without room and with a byte too few. */
static void explain(int32_t form, const uint8_t *refused, size_t len) {
    give_room(ASM_SENTENCE_LIMIT);
    if (asm_explain(form, refused, len, OUT) != ASM_DONE || written >= sizeof said)
        fail("asm_explain");
    memcpy(said, out, written);
    said[written] = 0;
    needed = ASM_SENTENCE_LIMIT;
    const size_t rooms[] = {0, written - 1};
    for (size_t i = 0; *said && i < 2; i++) {
        give_room(rooms[i]);
        had_no_room(asm_explain(form, refused, len, OUT));
    }
    written = 0;
}

static void *slot(size_t size) {
    void *made = calloc(1, size);
    if (!made)
        fail("no memory");
    return made;
}

/* The text of a fire of these words, of which the second may be null. */
static struct word fire_of(struct word move, struct word reads) {
    static char call[ROOM];
    int len = snprintf(call, sizeof call, "{\"fire\":%.*s,\"reads\":%.*s}", (int)move.len, move.at, (int)reads.len, reads.at);
    return (struct word){call, (size_t)len};
}

static void explain_move(struct word move) {
    struct word call = fire_of(move, (struct word){"[]", 2});
    explain(ASM_FORM_MOVE, BYTES(call));
}

static int32_t write_number(uint64_t it) { return reply("%" PRIu64, it); }

static int32_t write_null(int32_t code) { return code == ASM_DONE ? reply("null") : code; }

/* Writes the answer to the agent's last call, if there is one. */
static int32_t answered(int32_t code) {
    if (code == ASM_DONE || code == ASM_STALE || code == ASM_CLASH)
        return WRITES(asm_answer(agent(0), OUT));
    return code;
}

/* A call that fires has a number of the move that it fired, and else none. */
static int32_t numbered(int32_t code, asm_numbers its) {
    if ((its.fired > 0) != (code == ASM_DONE) || its.from || its.to)
        fail("the numbers of a fire");
    return answered(code);
}

/* What a refusal of a call writes is its answer. */
static int32_t or_refusal(int32_t code) {
    if (code == ASM_DONE)
        return write_null(code);
    return code == ASM_STALE || code == ASM_CLASH || code == ASM_LARGE ? ASM_DONE : code;
}

static int32_t of_locations(int32_t code) {
    if (code == ASM_SHAPE || code == ASM_NOT_JSON)
        explain(ASM_FORM_LOCATIONS, BYTES(words[1]));
    return code;
}

/* Leaves the values of a reading. */
static int32_t values(int32_t code) {
    static const char before[] = "\"values\":";
    size_t at = 0;
    if (code != ASM_DONE)
        return of_locations(code);
    while (memcmp(out + at, before, strlen(before)))
        at++;
    at += strlen(before);
    written -= at + 1;
    memmove(out, out + at, written);
    return code;
}

static int32_t of_move(int32_t code) {
    if (code == ASM_SHAPE || code == ASM_NOT_JSON)
        explain_move(words[1]);
    return or_refusal(code);
}

#endif
