/* Shared parts of the tests of calls without text: a storage with two agents, the first one's
 * step, locations and a move. */
#ifndef PLAIN_H
#define PLAIN_H

#include "tests.h"

static const char *const opening =
    "[[['b'],{'bag':[['e',2]]}],[['f'],false],[['l'],{'list':[1,'two']}],"
    "[['n',1],-9223372036854775808],[['s'],{'set':[1]}],[['t'],'h\xc3\xbc'],[['w'],''],[['x'],7],"
    "[['y'],true]]";

/* The locations above in their order, and one that holds nothing. */
enum { B, F, L, N, S, T, W, X, Y, U, PLACES };
static const char *const places[PLACES] = {"['b']", "['f']", "['l']", "['n',1]", "['s']",
                                           "['t']", "['w']", "['x']", "['y']",   "['u',null]"};

static struct asm_storage storage;
static struct asm_agent agents[2];
static struct asm_step step;
static struct asm_move move;
static struct asm_location at[PLACES];

static inline void begin_all(void) {
    uint32_t number = 9;
    open_with(opening, 8, &storage);
    REQUIRE(asm_agents(&storage, agents, 2) == ASM_DONE);
    REQUIRE(asm_begin(&agents[0], &step, &number) == ASM_DONE && number == 0 && step.slot.full);
    for (size_t i = 0; i < PLACES; i++)
        REQUIRE(asm_location(TEXT(places[i]), &at[i]) == ASM_DONE && at[i].slot.full);
}

static inline void end_all(void) {
    asm_free_storage(&storage);
    asm_free_agent(&agents[0]);
    asm_free_agent(&agents[1]);
    asm_free_step(&step);
    asm_free_move(&move);
    for (size_t i = 0; i < PLACES; i++)
        asm_free_location(&at[i]);
}

static inline bool is_value(asm_value value, int32_t kind, int64_t number) {
    return value.kind == kind && value.number == number;
}

/* With this room, the step's get returns the value, or the room that its text needs. */
static inline void gets_in(size_t room, size_t place, asm_value wanted, const char *text) {
    asm_value value = {9, 9};
    size_t length = strlen(text), written = 99;
    bool fits = room >= length;
    uint8_t *out = buffer_of(room);
    int32_t code = asm_get_at(&agents[0], &step, &at[place], &value, OUT);
    REQUIRE(code == (fits ? ASM_DONE : ASM_SMALL) && written == length);
    REQUIRE(fits ? !memcmp(out, json(text), length) : is_untouched(out, room));
    REQUIRE(fits ? is_value(value, wanted.kind, wanted.number) : is_value(value, 0, 0));
    free(out);
}

/* What is seen at the location through the step. */
static inline void gets(size_t place, int32_t kind, int64_t number, const char *text) {
    asm_slot was[3] = {agents[0].slot, step.slot, at[place].slot};
    if (*text)
        gets_in(strlen(text) - 1, place, (asm_value){kind, number}, text);
    gets_in(strlen(text), place, (asm_value){kind, number}, text);
    REQUIRE(is_same(agents[0], was[0]) && is_same(step, was[1]) && is_same(at[place], was[2]));
}

/* Puts an instruction into the move. */
static inline int32_t instruct(size_t place, int32_t verb, int32_t kind, int64_t number,
                               const char *text, uint32_t amount) {
    size_t length = strlen(text);
    return asm_instruct(&move, &at[place], verb, kind, number, length ? bytes(json(text)) : NULL,
                        length, amount);
}

static inline void does(size_t place, int32_t verb, int32_t kind, int64_t number, const char *text,
                        uint32_t amount) {
    asm_slot was = move.slot;
    REQUIRE(instruct(place, verb, kind, number, text, amount) == ASM_DONE && move.slot.full);
    REQUIRE(!was.full || is_same(move, was));
}

static inline int32_t grows(bool is_push) {
    asm_slot was[3] = {agents[0].slot, step.slot, move.slot};
    uint8_t out[8];
    size_t written = 9;
    int32_t code = (is_push ? asm_push_move : asm_extend_move)(&agents[0], &step, &move, out,
                                                               sizeof out, &written);
    REQUIRE(written == 0);
    REQUIRE(is_same(agents[0], was[0]) && is_same(step, was[1]) && is_same(move, was[2]));
    return code;
}

static inline void refuses_as(int32_t code, int32_t verb, int32_t kind, int64_t number,
                              const char *text, uint32_t amount) {
    asm_slot was = move.slot;
    REQUIRE(instruct(X, verb, kind, number, text, amount) == code && is_same(move, was));
}

static inline void refuses(int32_t verb, int32_t kind, int64_t number, const char *text,
                           uint32_t amount) {
    refuses_as(ASM_OPERAND, verb, kind, number, text, amount);
}

#endif
