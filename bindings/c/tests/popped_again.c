/* Moves that are popped and pushed again leave a step what it is: the same random steps are played
 * on two storages, with pops on one of them, while a rival changes both. */
#include "tests.h"

#ifndef ROUNDS
#define ROUNDS 3000
#endif

enum { PLAIN, POPPING, SIDES, DEEPEST = 5 };

/* A storage, the agent that plays on it, its rival, and the step of the first. */
typedef struct side {
    struct asm_storage storage;
    struct asm_agent agents[2];
    struct asm_step step;
} side;

static side sides[SIDES];

static const char opening[] = "[[['b'],{'bag':[['e',2]]}],[['n'],0],[['s'],{'set':[1,2]}],"
                              "[['t'],'x'],[['x'],7]]";
static const char reset[] = "[['put',['b'],{'bag':[['e',2]]}],['put',['n'],0],"
                            "['put',['s'],{'set':[1,2]}],['put',['t'],'x'],['put',['x'],7]]";
static const char everything[] = "[['b'],['n'],['s'],['t'],['u'],['x']]";

static void open_sides(uint32_t capacity) {
    for (side *at = sides; at < sides + SIDES; at++) {
        open_with(opening, capacity, &at->storage);
        REQUIRE(asm_agents(&at->storage, at->agents, 2) == ASM_DONE);
    }
}

static void free_sides(void) {
    for (side *at = sides; at < sides + SIDES; at++) {
        asm_free_step(&at->step);
        asm_free_agent(&at->agents[0]);
        asm_free_agent(&at->agents[1]);
        asm_free_storage(&at->storage);
    }
}

static void begin_steps(void) {
    uint32_t numbers[SIDES];
    for (size_t i = 0; i < SIDES; i++)
        REQUIRE(asm_begin(&sides[i].agents[0], &sides[i].step, &numbers[i]) == ASM_DONE);
    REQUIRE(numbers[PLAIN] == numbers[POPPING]);
}

/* What a call on one side returned: its code, and the text that it wrote. */
typedef struct told {
    int32_t code;
    size_t written;
    uint8_t out[LONGEST];
} told;

static void are_same(const told *plain, const told *popping, const char *what) {
    bool same = plain->code == popping->code && plain->written == popping->written &&
                !memcmp(plain->out, popping->out, plain->written);
    if (!same)
        fprintf(stderr, "%s\n  code %" PRId32 ", %.*s\n  with pops %" PRId32 ", %.*s\n", what,
                plain->code, (int)plain->written, (const char *)plain->out, popping->code,
                (int)popping->written, (const char *)popping->out);
    REQUIRE(same);
}

/* Pushes the move on both steps, or extends the last one by it; returns the code. */
static int32_t plays(const char *instructions, bool is_push) {
    told told[SIDES];
    for (size_t i = 0; i < SIDES; i++)
        told[i].code = (is_push ? asm_push : asm_extend)(
            &sides[i].agents[0], &sides[i].step, TEXT(instructions), told[i].out, LONGEST,
            &told[i].written);
    are_same(&told[PLAIN], &told[POPPING], instructions);
    return told[PLAIN].code;
}

/* Pops so many pushed moves of one side, and pushes them again. */
static void pops_again(uint32_t count) {
    struct asm_move moves[DEEPEST] = {0};
    side *at = &sides[POPPING];
    uint32_t depth = asm_depth(&at->step);
    uint8_t out[LONGEST];
    size_t written;
    REQUIRE(count <= depth && depth <= DEEPEST);
    for (uint32_t i = 0; i < count; i++)
        REQUIRE(asm_pop_move(&at->step, &moves[i]) == ASM_DONE);
    for (uint32_t i = count; i-- > 0;) {
        REQUIRE(asm_push_move(&at->agents[0], &at->step, &moves[i], out, LONGEST, &written) ==
                ASM_DONE);
        asm_free_move(&moves[i]);
    }
    REQUIRE(asm_depth(&at->step) == depth);
}

/* Fires a move of the rivals, which may clash. */
static void rivals_fire(const char *instructions) {
    char call[LONGEST];
    asm_numbers numbers;
    int32_t codes[SIDES];
    snprintf(call, sizeof call, "{'fire':%s,'reads':[]}", instructions);
    for (size_t i = 0; i < SIDES; i++)
        codes[i] = asm_try_fire(&sides[i].agents[1], TEXT(call), &numbers);
    REQUIRE(codes[PLAIN] == codes[POPPING]);
    REQUIRE(codes[PLAIN] == ASM_DONE || codes[PLAIN] == ASM_CLASH);
}

/* Both steps show the same; it is read, and so tracked, or only shown. */
static void look_same(bool is_read) {
    told told[SIDES];
    for (size_t i = 0; i < SIDES; i++)
        told[i].code = (is_read ? asm_get : asm_see)(&sides[i].agents[0], &sides[i].step,
                                                     TEXT(is_read ? "[['x']]" : everything),
                                                     told[i].out, LONGEST, &told[i].written);
    REQUIRE(told[PLAIN].code == ASM_DONE);
    are_same(&told[PLAIN], &told[POPPING], "what is seen");
}

static void are_same_states(void) {
    told told[SIDES];
    uint32_t numbers[SIDES];
    for (size_t i = 0; i < SIDES; i++) {
        REQUIRE(asm_follow(&sides[i].agents[0], &numbers[i]) == ASM_DONE);
        told[i].code = asm_state(&sides[i].agents[0], &numbers[i], told[i].out, LONGEST,
                                 &told[i].written);
    }
    REQUIRE(told[PLAIN].code == ASM_DONE && numbers[PLAIN] == numbers[POPPING]);
    are_same(&told[PLAIN], &told[POPPING], "the state");
}

/* Commits both steps, to the same answer; returns its code. */
static int32_t commits(void) {
    told told[SIDES];
    asm_numbers numbers[SIDES];
    for (size_t i = 0; i < SIDES; i++) {
        int32_t code = asm_commit(&sides[i].agents[0], &sides[i].step, &numbers[i]);
        REQUIRE(asm_answer(&sides[i].agents[0], told[i].out, LONGEST, &told[i].written) ==
                ASM_DONE);
        told[i].code = code;
        asm_free_step(&sides[i].step);
    }
    are_same(&told[PLAIN], &told[POPPING], "the answer to a commit");
    are_same_states();
    return told[PLAIN].code;
}

static uint32_t below(uint32_t count) {
    static uint64_t state = 20261130;
    state ^= state << 13;
    state ^= state >> 7;
    state ^= state << 17;
    return (uint32_t)(state >> 32) % count;
}

/* Writes a random instruction; `wild` ones put any kind of value anywhere. */
static int instruction(char *out, size_t room, bool wild) {
    static const char *const names[] = {"b", "n", "s", "t", "u", "x"};
    static const char *const values[] = {"'a'", "0", "null", "{'set':[1]}", "{'bag':[['e',1]]}"};
    const char *name = names[below(6)];
    int by = (int)below(5) - 2;
    if (wild)
        return snprintf(out, room, "['put',['%s'],%s]", name, values[below(5)]);
    switch (*name) {
    case 'b':
        return snprintf(out, room, "['%s',['b'],'e',%u]", below(2) ? "bagadd" : "bagremove",
                        below(2) + 1);
    case 's':
        return snprintf(out, room, "['%s',['s'],%u]", below(2) ? "add" : "remove", below(3) + 1);
    case 'n':
    case 'x':
        return below(4) ? snprintf(out, room, "['inc',['%s'],%d]", name, by)
                        : snprintf(out, room, "['put',['%s'],%d]", name, by);
    default:
        return snprintf(out, room, "['put',['%s'],%d]", name, by);
    }
}

/* A random move of up to three instructions; it is valid until the next call. */
static const char *random_move(bool wild) {
    static char move[512];
    int length = snprintf(move, sizeof move, "[");
    for (uint32_t left = below(3) + 1; left > 0; left--) {
        length += instruction(move + length, sizeof move - (size_t)length, wild && !below(3));
        length += snprintf(move + length, sizeof move - (size_t)length, left > 1 ? "," : "]");
    }
    return move;
}

/* Plays a random step, which is popped and pushed again at random on one side; returns the code
 * of its commit. */
static int32_t random_step(void) {
    begin_steps();
    for (uint32_t left = below(8) + 1; left > 0; left--) {
        uint32_t depth = asm_depth(&sides[PLAIN].step);
        bool is_push = depth == 0 || (depth < DEEPEST && below(2));
        plays(random_move(false), is_push);
        depth = asm_depth(&sides[PLAIN].step);
        if (depth > 0 && below(2))
            pops_again(below(depth) + 1);
        look_same(!below(8));
    }
    pops_again(asm_depth(&sides[POPPING].step));
    for (uint32_t left = below(3); left > 0; left--)
        rivals_fire(random_move(true));
    return commits();
}

int main(void) {
    uint32_t done = 0, stale = 0, clash = 0;
    open_sides(4 * ROUNDS);
    for (int round = 0; round < ROUNDS; round++) {
        int32_t code;
        rivals_fire(reset);
        code = random_step();
        done += code == ASM_DONE;
        stale += code == ASM_STALE;
        clash += code == ASM_CLASH;
    }
    REQUIRE(done + stale + clash == ROUNDS && done > 0 && stale > 0 && clash > 0);
    free_sides();
    puts("passed");
    return 0;
}
