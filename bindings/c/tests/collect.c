/* Steps that collect into a set, a bag and a counter, compared with a model that has counts in
 * arrays. They compare what is read after each push, extension, refusal and pop, and what the
 * step fires in the end. One more step collects into a bag of many elements that it hasn't put. */
#include "tests.h"

enum { ELEMENTS = 6, LEVELS = 5, MOVES = 60, STEPS = 120, WIDE = 200, CHANGES = 400, BACK = 40 };

/* The values of the locations s, b and c. */
typedef struct model {
    unsigned set[ELEMENTS], bag[ELEMENTS];
    int64_t count;
} model;

static struct asm_storage storage;
static struct asm_agent agent;
static struct asm_step step;
static model levels[LEVELS + 1];
static unsigned top;
static uint32_t seed = 1;

static unsigned any(unsigned below) {
    seed = seed * 1664525u + 1013904223u;
    return (seed >> 16) % below;
}

static int add(char *text, int at, const char *format, unsigned a, unsigned b) {
    return at + snprintf(text + at, (size_t)(LONGEST - at), format, a, b);
}

static void state_text(const model *m, char *text) {
    int at = add(text, 0, "{'set':[", 0, 0);
    const char *comma = "";
    for (unsigned e = 0; e < ELEMENTS; e++)
        if (m->set[e]) {
            at += snprintf(text + at, (size_t)(LONGEST - at), "%s%u", comma, e);
            comma = ",";
        }
    at = add(text, at, "]},{'bag':[", 0, 0);
    comma = "";
    for (unsigned e = 0; e < ELEMENTS; e++)
        if (m->bag[e]) {
            at += snprintf(text + at, (size_t)(LONGEST - at), "%s[%u,%u]", comma, e, m->bag[e]);
            comma = ",";
        }
    snprintf(text + at, (size_t)(LONGEST - at), "]},%" PRId64, m->count);
}

static void is_seen(uint32_t number) {
    char values[LONGEST], text[LONGEST + 64];
    state_text(&levels[top], values);
    snprintf(text, sizeof text, "{'number':%" PRIu32 ",'values':[%s]}", number, values);
    WRITES(ASM_DONE, text, asm_see(&agent, &step, TEXT("[['s'],['b'],['c']]"), OUT));
}

/* One instruction, and its effect on the model; returns whether it has a result. */
static bool instruct(model *m, char *text) {
    unsigned e = any(ELEMENTS), n = 1 + any(3);
    switch (any(8)) {
    case 0: case 1: case 2:
        m->set[e] = 1;
        return add(text, 0, "['add',['s'],%u]", e, 0) != 0;
    case 3:
        m->set[e] = 0;
        return add(text, 0, "['remove',['s'],%u]", e, 0) != 0;
    case 4: case 5:
        m->bag[e] += n;
        return add(text, 0, "['bagadd',['b'],%u,%u]", e, n) != 0;
    case 6:
        add(text, 0, "['bagremove',['b'],%u,%u]", e, n);
        if (m->bag[e] < n)
            return false;
        m->bag[e] -= n;
        return true;
    default:
        m->count += n;
        return add(text, 0, "['inc',['c'],%u]", n, 0) != 0;
    }
}

/* Now and then a put comes first, and often a second partial update at another location. */
static void push_or_extend(uint32_t number, bool is_push) {
    char text[LONGEST], move[LONGEST + 2];
    model next = levels[top];
    bool has = true;
    if (any(12) == 0) {
        memset(&next, 0, sizeof next);
        snprintf(move, sizeof move, "[['put',['s'],{'set':[]}],['put',['b'],{'bag':[]}],['put',['c'],0]]");
    } else {
        has = instruct(&next, text);
        snprintf(move, sizeof move, "[%s]", text);
    }
    uint8_t out[LONGEST];
    size_t written;
    int32_t code = (is_push ? asm_push : asm_extend)(&agent, &step, TEXT(move), out, sizeof out, &written);
    REQUIRE(code == (has ? ASM_DONE : ASM_CLASH));
    if (has) {
        top += is_push || top == 0;
        levels[top] = next;
    }
    REQUIRE(asm_depth(&step) == top);
    is_seen(number);
}

static void one_round(uint32_t number) {
    uint32_t began;
    REQUIRE(asm_begin(&agent, &step, &began) == ASM_DONE && began == number);
    for (unsigned i = 0; i < STEPS; i++) {
        unsigned choice = any(10);
        if (choice == 0 && top > 0) {
            REQUIRE(asm_pop(&step) == ASM_DONE);
            top--;
            is_seen(number);
        } else
            push_or_extend(number, choice < 3 && top < LEVELS);
    }
    asm_numbers numbers;
    REQUIRE(asm_commit(&agent, &step, &numbers) == ASM_DONE && numbers.fired == number + 1);
    levels[0] = levels[top];
    top = 0;
}

/* The counts that aren't 0, as a bag. */
static void bag_text(const unsigned *counts, char *text) {
    int at = add(text, 0, "{'bag':[", 0, 0);
    const char *comma = "";
    for (unsigned e = 0; e < WIDE; e++)
        if (counts[e]) {
            at += snprintf(text + at, (size_t)(LONGEST - at), "%s[%u,%u]", comma, e, counts[e]);
            comma = ",";
        }
    add(text, at, "]}", 0, 0);
}

/* One extension of the bag, by an addition or a removal, which is refused if there are too few
 * elements. */
static void extend_bag(unsigned *counts) {
    unsigned e = any(WIDE), n = 1 + any(3);
    bool adds = any(2) == 0, has = adds || counts[e] >= n;
    char text[LONGEST];
    uint8_t out[LONGEST];
    size_t written;
    snprintf(text, sizeof text, "[['bag%s',['b'],%u,%u]]", adds ? "add" : "remove", e, n);
    REQUIRE(asm_extend(&agent, &step, TEXT(text), out, sizeof out, &written) == (has ? ASM_DONE : ASM_CLASH));
    if (has)
        counts[e] += adds ? n : 0 - n;
}

/* An addition and its removal, which amount to no update. */
static void add_and_remove(unsigned e) {
    char text[LONGEST];
    uint8_t out[LONGEST];
    size_t written;
    for (unsigned i = 0; i < 2; i++) {
        snprintf(text, sizeof text, "[['bag%s',['b'],%u,1]]", i ? "remove" : "add", e);
        REQUIRE(asm_extend(&agent, &step, TEXT(text), out, sizeof out, &written) == ASM_DONE);
    }
}

static void is_bag(const unsigned *counts, uint32_t number, bool fired) {
    char bag[LONGEST], text[LONGEST + 64];
    bag_text(counts, bag);
    snprintf(text, sizeof text, "{'number':%" PRIu32 ",'values':[%s]}", number, bag);
    if (fired)
        WRITES(ASM_DONE, text, asm_peek(&agent, TEXT("[['b']]"), OUT));
    else
        WRITES(ASM_DONE, text, asm_see(&agent, &step, TEXT("[['b']]"), OUT));
}

/* A bag of many elements, below every second one of those that the step adds or removes. */
static void collect_into_a_bag(void) {
    unsigned counts[WIDE] = {0};
    char bag[LONGEST], init[LONGEST + 64];
    uint32_t began, follows;
    asm_numbers numbers;
    for (unsigned e = 0; e < WIDE; e += 2)
        counts[e] = 2;
    bag_text(counts, bag);
    snprintf(init, sizeof init, "[[['b'],%s]]", bag);
    open_with(init, 1, &storage);
    REQUIRE(asm_agent(&storage, 0, &agent) == ASM_DONE);
    REQUIRE(asm_begin(&agent, &step, &began) == ASM_DONE && began == 0);
    for (unsigned i = 0; i < BACK; i++) {
        add_and_remove(i);
        is_bag(counts, 0, false);
    }
    for (unsigned i = 0; i < CHANGES; i++) {
        extend_bag(counts);
        if (i % 16 == 0)
            is_bag(counts, 0, false);
    }
    REQUIRE(asm_commit(&agent, &step, &numbers) == ASM_DONE && numbers.fired == 1);
    REQUIRE(asm_follow(&agent, &follows) == ASM_DONE && follows == 1);
    is_bag(counts, 1, true);
    REQUIRE(asm_give(&storage, &agent) == ASM_DONE);
    char *journal = journal_of(&storage);
    is_legal(journal, 1, 1);
    free(journal);
    asm_free_storage(&storage);
}

int main(void) {
    open_with("[[['b'],{'bag':[[0,2]]}],[['c'],5],[['s'],{'set':[1,3]}]]", MOVES, &storage);
    REQUIRE(asm_agent(&storage, 0, &agent) == ASM_DONE);
    levels[0].bag[0] = 2;
    levels[0].set[1] = levels[0].set[3] = 1;
    levels[0].count = 5;
    for (uint32_t number = 0; number < MOVES; number++)
        one_round(number);
    char values[LONGEST], text[LONGEST + 64];
    uint32_t follows;
    REQUIRE(asm_follow(&agent, &follows) == ASM_DONE && follows == MOVES);
    state_text(&levels[0], values);
    snprintf(text, sizeof text, "{'number':%d,'values':[%s]}", MOVES, values);
    WRITES(ASM_DONE, text, asm_peek(&agent, TEXT("[['s'],['b'],['c']]"), OUT));
    REQUIRE(asm_give(&storage, &agent) == ASM_DONE);
    char *journal = journal_of(&storage);
    is_legal(journal, MOVES, MOVES);
    free(journal);
    asm_free_storage(&storage);
    collect_into_a_bag();
    puts("collect: what a step collects is what the model has");
    return 0;
}
