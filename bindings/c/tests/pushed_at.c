/* asm_push_at beside what it is short for, asm_instruct into an empty slot and asm_push_move of that slot: two storages on which
 * the same is done, one by each. All that they answer is the same, and their journals are. */
#include "plain.h"

/* The two storages, each with two agents and the step of the first one. */
typedef struct {
    struct asm_storage storage;
    struct asm_agent agent, other;
    struct asm_step step;
} side;

static side sides[2];

/* An instruction, any part of which may be wrong. */
typedef struct {
    size_t place;
    int32_t verb, kind;
    int64_t number;
    const char *text;
    uint32_t amount;
} one;

static const one seven_puts = {X, ASM_PUT, ASM_KIND_NUM, 7, "", 0};
static const one clashing = {X, ASM_ADD, ASM_KIND_NUM, 7, "", 0};

/* How often each code was returned. */
static unsigned found[64];

static void begin_step(void) {
    uint32_t number;
    for (size_t i = 0; i < 2; i++)
        REQUIRE(asm_begin(&sides[i].agent, &sides[i].step, &number) == ASM_DONE);
}

static void begin_sides(void) {
    for (size_t i = 0; i < PLACES; i++)
        REQUIRE(asm_location(TEXT(places[i]), &at[i]) == ASM_DONE);
    for (size_t i = 0; i < 2; i++) {
        open_with(opening, 8, &sides[i].storage);
        REQUIRE(asm_agent(&sides[i].storage, 0, &sides[i].agent) == ASM_DONE);
        REQUIRE(asm_agent(&sides[i].storage, 1, &sides[i].other) == ASM_DONE);
    }
    begin_step();
}

static void end_sides(void) {
    char *journals[2];
    for (size_t i = 0; i < 2; i++) {
        asm_free_step(&sides[i].step);
        REQUIRE(asm_give(&sides[i].storage, &sides[i].agent) == ASM_DONE);
        REQUIRE(asm_give(&sides[i].storage, &sides[i].other) == ASM_DONE);
        journals[i] = journal_of(&sides[i].storage);
        asm_free_storage(&sides[i].storage);
    }
    REQUIRE(!strcmp(journals[0], journals[1]));
    free(journals[0]);
    free(journals[1]);
    for (size_t i = 0; i < PLACES; i++)
        asm_free_location(&at[i]);
}

static int32_t by_slot(side *s, const one *it, uint8_t *out, size_t room, size_t *written) {
    struct asm_move its = {0};
    size_t length = strlen(it->text);
    *written = 0;
    int32_t code = asm_instruct(&its, &at[it->place], it->verb, it->kind, it->number,
                                length ? bytes(json(it->text)) : NULL, length, it->amount);
    if (code == ASM_DONE)
        code = asm_push_move(&s->agent, &s->step, &its, out, room, written);
    asm_free_move(&its);
    return code;
}

static int32_t at_once(side *s, const one *it, uint8_t *out, size_t room, size_t *written) {
    size_t length = strlen(it->text);
    asm_slot was[3] = {s->agent.slot, s->step.slot, at[it->place].slot};
    int32_t code = asm_push_at(&s->agent, &s->step, &at[it->place], it->verb, it->kind, it->number,
                               length ? bytes(json(it->text)) : NULL, length, it->amount, out, room,
                               written);
    REQUIRE(is_same(s->agent, was[0]) && is_same(s->step, was[1]) && is_same(at[it->place], was[2]));
    return code;
}

/* Both answer the same with this room; returns the code, and the room that the text needs. */
static int32_t answer_in(const one *it, size_t room, size_t *needed) {
    uint8_t *first = buffer_of(room), *second = buffer_of(room);
    size_t written = 9;
    int32_t code = at_once(&sides[0], it, first, room, needed);
    REQUIRE(by_slot(&sides[1], it, second, room, &written) == code);
    REQUIRE(written == *needed && !memcmp(first, second, room));
    REQUIRE(code == ASM_CLASH || is_untouched(first, room));
    free(first);
    free(second);
    found[code]++;
    return code;
}

/* What a commit would fire is the same, and what is seen at each location. */
static void are_alike(void) {
    static uint8_t texts[4][1 << 18];
    size_t written[4];
    for (size_t i = 0; i < 2; i++) {
        REQUIRE(asm_offer(&sides[i].step, texts[i], sizeof texts[i], &written[i]) == ASM_DONE);
        REQUIRE(asm_see(&sides[i].agent, &sides[i].step,
                        TEXT("[['b'],['f'],['l'],['n',1],['s'],['t'],['w'],['x'],['y'],['u',null]]"),
                        texts[2 + i], sizeof texts[2 + i], &written[2 + i]) == ASM_DONE);
    }
    REQUIRE(written[0] == written[1] && !memcmp(texts[0], texts[1], written[0]));
    REQUIRE(written[2] == written[3] && !memcmp(texts[2], texts[3], written[2]));
    REQUIRE(asm_depth(&sides[0].step) == asm_depth(&sides[1].step));
}

/* Both push it, or refuse it for the same reason and depend on the same then. */
static int32_t push_one(const one *it) {
    size_t needed = 9, again = 9;
    int32_t code = answer_in(it, 0, &needed);
    if (code == ASM_SMALL) {
        REQUIRE(answer_in(it, needed - 1, &again) == ASM_SMALL && again == needed);
        code = answer_in(it, needed, &again);
        REQUIRE(code == ASM_CLASH && again == needed);
    } else {
        REQUIRE(needed == 0);
    }
    return code;
}

static void pops(void) {
    for (size_t i = 0; i < 2; i++)
        REQUIRE(asm_pop(&sides[i].step) == ASM_DONE);
}

static void commits(int32_t wanted) {
    asm_numbers numbers[2];
    for (size_t i = 0; i < 2; i++)
        REQUIRE(asm_commit(&sides[i].agent, &sides[i].step, &numbers[i]) == wanted);
    REQUIRE(numbers[0].fired == numbers[1].fired);
}

/* Each verb with operands of each kind, right ones and wrong ones, at values of each kind. */
static void each_instruction(void) {
    static const int64_t numbers[] = {0, 1, -3, INT64_MIN};
    static const char *const texts[] = {"",            "e",                 "\xff",        "{'list':[1]}",
                                        "{'set':[1]}", "{'bag':[['e',2]]}", "{'list':[1}"};
    static const uint32_t amounts[] = {0, 1, UINT32_MAX};
    begin_sides();
    for (int32_t verb = -1; verb <= ASM_INC + 1; verb++)
        for (int32_t kind = -1; kind <= ASM_KIND_BAG + 1; kind++)
            for (size_t i = 0; i < sizeof texts / sizeof *texts * 12 * PLACES; i++) {
                one it = {i % PLACES,     verb, kind, numbers[i / PLACES % 4], texts[i / PLACES / 12],
                          amounts[i / PLACES / 4 % 3]};
                push_one(&it);
                if (i % 16 == 0)
                    are_alike();
                while (asm_depth(&sides[0].step) > i % 4)
                    pops();
            }
    are_alike();
    commits(ASM_DONE);
    end_sides();
    static const int32_t wanted[] = {ASM_DONE, ASM_CLASH, ASM_OPERAND, ASM_NOT_JSON, ASM_SHAPE, ASM_SMALL};
    for (size_t i = 0; i < sizeof wanted / sizeof *wanted; i++)
        REQUIRE(found[wanted[i]] > 0);
}

/* Gets see what was pushed, and a commit fires it unless it is stale; a step that has moved on pushes nothing. */
static void effects(void) {
    begin_sides();
    REQUIRE(push_one(&seven_puts) == ASM_DONE);
    REQUIRE(push_one(&(one){X, ASM_INC, ASM_KIND_NUM, 2, "", 0}) == ASM_DONE);
    REQUIRE(push_one(&(one){S, ASM_ADD, ASM_KIND_TEXT, 0, "two", 0}) == ASM_DONE);
    REQUIRE(push_one(&(one){B, ASM_BAGREMOVE, ASM_KIND_TEXT, 0, "e", 2}) == ASM_DONE);
    REQUIRE(push_one(&(one){U, ASM_PUT, ASM_KIND_BAG, 0, "{'bag':[['e',2]]}", 0}) == ASM_DONE);
    are_alike();
    WRITES(ASM_DONE, "{'number':0,'values':[9,{'set':[1,'two']},{'bag':[]},{'bag':[['e',2]]}]}",
           asm_see(&sides[0].agent, &sides[0].step, TEXT("[['x'],['s'],['b'],['u',null]]"), OUT));
    are_alike();
    commits(ASM_DONE);
    begin_step();
    REQUIRE(push_one(&(one){S, ASM_REMOVE, ASM_KIND_NUM, 5, "", 0}) == ASM_DONE);
    REQUIRE(push_one(&(one){N, ASM_INC, ASM_KIND_NUM, -1, "", 0}) == ASM_CLASH);
    are_alike();
    for (size_t i = 0; i < 2; i++)
        fire(&sides[i].other, "[['put',['n',1],5]]");
    commits(ASM_STALE);
    for (size_t i = 0; i < 2; i++) {
        uint32_t number;
        REQUIRE(asm_follow(&sides[i].agent, &number) == ASM_DONE && number == 2);
    }
    REQUIRE(push_one(&seven_puts) == ASM_MOVED);
    end_sides();
}

/* The 65th move, the 4,097th instruction, and the 257th place. */
static void limits(void) {
    static char text[1 << 17];
    size_t written;
    begin_sides();
    for (int i = 0; i < 64; i++)
        REQUIRE(push_one(&seven_puts) == ASM_DONE);
    REQUIRE(push_one(&seven_puts) == ASM_DEEP && push_one(&clashing) == ASM_DEEP);
    are_alike();
    begin_step();
    char *end = text;
    for (int i = 0; i < 4096; i++)
        end += sprintf(end, "%c[\"put\",[\"v\",%d],%d]", i ? ',' : '[', i, i);
    sprintf(end, "]");
    for (size_t i = 0; i < 2; i++)
        REQUIRE(asm_push(&sides[i].agent, &sides[i].step, bytes(text), strlen(text), NULL, 0, &written) ==
                ASM_DONE);
    REQUIRE(push_one(&seven_puts) == ASM_LONG_MOVE);
    REQUIRE(push_one(&(one){S, ASM_ADD, ASM_KIND_NUM, 2, "", 0}) == ASM_LONG_MOVE);
    are_alike();
    begin_step();
    end = text;
    for (int i = 0; i < 256; i++)
        end += sprintf(end, "%c[\"v\",%d]", i ? ',' : '[', i);
    sprintf(end, "]");
    for (size_t i = 0; i < 2; i++) {
        static uint8_t out[1 << 14];
        REQUIRE(asm_get(&sides[i].agent, &sides[i].step, bytes(text), strlen(text), out, sizeof out, &written) ==
                ASM_DONE);
    }
    REQUIRE(push_one(&clashing) == ASM_MANY && push_one(&seven_puts) == ASM_DONE);
    are_alike();
    end_sides();
}

/* A refused instruction comes before a slot without an agent or a step, and a slot without a location before it. */
static void order_of_codes(void) {
    void *others[] = {&sides[0].storage, &sides[0].agent, &sides[0].step, &at[X], &move};
    enum { COUNT = sizeof others / sizeof *others };
    begin_sides();
    for (size_t i = 0; i < COUNT * COUNT * COUNT * 2; i++) {
        void *of[] = {others[i / 2 % COUNT], others[i / 2 / COUNT % COUNT], others[i / 2 / COUNT / COUNT]};
        asm_slot was[] = {slot_of(of[0]), slot_of(of[1]), slot_of(of[2])};
        bool is_right = of[0] == others[1] && of[1] == others[2];
        int32_t wanted = of[2] != &at[X] ? ASM_EMPTY : i % 2 ? ASM_OPERAND : is_right ? ASM_DONE : ASM_EMPTY;
        ANSWERS(wanted, asm_push_at(of[0], of[1], of[2], ASM_PUT, ASM_KIND_NUM, 1, NULL, 0, i % 2, OUT));
        for (size_t k = 0; k < 3; k++)
            REQUIRE(is_same_slot(slot_of(of[k]), was[k]));
    }
    REQUIRE(asm_depth(&sides[0].step) == 1);
    end_sides();
}

int main(void) {
    each_instruction();
    effects();
    limits();
    order_of_codes();
    puts("passed");
    return 0;
}
