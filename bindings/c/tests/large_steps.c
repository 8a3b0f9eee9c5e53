/* Every call on moves of up to 4,000 instructions, on steps of up to 4,000 extensions, 64 pushed
 * moves and 256 tracked locations, on long lines and announced numbers, and on two million polls:
 * none is refused memory, the answers are right, and no cost grows faster than the size. */
#include "large.h"

static struct asm_storage storage;
static struct asm_agent agents[2];
static struct asm_step step;
static struct asm_location place;
static struct asm_move move, other;
static asm_numbers numbers;
static uint32_t number;

static void open_all(const char *init, uint32_t capacity) {
    REQUIRE(asm_open(TEXT(init), capacity, &storage) == ASM_DONE);
    REQUIRE(asm_agents(&storage, agents, 2) == ASM_DONE);
    REQUIRE(asm_location(TEXT("['n']"), &place) == ASM_DONE);
}

static void end_all(void) {
    for (size_t i = 0; i < 2; i++)
        asm_free_agent(&agents[i]);
    asm_free_step(&step);
    asm_free_location(&place);
    asm_free_move(&move);
    asm_free_move(&other);
    asm_free_storage(&storage);
}

/* The text of a call of asm_try_fire. */
static text fire_of(text instructions) {
    text call = {0};
    append(&call, "{'fire':", 0);
    append_text(&call, &instructions);
    append(&call, ",'reads':[]}", 0);
    return call;
}

/* A move of this many instructions, as a text and in a slot. */
static void call_on_instructions(size_t count) {
    text puts = list_of(",['put',['f',%zu],1]", count), state = list_of(",[['f',%zu],1]", count);
    text sums = list_of(",['inc',['f',%zu],0]", count), call = fire_of(puts);
    open_all("[]", 100);
    DOES(LINEAR, asm_try_fire(&agents[0], OF(call), &numbers));
    DOES(LINEAR, asm_follow(&agents[1], &number));
    REQUIRE(asm_begin(&agents[0], &step, &number) == ASM_DONE);
    SAYS(LINEAR, "", asm_push(&agents[0], &step, OF(puts), SAID));
    SAYS(LINEAR, "", asm_extend(&agents[0], &step, OF(sums), SAID));
    DOES(LINEAR, asm_pop_move(&step, &move));
    REQUIRE(asm_instruct(&other, &place, ASM_PUT, ASM_KIND_NUM, 1, NULL, 0, 0) == ASM_DONE);
    DOES(LINEAR, asm_unite(&move, &other));
    SAYS(LINEAR, "", asm_push_move(&agents[0], &step, &move, SAID));
    SAYS(LINEAR, "", asm_extend_move(&agents[0], &step, &move, SAID));
    asm_free_move(&move);
    for (size_t i = 0; i < count; i++)
        REQUIRE(asm_instruct(&move, &place, ASM_PUT, ASM_KIND_NUM, 1, NULL, 0, 0) == ASM_DONE);
    for (size_t i = 0; i < ROUNDS; i++)
        DOES(LEVEL, asm_instruct(&move, &place, ASM_PUT, ASM_KIND_NUM, 1, NULL, 0, 0));
    DOES(LINEAR, asm_offer(&step, SAID));
    DOES(LINEAR, asm_commit(&agents[0], &step, &numbers));
    SHOWS(LINEAR, state, asm_aggregate(TEXT("[]"), OF(puts), SAID));
    SHOWS(LINEAR, puts, asm_compose(OF(puts), OF(puts), SAID));
    SAYS(LINEAR, "", asm_explain(ASM_FORM_MOVE, OF(call), SAID));
    free(puts.at);
    free(state.at);
    free(sums.at);
    free(call.at);
    end_all();
}

/* One more extension costs the same beside few and beside many, also by text and in a slot. */
static void call_beside_extensions(size_t count) {
    open_all("[[['n'],0]]", 100);
    REQUIRE(asm_instruct(&move, &place, ASM_INC, ASM_KIND_NUM, 1, NULL, 0, 0) == ASM_DONE);
    REQUIRE(asm_begin(&agents[0], &step, &number) == ASM_DONE);
    for (size_t i = 0; i < count; i++)
        REQUIRE(asm_extend(&agents[0], &step, WITH("[['put',['f',%zu],%zu]]", i, i), SAID) ==
                ASM_DONE);
    for (size_t i = 0; i < ROUNDS; i++) {
        SAYS(LEVEL, "", asm_extend(&agents[0], &step, WITH("[['put',['f',%zu],1]]", i, 0), SAID));
        SAYS(LEVEL, "", asm_extend_move(&agents[0], &step, &move, SAID));
        SAYS(LEVEL, with("{'number':0,'values':[%zu]}", i + 1, 0),
             asm_get(&agents[0], &step, TEXT("[['n']]"), SAID));
        SAYS(LEVEL, "", asm_push(&agents[0], &step, TEXT("[['put',['g'],1]]"), SAID));
        DOES(LEVEL, asm_pop(&step));
    }
    DOES(LINEAR, asm_offer(&step, SAID));
    DOES(LINEAR, asm_commit(&agents[0], &step, &numbers));
    DOES(LINEAR, asm_follow(&agents[1], &number));
    FILLS(LEVEL, strlen("{'number':1,'values':[1,5]}"),
          asm_peek(&agents[1], TEXT("[['f',1],['n']]"), SAID));
    end_all();
}

/* Moves that are pushed beside this many, and gets through them. */
static void call_beside_pushed(size_t count) {
    open_all("[[['n'],0]]", 100);
    REQUIRE(asm_begin(&agents[0], &step, &number) == ASM_DONE);
    for (size_t i = 0; i < count; i++)
        REQUIRE(asm_push(&agents[0], &step, WITH("[['inc',['n'],1],['put',['f',%zu],1]]", i, 0),
                         SAID) == ASM_DONE);
    for (size_t i = 0; i < ROUNDS; i++) {
        SAYS(LEVEL, with("{'number':0,'values':[%zu]}", count, 0),
             asm_get(&agents[0], &step, TEXT("[['n']]"), SAID));
        SAYS(LEVEL, "", asm_push(&agents[0], &step, TEXT("[['inc',['n'],1]]"), SAID));
        DOES(LEVEL, asm_pop_move(&step, &move));
        SAYS(LEVEL, "",
             asm_push_at(&agents[0], &step, &place, ASM_INC, ASM_KIND_NUM, 1, NULL, 0, 0, SAID));
        DOES(LEVEL, asm_pop(&step));
    }
    REQUIRE(asm_depth(&step) == count);
    DOES(LINEAR, asm_offer(&step, SAID));
    DOES(LINEAR, asm_commit(&agents[0], &step, &numbers));
    end_all();
}

/* Gets, fires and reads beside this many tracked locations. */
static void call_beside_places(size_t count) {
    text places = list_of(",['f',%zu]", count), named = list_of(",[['f',%zu],0]", count);
    open_all("[[['f',1],1]]", 100);
    REQUIRE(asm_begin(&agents[0], &step, &number) == ASM_DONE);
    DOES(LINEAR, asm_get(&agents[0], &step, OF(places), SAID));
    for (size_t i = 0; i < ROUNDS; i++)
        SAYS(LINEAR, "{'number':0,'values':[1]}",
             asm_get(&agents[0], &step, TEXT("[['f',1]]"), SAID));
    DOES(LINEAR, asm_offer(&step, SAID));
    DOES(LINEAR, asm_stands(&agents[0], OF(named), SAID));
    DOES(LINEAR, asm_read(&agents[0], OF(places)));
    DOES(LINEAR, asm_answer(&agents[0], SAID));
    DOES(LINEAR, asm_commit(&agents[0], &step, &numbers));
    free(places.at);
    free(named.at);
    end_all();
}

static const char header[] = "{'agents':1,'capacity':%zu,'events':%zu,'init':[],'version':2}\n";

/* No call reserves what a header only announces. */
static void call_on_header(size_t capacity, size_t events) {
    struct asm_audit audit = {0};
    asm_audit_numbers audited;
    uint64_t calls, line;
    uint32_t moves;
    size_t taken;
    text journal = {0};
    int32_t code;
    const char *format = with(header, capacity, events);
    append_many(&journal, 0, strlen(format));
    memcpy(journal.at, json(format), journal.length);
    COSTS(SAME, code = asm_check(OF(journal), &calls, &moves));
    REQUIRE(code == (events ? ASM_CUT : ASM_DONE));
    COSTS(SAME, code = asm_replay(OF(journal), SAID, &line));
    REQUIRE(code == (events ? ASM_CUT : ASM_DONE));
    COSTS(SAME, code = asm_trace(OF(journal), SAID, &line));
    REQUIRE(code == (events ? ASM_CUT : ASM_DONE));
    DOES(SAME, asm_audit(&audit, OF(journal), &taken, &audited));
    SAYS(SAME, "[]", asm_audit_state(&audit, SAID));
    COSTS(SAME, code = asm_audited(&audit, &audited));
    REQUIRE(code == (events ? ASM_CUT : ASM_DONE));
    asm_free_audit(&audit);
    free(journal.at);
}

static void call_on_capacity(size_t count) { call_on_header(count, 0); }
static void call_on_events(size_t count) { call_on_header(1000, count); }

/* A line of this many bytes, most of them blanks, that come in pieces. */
static void call_on_line(size_t count) {
    enum { PIECE = 4096 };
    struct asm_audit audit = {0};
    asm_audit_numbers audited;
    uint64_t calls, line_number;
    uint32_t moves;
    size_t taken;
    text journal = {0};
    append(&journal, "{'agents':1,'capacity':1,'events':1,'init':[],'version':2}\n{'agent':0,", 0);
    append_many(&journal, ' ', count);
    append(&journal, "'call':{'fire':[['put',['x'],1]],'reads':[]},'reply':{'fired':1}}\n", 0);
    start_cost();
    for (size_t first = 0; first < journal.length; first += taken) {
        size_t left = journal.length - first;
        REQUIRE(asm_audit(&audit, bytes(journal.at) + first, left < PIECE ? left : PIECE, &taken,
                          &audited) == ASM_DONE);
        REQUIRE(taken > 0);
    }
    end_cost("asm_audit in pieces", LINEAR);
    DOES(SAME, asm_audited(&audit, &audited));
    REQUIRE(audited.calls == 1 && audited.moves == 1);
    DOES(LINEAR, asm_check(OF(journal), &calls, &moves));
    REQUIRE(calls == 1 && moves == 1);
    SAYS(LINEAR, "[[['x'],1]]", asm_replay(OF(journal), SAID, &line_number));
    DOES(LINEAR, asm_trace(OF(journal), SAID, &line_number));
    SAYS(LINEAR, "",
         asm_explain(ASM_FORM_EVENT, bytes(strchr(journal.at, '\n') + 1),
                     journal.length - 1 - (size_t)(strchr(journal.at, '\n') + 1 - journal.at),
                     SAID));
    asm_free_audit(&audit);
    free(journal.at);
}

/* Fires one move. */
static void fire_nothing(void) {
    REQUIRE(asm_begin(&agents[0], &step, &number) == ASM_DONE);
    REQUIRE(asm_commit(&agents[0], &step, &numbers) == ASM_DONE);
}

/* Each poll finds the move that is there, after any number of polls that found one or none: the
 * first of the agents is at an even number of polls before each find, the next at an odd one, and
 * the last has missed a million before. */
static void poll_often(void) {
    enum { CAPACITY = 1048576, FOLLOWERS = 3, MISSES = 1048576 };
    struct asm_agent followers[FOLLOWERS] = {0};
    open_all("[]", CAPACITY);
    for (uint32_t i = 0; i < FOLLOWERS; i++)
        REQUIRE(asm_agent(&storage, 2 + i, &followers[i]) == ASM_DONE);
    REQUIRE(asm_follow(&followers[1], &number) == ASM_DONE);
    for (uint32_t i = 0; i < MISSES; i++)
        REQUIRE(asm_follow(&followers[2], &number) == ASM_DONE && number == 0);
    for (uint32_t i = 1; i <= CAPACITY; i++) {
        fire_nothing();
        for (size_t k = 0; k < FOLLOWERS; k++)
            REQUIRE(asm_follow(&followers[k], &number) == ASM_DONE && number == i);
    }
    REQUIRE(asm_misses(&followers[1]) == CAPACITY);
    REQUIRE(asm_misses(&followers[2]) == MISSES + CAPACITY - 1);
    for (size_t i = 0; i < FOLLOWERS; i++)
        asm_free_agent(&followers[i]);
    end_all();
}

int main(int argc, char **argv) {
    static const size_t instructions[SIZES] = {10, 400, 4000}, pushed[SIZES] = {1, 8, 63};
    static const size_t places[SIZES] = {4, 32, 256}, capacities[SIZES] = {1, 1000, 1048576};
    static const size_t events[SIZES] = {1, 1000, 4294967295},
                        blanks[SIZES] = {1000, 100000, 80000000};
    begin_test(argc, argv);
    at_each_size("instructions", instructions, call_on_instructions);
    at_each_size("extensions", instructions, call_beside_extensions);
    at_each_size("pushed moves", pushed, call_beside_pushed);
    at_each_size("tracked locations", places, call_beside_places);
    at_each_size("moves of an announced capacity", capacities, call_on_capacity);
    at_each_size("announced events", events, call_on_events);
    at_each_size("bytes of a line", blanks, call_on_line);
    if (is_part("polls"))
        poll_often();
    return compare_costs();
}
