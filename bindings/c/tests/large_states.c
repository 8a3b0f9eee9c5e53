/* Every call on states of 10, 1,000 and 100,000 locations, and on values of as many elements and
 * bytes: none is refused memory, the answers are right, and no cost grows faster than the size. */
#include "large.h"

static struct asm_storage storage, next;
static struct asm_agent agents[3];
static struct asm_step step;
static struct asm_location place;
static struct asm_move move;
static asm_numbers numbers;
static asm_value value;
static uint32_t number, any;
static uint64_t found;

static void end_all(void) {
    for (size_t i = 0; i < sizeof agents / sizeof *agents; i++)
        asm_free_agent(&agents[i]);
    asm_free_step(&step);
    asm_free_location(&place);
    asm_free_move(&move);
    asm_free_storage(&storage);
    asm_free_storage(&next);
}

/* Moves put 1 at this many locations with the name g. */
static void write_all(size_t count) {
    enum { AT_ONCE = 4000 };
    for (size_t first = 0; first < count; first += AT_ONCE) {
        text it = {0};
        append(&it, "{'fire':[", 0);
        append_all(&it, ",['put',['g',%zu],1]", first,
                   first + AT_ONCE < count ? first + AT_ONCE : count);
        append(&it, "],'reads':[]}", 0);
        REQUIRE(asm_try_fire(&agents[0], OF(it), &numbers) == ASM_DONE);
        free(it.at);
    }
}

/* Reads and fires of one location, and how the others follow. */
static void call_agents(void) {
    number = asm_seen(&agents[0]);
    DOES(LEVEL, asm_read(&agents[0], TEXT("[['f',7]]")));
    SAYS(LEVEL, with("{'number':%zu,'values':[1]}", number, 0), asm_answer(&agents[0], SAID));
    SAYS(LEVEL, "", asm_stands(&agents[0], WITH("[[['f',7],%zu]]", number, 0), SAID));
    DOES(LEVEL,
         asm_try_fire(&agents[0],
                      WITH("{'fire':[['put',['f',7],1],['put',['g',7],1]],'reads':[[['f',7],%zu]]}",
                           number, 0),
                      &numbers));
    DOES(LEVEL, asm_follow(&agents[1], &number));
    SAYS(LEVEL, "[[['m',0],1]]", asm_scan(&agents[1], bytes("m"), 1, &number, SAID));
    DOES(LEVEL, asm_try_fire_over(&agents[1], TEXT("{'fire':[['inc',['f',3],0]],'reads':[]}"),
                                  WITH("[['m',%zu]]", number, 0), &numbers));
    DOES(LEVEL, asm_learn(&agents[0], &agents[1]));
    DOES(LEVEL, asm_take_state(&agents[0], &agents[1]));
    REQUIRE(asm_follow(&agents[0], &number) == ASM_DONE &&
            asm_follow(&agents[1], &number) == ASM_DONE);
    SAYS(LEVEL, with("{'number':%zu,'values':[1]}", number, 0),
         asm_peek(&agents[0], TEXT("[['g',3]]"), SAID));
    DOES(LEVEL, asm_peek_at(&agents[0], &place, &number, &value, SAID));
    DOES(LEVEL, asm_moves(&storage, &number));
    DOES(LEVEL, asm_give(&storage, &agents[2]));
    DOES(LEVEL, asm_take(&storage, 2, &agents[2]));
}

/* Functions are asked for a value: of the opening state, of moves, of pushed moves, and without any. */
static void ask_functions(void) {
    REQUIRE(asm_begin(&agents[0], &step, &number) == ASM_DONE);
    SAYS(LEVEL, "", asm_push(&agents[0], &step, TEXT("[['put',['f',1],null],['put',['own'],1]]"), SAID));
    DOES(LEVEL, asm_any(&agents[0], &step, bytes("f"), 1, &any));
    REQUIRE(any == 1);
    DOES(LEVEL, asm_any(&agents[0], &step, bytes("g"), 1, &any));
    REQUIRE(any == 1);
    DOES(LEVEL, asm_any(&agents[0], &step, bytes("m"), 1, &any));
    REQUIRE(any == 1);
    DOES(LEVEL, asm_any(&agents[0], &step, bytes("own"), 3, &any));
    REQUIRE(any == 1);
    DOES(LEVEL, asm_any(&agents[0], &step, bytes("h"), 1, &any));
    REQUIRE(any == 0);
    DOES(LEVEL, asm_count(&agents[0], &step, bytes("m"), 1, &found));
    REQUIRE(found == 1);
    asm_free_step(&step);
}

/* A step with every call on it. */
static void call_step(void) {
    DOES(LEVEL, asm_begin(&agents[0], &step, &number));
    SAYS(LEVEL, with("{'number':%zu,'values':[1]}", number, 0),
         asm_get(&agents[0], &step, TEXT("[['f',5]]"), SAID));
    SAYS(LEVEL, with("{'number':%zu,'values':[null]}", number, 0),
         asm_see(&agents[0], &step, TEXT("[['u',5]]"), SAID));
    DOES(LEVEL, asm_get_at(&agents[0], &step, &place, &value, SAID));
    REQUIRE(value.kind == ASM_KIND_NUM && value.number == 1);
    SAYS(LEVEL, "[[['m',0],1]]", asm_step_scan(&agents[0], &step, bytes("m"), 1, SAID));
    SAYS(LEVEL, "",
         asm_push(&agents[0], &step, TEXT("[['put',['f',1],1],['inc',['g',2],0]]"), SAID));
    SAYS(LEVEL, "", asm_extend(&agents[0], &step, TEXT("[['put',['g',3],1]]"), SAID));
    DOES(LEVEL, asm_pop_move(&step, &move));
    SAYS(LEVEL, "", asm_push_move(&agents[0], &step, &move, SAID));
    asm_free_move(&move);
    DOES(LEVEL, asm_instruct(&move, &place, ASM_INC, ASM_KIND_NUM, 0, NULL, 0, 0));
    SAYS(LEVEL, "", asm_extend_move(&agents[0], &step, &move, SAID));
    SAYS(LEVEL, "", (asm_push(&agents[0], &step, TEXT("[['inc',['f',2],5]]"), SAID)));
    DOES(LEVEL, asm_pop(&step));
    SAYS(LEVEL, "",
         asm_push_at(&agents[0], &step, &place, ASM_INC, ASM_KIND_NUM, 5, NULL, 0, 0, SAID));
    DOES(LEVEL, asm_pop(&step));
    REQUIRE(asm_depth(&step) == 1);
    DOES(LEVEL, asm_offer(&step, SAID));
    DOES(LEVEL, asm_commit(&agents[0], &step, &numbers));
    asm_free_move(&move);
    REQUIRE(asm_begin(&agents[0], &step, &number) == ASM_DONE);
    REQUIRE(asm_get(&agents[0], &step, TEXT("[['f',5],['g',6]]"), SAID) == ASM_DONE);
    DOES(LEVEL, asm_commit_recorded(&agents[0], &step, &numbers));
}

/* The calls that write all of a state, or of a function of it. */
static void call_all(size_t many) {
    text places = list_of(",['f',%zu]", many), state = {0},
         function = list_of(",[['f',%zu],1]", many);
    append(&state, "[", 0);
    append_all(&state, ",[['f',%zu],1]", 0, many);
    append_all(&state, ",[['g',%zu],1]", 0, many);
    append(&state, ",[['m',0],1]]", 0);
    DOES(LINEAR, asm_follow(&agents[0], &number));
    FILLS(LINEAR, strlen(with("{'number':%zu,'values':[]}", number, 0)) + 2 * many - 1,
          asm_peek(&agents[0], OF(places), SAID));
    SHOWS(LINEAR, state, asm_state(&agents[0], &number, SAID));
    SHOWS(LINEAR, function, asm_scan(&agents[0], bytes("f"), 1, &number, SAID));
    DOES(LINEAR, asm_begin(&agents[0], &step, &number));
    FILLS(LINEAR, strlen(with("{'number':%zu,'values':[]}", number, 0)) + 2 * many - 1,
          asm_see(&agents[0], &step, OF(places), SAID));
    SHOWS(LINEAR, function, asm_step_scan(&agents[0], &step, bytes("f"), 1, SAID));
    DOES(WALK, asm_count(&agents[0], &step, bytes("f"), 1, &found));
    REQUIRE(found == many);
    DOES(WALK, asm_count(&agents[0], &step, bytes("g"), 1, &found));
    REQUIRE(found == many);
    asm_free_step(&step);
    free(places.at);
    free(function.at);
    free(state.at);
}

/* What is made of a closed storage, and of its journal. */
static void close_all(void) {
    struct asm_audit audit = {0};
    asm_audit_numbers audited;
    uint64_t calls, line;
    uint32_t moves;
    size_t taken;
    REQUIRE(asm_state(&agents[0], &number, SAID) == ASM_DONE);
    text state = said_text();
    for (size_t i = 0; i < sizeof agents / sizeof *agents; i++)
        REQUIRE(asm_give(&storage, &agents[i]) == ASM_DONE);
    DOES(LINEAR, asm_close(&storage, &number));
    DOES(LINEAR, asm_journal(&storage, SAID));
    text journal = said_text();
    DOES(LINEAR, asm_next(&storage, 1, &next));
    DOES(LINEAR, asm_check(OF(journal), &calls, &moves));
    REQUIRE(moves > 2 * ROUNDS && calls > moves);
    DOES(LINEAR, asm_audit(&audit, OF(journal), &taken, &audited));
    DOES(LEVEL, asm_audited(&audit, &audited));
    REQUIRE(audited.moves == moves && audited.calls == calls && audited.parts == 1);
    SHOWS(LINEAR, state, asm_audit_state(&audit, SAID));
    SHOWS(LINEAR, state, asm_replay(OF(journal), SAID, &line));
    DOES(LINEAR, asm_trace(OF(journal), SAID, &line));
    SAYS(LINEAR, "", asm_explain(ASM_FORM_STATE, OF(state), SAID));
    SAYS(LINEAR, "[[['f',3],2]]", asm_aggregate(OF(state), TEXT("[['inc',['f',3],1]]"), SAID));
    asm_free_audit(&audit);
    free(state.at);
    free(journal.at);
}

static void call_on_locations(size_t count) {
    text state = list_of(",[['f',%zu],1]", count);
    state.length--;
    append(&state, ",[['m',0],1]]", 0);
    DOES(LINEAR, asm_open(OF(state), 1000, &storage));
    DOES(LEVEL, asm_agent(&storage, 2, &agents[2]));
    DOES(LEVEL, asm_agents(&storage, agents, 2));
    DOES(LEVEL, asm_location(TEXT("['g',9]"), &place));
    COSTS(LINEAR, write_all(count));
    COSTS(LINEAR, REQUIRE(asm_follow(&agents[1], &number) == ASM_DONE));
    for (unsigned i = 0; i < ROUNDS; i++) {
        call_agents();
        call_step();
        ask_functions();
    }
    call_all(count);
    close_all();
    free(state.at);
    end_all();
}

int main(int argc, char **argv) {
    static const size_t counts[SIZES] = {10, 1000, 100000};
    begin_test(argc, argv);
    at_each_size("locations", counts, call_on_locations);
    return compare_costs();
}
