/* Every call on sets and bags of 10, 1,000 and 100,000 elements, and on texts of up to a million
 * bytes: none is refused memory, the answers are right, and no cost grows faster than the size. */
#include "large.h"

/* What one addition to a large set or bag costs: it copies the list of the value's chunks. */
#define ADDITION LINEAR

enum { AGENTS = 2, KINDS = 3 };

static struct asm_storage storage;
static struct asm_agent agents[AGENTS];
static struct asm_step step;
static struct asm_location places[KINDS];
static struct asm_move move;
static asm_numbers numbers;
static uint32_t number;

/* The values of the locations s, b and t, and the state of them. */
static text values[KINDS], state;

static void make_values(size_t elements, size_t characters) {
    append(&values[0], "{'set':[", 0);
    append_all(&values[0], ",%zu", 0, elements);
    append(&values[0], "]}", 0);
    append(&values[1], "{'bag':[", 0);
    append_all(&values[1], ",[%zu,1]", 0, elements);
    append(&values[1], "]}", 0);
    append(&values[2], "'", 0);
    append_many(&values[2], 'x', characters);
    append(&values[2], "'", 0);
    append(&state, "[[['b'],", 0);
    append_text(&state, &values[1]);
    append(&state, "],[['s'],", 0);
    append_text(&state, &values[0]);
    append(&state, "],[['t'],", 0);
    append_text(&state, &values[2]);
    append(&state, "]]", 0);
}

/* The text of an answer with one of the values. */
static text answer_with(uint32_t number, const text *value) {
    text it = {0};
    append(&it, "{'number':%zu,'values':[", number);
    append_text(&it, value);
    append(&it, "]}", 0);
    return it;
}

static void open_all(void) {
    static const char *const names[KINDS] = {"['s']", "['b']", "['t']"};
    DOES(LINEAR, asm_open(OF(state), 1000, &storage));
    DOES(SAME, asm_agents(&storage, agents, AGENTS));
    for (size_t i = 0; i < KINDS; i++)
        REQUIRE(asm_location(TEXT(names[i]), &places[i]) == ASM_DONE);
}

static void end_all(void) {
    for (size_t i = 0; i < AGENTS; i++)
        asm_free_agent(&agents[i]);
    for (size_t i = 0; i < KINDS; i++) {
        asm_free_location(&places[i]);
        free(values[i].at);
        values[i] = (text){0};
    }
    free(state.at);
    state = (text){0};
    asm_free_step(&step);
    asm_free_storage(&storage);
}

/* An element of a set or a bag is counted, and all of them: only those of a bag are walked over. */
static void count_in(size_t i) {
    uint32_t count;
    uint64_t size;
    DOES(SAME, asm_count_of(&agents[0], &step, &places[i], ASM_KIND_NUM, 7, NULL, 0, &count));
    REQUIRE(count == 1);
    if (i == 0)
        DOES(SAME, asm_size(&agents[0], &step, &places[0], &size));
    else
        DOES(LINEAR, asm_size(&agents[0], &step, &places[1], &size));
    REQUIRE(size >= 10);
}

/* Each value is read in each way. */
static void read_all(const char *const *held) {
    const char *all = costs.held;
    static const char *const names[KINDS] = {"[['s']]", "[['b']]", "[['t']]"};
    asm_value value;
    for (size_t i = 0; i < KINDS; i++) {
        REQUIRE(asm_follow(&agents[0], &number) == ASM_DONE);
        text answer = answer_with(number, &values[i]);
        bool is_text = i == 2;
        size_t in_value = values[i].length - 2 * is_text;
        costs.held = held[i];
        DOES(LINEAR, asm_read(&agents[0], TEXT(names[i])));
        SHOWS(LINEAR, answer, asm_answer(&agents[0], SAID));
        SHOWS(LINEAR, answer, asm_peek(&agents[0], TEXT(names[i]), SAID));
        FILLS(LINEAR, in_value, asm_peek_at(&agents[0], &places[i], &number, &value, SAID));
        REQUIRE(asm_begin(&agents[0], &step, &number) == ASM_DONE);
        SHOWS(LINEAR, answer, asm_get(&agents[0], &step, TEXT(names[i]), SAID));
        SHOWS(LINEAR, answer, asm_see(&agents[0], &step, TEXT(names[i]), SAID));
        FILLS(LINEAR, in_value, asm_get_at(&agents[0], &step, &places[i], &value, SAID));
        if (!is_text)
            count_in(i);
        FILLS(LINEAR, values[i].length + strlen("[[['s'],]]"),
              asm_scan(&agents[0], bytes(names[i]) + 3, 1, &number, SAID));
        FILLS(LINEAR, values[i].length + strlen("[[['s'],]]"),
              asm_step_scan(&agents[0], &step, bytes(names[i]) + 3, 1, SAID));
        DOES(LINEAR, asm_commit_recorded(&agents[0], &step, &numbers));
        free(answer.at);
    }
    costs.held = all;
}

/* An element comes to one of the values and goes again, by fires, which other agents follow. */
static void change_one(const char *addition, const char *removal) {
    DOES(LEVEL, asm_try_fire(&agents[0], TEXT(addition), &numbers));
    DOES(LEVEL, asm_follow(&agents[0], &number));
    DOES(LEVEL, asm_follow(&agents[1], &number));
    DOES(LEVEL, asm_try_fire(&agents[1], TEXT(removal), &numbers));
    DOES(LEVEL, asm_follow(&agents[1], &number));
    DOES(LEVEL, asm_follow(&agents[0], &number));
}

/* The same in a step, for both values at once. */
static void change_both(void) {
    DOES(SAME, asm_begin(&agents[0], &step, &number));
    SAYS(ADDITION, "",
         asm_push(&agents[0], &step, TEXT("[['add',['s'],-2],['bagadd',['b'],-2,1]]"), SAID));
    SAYS(ADDITION, "", asm_extend(&agents[0], &step, TEXT("[['add',['s'],-3]]"), SAID));
    SAYS(ADDITION, "", asm_extend(&agents[0], &step, TEXT("[['bagadd',['b'],-3,1]]"), SAID));
    SAYS(LEVEL, "", asm_extend(&agents[0], &step, TEXT("[['add',['s'],-4]]"), SAID));
    SAYS(LEVEL, "", asm_extend(&agents[0], &step, TEXT("[['bagadd',['b'],-4,1]]"), SAID));
    DOES(ADDITION, asm_pop_move(&step, &move));
    SAYS(ADDITION, "", asm_push_move(&agents[0], &step, &move, SAID));
    DOES(SAME, asm_offer(&step, SAID));
    DOES(ADDITION, asm_commit(&agents[0], &step, &numbers));
    asm_free_move(&move);
    DOES(ADDITION, asm_follow(&agents[1], &number));
    for (int i = 2; i <= 4; i++)
        REQUIRE(asm_try_fire(
                    &agents[1],
                    WITH("{'fire':[['remove',['s'],-%zu],['bagremove',['b'],-%zu,1]],'reads':[]}",
                         (size_t)i, (size_t)i),
                    &numbers) == ASM_DONE);
}

static void change_all(const char *const *held) {
    const char *all = costs.held;
    costs.held = held[0];
    change_one("{'fire':[['add',['s'],-1]],'reads':[]}",
               "{'fire':[['remove',['s'],-1]],'reads':[]}");
    costs.held = held[1];
    change_one("{'fire':[['bagadd',['b'],-1,1]],'reads':[]}",
               "{'fire':[['bagremove',['b'],-1,1]],'reads':[]}");
    costs.held = all;
    change_both();
}

/* Each value is put as a whole. */
static void put_all(void) {
    static const int32_t kinds[KINDS] = {ASM_KIND_SET, ASM_KIND_BAG, ASM_KIND_TEXT};
    REQUIRE(asm_begin(&agents[0], &step, &number) == ASM_DONE);
    for (size_t i = 0; i < KINDS; i++) {
        bool is_text = i == 2;
        DOES(LINEAR,
             asm_instruct(&move, &places[i], ASM_PUT, kinds[i], 0, bytes(values[i].at) + is_text,
                          values[i].length - 2 * is_text, 0));
    }
    SAYS(LINEAR, "", asm_push_move(&agents[0], &step, &move, SAID));
    for (size_t i = 0; i < KINDS; i++) {
        bool is_text = i == 2;
        SAYS(LINEAR, "",
             asm_push_at(&agents[0], &step, &places[i], ASM_PUT, kinds[i], 0,
                         bytes(values[i].at) + is_text, values[i].length - 2 * is_text, 0, SAID));
    }
    DOES(LINEAR, asm_offer(&step, SAID));
    DOES(LINEAR, asm_commit(&agents[0], &step, &numbers));
    DOES(LINEAR, asm_follow(&agents[0], &number));
    SHOWS(LINEAR, state, asm_state(&agents[0], &number, SAID));
    asm_free_move(&move);
}

/* Moves on values alone, and what a call's text says. */
static void use_texts(void) {
    text instructions = {0}, call = {0};
    append(&instructions, "[['put',['s'],", 0);
    append_text(&instructions, &values[0]);
    append(&instructions, "]]", 0);
    append(&call, "{'fire':", 0);
    append_text(&call, &instructions);
    append(&call, ",'reads':[]}", 0);
    FILLS(LINEAR, values[0].length + 3 + strlen("[[['s'],]]"),
          asm_aggregate(OF(state), TEXT("[['add',['s'],-1]]"), SAID));
    FILLS(LINEAR, instructions.length + 3,
          asm_compose(OF(instructions), TEXT("[['add',['s'],-1]]"), SAID));
    SAYS(LINEAR, "", asm_explain(ASM_FORM_MOVE, OF(call), SAID));
    DOES(LINEAR, asm_try_fire(&agents[0], OF(call), &numbers));
    free(instructions.at);
    free(call.at);
}

/* What is made of the journal of the closed storage, whose moves leave this state. */
static void use_journal(text left) {
    struct asm_audit audit = {0};
    asm_audit_numbers audited;
    uint64_t calls, line;
    uint32_t moves;
    size_t taken;
    for (size_t i = 0; i < AGENTS; i++)
        REQUIRE(asm_give(&storage, &agents[i]) == ASM_DONE);
    DOES(LINEAR, asm_close(&storage, &number));
    DOES(LINEAR, asm_journal(&storage, SAID));
    text journal = said_text();
    DOES(LINEAR, asm_check(OF(journal), &calls, &moves));
    DOES(LINEAR, asm_audit(&audit, OF(journal), &taken, &audited));
    DOES(SAME, asm_audited(&audit, &audited));
    REQUIRE(audited.calls == calls && audited.moves == moves && moves >= 10);
    SHOWS(LINEAR, left, asm_audit_state(&audit, SAID));
    SHOWS(LINEAR, left, asm_replay(OF(journal), SAID, &line));
    DOES(LINEAR, asm_trace(OF(journal), SAID, &line));
    asm_free_audit(&audit);
    free(journal.at);
}

static void call_on_values(const char *const *held, size_t elements, size_t characters) {
    make_values(elements, characters);
    open_all();
    for (unsigned i = 0; i < ROUNDS; i++) {
        if (i < 2)
            read_all(held);
        change_all(held);
        for (size_t k = 0; k < AGENTS; k++)
            REQUIRE(asm_follow(&agents[k], &number) == ASM_DONE);
    }
    put_all();
    use_texts();
    use_journal(state);
    end_all();
}

static void call_on_elements(size_t count) {
    static const char *const held[KINDS] = {"elements of the set", "elements of the bag",
                                            "elements beside a text"};
    call_on_values(held, count, 10);
}

static void call_on_characters(size_t count) {
    static const char *const held[KINDS] = {"characters beside a set", "characters beside a bag",
                                            "characters of the text"};
    call_on_values(held, 10, count);
}

/* A set and a bag that grow by one element at a time, beside a value of so many elements. */
static void call_on_additions(size_t count) {
    make_values(count, 10);
    REQUIRE(asm_open(TEXT("[[['b'],{'bag':[]}],[['s'],{'set':[]}],[['t'],'xxxxxxxxxx']]"), 1000000,
                     &storage) == ASM_DONE);
    REQUIRE(asm_agents(&storage, agents, AGENTS) == ASM_DONE);
    start_cost();
    for (size_t i = 0; i < count; i++) {
        REQUIRE(asm_try_fire(&agents[0], WITH("{'fire':[['add',['s'],%zu]],'reads':[]}", i, 0),
                             &numbers) == ASM_DONE);
        REQUIRE(asm_try_fire(&agents[0], WITH("{'fire':[['bagadd',['b'],%zu,1]],'reads':[]}", i, 0),
                             &numbers) == ASM_DONE);
    }
    end_cost("fires of all additions", LINEAR);
    DOES(LINEAR, asm_follow(&agents[1], &number));
    SHOWS(LINEAR, state, asm_state(&agents[1], &number, SAID));
    use_journal(state);
    end_all();
}

int main(int argc, char **argv) {
    static const size_t counts[SIZES] = {10, 1000, 100000},
                        characters[SIZES] = {10, 10000, 1000000};
    begin_test(argc, argv);
    at_each_size("elements", counts, call_on_elements);
    at_each_size("additions", counts, call_on_additions);
    at_each_size("characters", characters, call_on_characters);
    return compare_costs();
}
