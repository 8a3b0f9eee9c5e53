/* Every call beside up to a million moves, two million receipts, 256 agents and 100,000 segments,
 * and on their journals: none is refused memory, the answers are right, and no cost grows too fast.
 */
#include "large.h"

enum { AGENTS = 256, CAPACITY = 1048576, READS = 256 };

static struct asm_storage storage, next;
static struct asm_agent agents[AGENTS];
static struct asm_step step;
static struct asm_location place;
static struct asm_move move;
static asm_numbers numbers;
static uint32_t number;

static const char increment[] = "{'fire':[['inc',['n'],1]],'reads':[]}";

static void open_counter(uint32_t capacity, size_t count) {
    DOES(LINEAR, asm_open(TEXT("[[['n'],0]]"), capacity, &storage));
    DOES(LINEAR, asm_agents(&storage, agents, count));
    REQUIRE(asm_location(TEXT("['n']"), &place) == ASM_DONE);
    REQUIRE(asm_instruct(&move, &place, ASM_INC, ASM_KIND_NUM, 1, NULL, 0, 0) == ASM_DONE);
}

static void end_all(void) {
    for (size_t i = 0; i < AGENTS; i++)
        asm_free_agent(&agents[i]);
    asm_free_step(&step);
    asm_free_location(&place);
    asm_free_move(&move);
    asm_free_storage(&storage);
    asm_free_storage(&next);
}

/* A step that increments the counter; its commit fires this move. */
static void commit_as(uint32_t fired) {
    REQUIRE(asm_begin(&agents[0], &step, &number) == ASM_DONE && number == fired - 1);
    REQUIRE(asm_push_move(&agents[0], &step, &move, SAID) == ASM_DONE);
    REQUIRE(asm_commit(&agents[0], &step, &numbers) == ASM_DONE && numbers.fired == fired);
}

/* Beside so many moves, each of which has incremented the counter, an agent acts as beside few. */
static void act(uint32_t moves) {
    DOES(SAME, asm_follow(&agents[0], &number));
    REQUIRE(number == moves);
    DOES(SAME, asm_read(&agents[0], TEXT("[['n']]")));
    SAYS(SAME, with("{'number':%zu,'values':[%zu]}", moves, moves), asm_answer(&agents[0], SAID));
    SAYS(SAME, "", asm_stands(&agents[0], WITH("[[['n'],%zu]]", moves, 0), SAID));
    DOES(SAME, asm_begin(&agents[0], &step, &number));
    SAYS(SAME, with("{'number':%zu,'values':[%zu]}", moves, moves),
         asm_get(&agents[0], &step, TEXT("[['n']]"), SAID));
    SAYS(SAME, "", asm_push_move(&agents[0], &step, &move, SAID));
    DOES(SAME, asm_commit(&agents[0], &step, &numbers));
    REQUIRE(numbers.fired == moves + 1);
    DOES(SAME, asm_begin(&agents[0], &step, &number));
    SAYS(SAME, "", asm_push_move(&agents[0], &step, &move, SAID));
    DOES(SAME, asm_commit_recorded(&agents[0], &step, &numbers));
    REQUIRE(numbers.fired == moves + 2);
}

/* Another agent follows, fires and learns, and its state goes to the first one. */
static void act_in_turn(uint32_t moves) {
    DOES(SAME, asm_follow(&agents[1], &number));
    REQUIRE(number == moves);
    DOES(SAME, asm_try_fire(&agents[1], TEXT(increment), &numbers));
    REQUIRE(numbers.fired == moves + 1);
    DOES(SAME,
         asm_try_fire_over(&agents[1], TEXT(increment), WITH("[['m',%zu]]", moves, 0), &numbers));
    REQUIRE(numbers.fired == moves + 2);
    DOES(SAME, asm_follow(&agents[1], &number));
    DOES(SAME, asm_learn(&agents[0], &agents[1]));
    DOES(SAME, asm_take_state(&agents[0], &agents[1]));
    SAYS(SAME, with("{'number':%zu,'values':[%zu]}", moves + 2, moves + 2),
         asm_peek(&agents[0], TEXT("[['n']]"), SAID));
    DOES(SAME, asm_give(&storage, &agents[1]));
    DOES(SAME, asm_take(&storage, 1, &agents[1]));
}

/* A close misses the move after so many that only an agent has seen that is freed. */
static void close_without_last(uint32_t moves) {
    int32_t code;
    REQUIRE(asm_try_fire(&agents[2], TEXT(increment), &numbers) == ASM_DONE);
    REQUIRE(numbers.fired == moves + 1);
    asm_free_agent(&agents[2]);
    DOES(SAME, asm_give(&storage, &agents[0]));
    DOES(SAME, asm_give(&storage, &agents[1]));
    COSTS(LINEAR, code = asm_close(&storage, &number));
    REQUIRE(code == ASM_MISSING && number == moves + 1);
}

static void call_beside_moves(size_t count) {
    uint32_t moves = (uint32_t)count;
    open_counter(CAPACITY, 2);
    for (uint32_t i = 1; i <= moves; i++)
        commit_as(i);
    DOES(LINEAR, asm_follow(&agents[1], &number));
    for (uint32_t i = 0; i < ROUNDS; i++) {
        act(moves + 4 * i);
        act_in_turn(moves + 4 * i + 2);
    }
    DOES(SAME, asm_agent(&storage, 2, &agents[2]));
    DOES(LINEAR, asm_read(&agents[2], TEXT("[['n']]")));
    DOES(LINEAR, asm_moves(&storage, &number));
    REQUIRE(number == moves + 4 * ROUNDS);
    close_without_last(number);
    end_all();
}

/* What is made of the journal of so many calls and moves, which leave this state. */
static void use_journal(text journal, uint64_t wanted_calls, uint32_t wanted_moves,
                        const char *state) {
    struct asm_audit audit = {0};
    asm_audit_numbers audited;
    uint64_t calls, line;
    uint32_t moves;
    size_t taken;
    DOES(LINEAR, asm_check(OF(journal), &calls, &moves));
    REQUIRE(calls == wanted_calls && moves == wanted_moves);
    DOES(LINEAR, asm_audit(&audit, OF(journal), &taken, &audited));
    DOES(SAME, asm_audited(&audit, &audited));
    REQUIRE(audited.parts == 1 && audited.calls == wanted_calls && audited.moves == wanted_moves);
    SAYS(LEVEL, state, asm_audit_state(&audit, SAID));
    SAYS(LINEAR, state, asm_replay(OF(journal), SAID, &line));
    asm_free_audit(&audit);
}

/* The trace has a line for each event behind its header. */
static void trace_all(text journal, size_t events) {
    uint64_t line;
    size_t lines = 0;
    DOES(LINEAR, asm_trace(OF(journal), SAID, &line));
    for (size_t i = 0; i < length; i++)
        lines += said[i] == '\n';
    REQUIRE(lines == events + 1);
}

/* A row is filled, closed, and continued from its journal and from an agent's state. */
static void call_on_full_row(size_t count) {
    uint32_t moves = (uint32_t)count;
    open_counter(moves, 1);
    for (uint32_t i = 1; i <= moves; i++)
        commit_as(i);
    REQUIRE(asm_try_fire(&agents[0], TEXT(increment), &numbers) == ASM_FULL);
    DOES(SAME, asm_follow(&agents[0], &number));
    DOES(LEVEL, asm_go_on(&agents[0], 1, &next));
    asm_free_storage(&next);
    DOES(SAME, asm_give(&storage, &agents[0]));
    DOES(LINEAR, asm_close(&storage, &number));
    DOES(LINEAR, asm_journal(&storage, SAID));
    DOES(LEVEL, asm_next(&storage, 1, &next));
    text journal = said_text();
    use_journal(journal, count + 1, moves, with("[[['n'],%zu]]", count, 0));
    trace_all(journal, count + 1);
    free(journal.at);
    end_all();
}

/* Reads of the same places share their list, and a close takes the receipts of all. */
static void call_beside_receipts(size_t count) {
    text places = list_of(",['f',%zu]", READS);
    open_counter(1, 1);
    for (size_t i = 0; i < count; i++)
        REQUIRE(asm_read(&agents[0], TEXT("[]")) == ASM_DONE);
    for (unsigned i = 0; i < ROUNDS; i++)
        DOES(SAME, asm_read(&agents[0], OF(places)));
    DOES(SAME, asm_answer(&agents[0], SAID));
    DOES(SAME, asm_give(&storage, &agents[0]));
    DOES(LINEAR, asm_close(&storage, &number));
    DOES(LINEAR, asm_journal(&storage, SAID));
    text journal = said_text();
    use_journal(journal, count + ROUNDS, 0, "[[['n'],0]]");
    trace_all(journal, count + ROUNDS);
    free(places.at);
    free(journal.at);
    end_all();
}

/* Agents that act one after the other, each of which has learnt of the one before. */
static void call_on_agents(size_t count) {
    open_counter(CAPACITY, count);
    for (size_t i = 0; i < count; i++) {
        if (i > 0)
            DOES(SAME, asm_take_state(&agents[i], &agents[i - 1]));
        REQUIRE(asm_begin(&agents[i], &step, &number) == ASM_DONE && number == i);
        REQUIRE(asm_push_move(&agents[i], &step, &move, SAID) == ASM_DONE);
        DOES(SAME, asm_commit(&agents[i], &step, &numbers));
        REQUIRE(numbers.fired == i + 1);
    }
    for (size_t i = 0; i < count; i++)
        DOES(LEVEL, asm_give(&storage, &agents[i]));
    DOES(LINEAR, asm_close(&storage, &number));
    DOES(LINEAR, asm_journal(&storage, SAID));
    text journal = said_text();
    use_journal(journal, count, (uint32_t)count, with("[[['n'],%zu]]", count, 0));
    trace_all(journal, count);
    for (size_t i = 0; i < count; i++)
        DOES(LEVEL, asm_take(&storage, (uint32_t)i, &agents[i]));
    free(journal.at);
    end_all();
}

/* A run of storages, each of which continues the one before; the audit takes their journals. */
static void call_on_segments(size_t count) {
    struct asm_audit audit = {0};
    asm_audit_numbers audited;
    size_t taken;
    open_counter(1, 1);
    for (size_t i = 0; i < count; i++) {
        REQUIRE(asm_try_fire(&agents[0], TEXT(increment), &numbers) == ASM_DONE);
        REQUIRE(asm_give(&storage, &agents[0]) == ASM_DONE);
        REQUIRE(asm_close(&storage, &number) == ASM_DONE);
        REQUIRE(asm_journal(&storage, SAID) == ASM_DONE);
        DOES(SAME, asm_audit(&audit, said, length, &taken, &audited));
        DOES(SAME, asm_next(&storage, 1, &next));
        asm_free_storage(&storage);
        storage = next;
        next = (struct asm_storage){0};
        REQUIRE(asm_agent(&storage, 0, &agents[0]) == ASM_DONE);
    }
    DOES(SAME, asm_audited(&audit, &audited));
    REQUIRE(audited.parts == count && audited.calls == count && audited.moves == count);
    SAYS(LEVEL, with("[[['n'],%zu]]", count, 0), asm_audit_state(&audit, SAID));
    asm_free_audit(&audit);
    end_all();
}

/* A run that saves, reads and drops so many segments. */
static void call_on_run(size_t count) {
    struct asm_run run = {0}, reader = {0};
    asm_audit_numbers read;
    asm_segment found;
    uint8_t name[256];
    uint64_t dropped;
    size_t len;
    open_counter(1, 1);
    REQUIRE(asm_run_open(&run) == ASM_DONE && asm_run_read(&run) == ASM_DONE);
    REQUIRE(asm_run_open(&reader) == ASM_DONE);
    for (size_t i = 0; i <= count; i++) {
        REQUIRE(!i || asm_try_fire(&agents[0], TEXT(increment), &numbers) == ASM_DONE);
        REQUIRE(asm_give(&storage, &agents[0]) == ASM_DONE);
        REQUIRE(asm_close(&storage, &number) == ASM_DONE);
        REQUIRE(asm_journal(&storage, SAID) == ASM_DONE);
        DOES(SAME, asm_run_hand(&run, i > 0, i > 0, said, length, name, sizeof name, &len));
        for (unsigned k = 0; k < 6; k++)
            DOES(SAME, asm_run_done(&run));
        DOES(SAME, asm_run_name(&reader, name, len, length, &found));
        DOES(SAME, asm_run_text(&reader, said, length));
        DOES(SAME, asm_run_end(&reader, &read));
        REQUIRE(asm_next(&storage, 1, &next) == ASM_DONE);
        asm_free_storage(&storage);
        storage = next;
        next = (struct asm_storage){0};
        REQUIRE(asm_agent(&storage, 0, &agents[0]) == ASM_DONE);
    }
    REQUIRE(read.parts == count + 1 && read.calls == count && read.moves == count);
    SAYS(LEVEL, with("[[['n'],%zu]]", count, 0), asm_run_state(&reader, SAID));
    DOES(SAME, asm_run_read(&reader));
    for (size_t i = 0; i < count; i++) {
        DOES(SAME, asm_run_drop(&reader, &dropped));
        REQUIRE(dropped == i && asm_run_done(&reader) == ASM_DONE);
        REQUIRE(asm_run_done(&reader) == ASM_DONE);
    }
    asm_free_run(&run);
    asm_free_run(&reader);
    end_all();
}

int main(int argc, char **argv) {
    static const size_t moves[SIZES] = {10, 1000, 1000000}, full[SIZES] = {10, 1000, 300000};
    static const size_t receipts[SIZES] = {10, 1000, 2100000}, makers[SIZES] = {2, 16, 256};
    static const size_t segments[SIZES] = {10, 1000, 100000};
    begin_test(argc, argv);
    at_each_size("moves", moves, call_beside_moves);
    at_each_size("moves of a full row", full, call_on_full_row);
    at_each_size("receipts", receipts, call_beside_receipts);
    at_each_size("agents", makers, call_on_agents);
    at_each_size("segments", segments, call_on_segments);
    at_each_size("segments of a run", segments, call_on_run);
    return compare_costs();
}
