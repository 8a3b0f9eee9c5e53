/* Shared parts of the tests of commits: a storage with two agents, and the first one's step. */
#ifndef COMMITS_H
#define COMMITS_H

#include "tests.h"

static const char *const opening = "[[['c'],0],[['s'],{'set':[1]}],[['x'],7],[['y'],9]]";

static struct asm_storage storage;
static struct asm_agent agents[2];
static struct asm_step step;

static inline void begin_with(uint32_t capacity) {
    uint32_t number = 9;
    open_with(opening, capacity, &storage);
    REQUIRE(asm_agents(&storage, agents, 2) == ASM_DONE);
    REQUIRE(asm_begin(&agents[0], &step, &number) == ASM_DONE && number == 0);
}

static inline void end_all(void) {
    asm_free_storage(&storage);
    asm_free_agent(&agents[0]);
    asm_free_agent(&agents[1]);
    asm_free_step(&step);
}

static inline void begins_at(uint32_t wanted) {
    uint32_t number = 99;
    REQUIRE(asm_begin(&agents[0], &step, &number) == ASM_DONE && number == wanted);
    REQUIRE(asm_depth(&step) == 0);
}

static inline void push(const char *instructions) {
    ANSWERS(ASM_DONE, asm_push(&agents[0], &step, TEXT(instructions), OUT));
}

static inline void pop(void) { REQUIRE(asm_pop(&step) == ASM_DONE); }

/* The value read at the location, at this number. */
static inline void gets(const char *location, uint32_t number, const char *value) {
    char locations[64], text[128];
    snprintf(locations, sizeof locations, "[%s]", location);
    snprintf(text, sizeof text, "{'number':%" PRIu32 ",'values':[%s]}", number, value);
    WRITES(ASM_DONE, text, asm_get(&agents[0], &step, TEXT(locations), OUT));
}

/* asm_commit or asm_commit_recorded. */
typedef int32_t commit_call(struct asm_agent *agent, struct asm_step *step, asm_numbers *numbers);

/* The commit is refused with this code and this answer, and the step stays. */
static inline void refused_by(commit_call *commit, int32_t wanted, const char *answer) {
    asm_slot was[2] = {agents[0].slot, step.slot};
    asm_numbers numbers = {9, 9, 9};
    uint32_t depth = asm_depth(&step), won = asm_won(&agents[0]);
    REQUIRE(commit(&agents[0], &step, &numbers) == wanted);
    REQUIRE(numbers.fired == 0 && numbers.from == 0 && numbers.to == 0);
    REQUIRE(is_same(agents[0], was[0]) && is_same(step, was[1]));
    REQUIRE(asm_depth(&step) == depth && asm_won(&agents[0]) == won);
    if (answer)
        WRITES(ASM_DONE, answer, asm_answer(&agents[0], OUT));
}

static inline void refused(int32_t wanted, const char *answer) {
    refused_by(asm_commit, wanted, answer);
}

/* The commit fires the move with this number; the step is over, and its slot is empty. */
static inline void fired_by(commit_call *commit, uint32_t move) {
    char answer[32];
    asm_numbers numbers = {9, 9, 9};
    uint32_t won = asm_won(&agents[0]);
    REQUIRE(commit(&agents[0], &step, &numbers) == ASM_DONE);
    REQUIRE(numbers.fired == move && numbers.from == 0 && numbers.to == 0);
    REQUIRE(!step.slot.full && step.slot.at == NULL && asm_depth(&step) == 0);
    REQUIRE(asm_won(&agents[0]) == won + 1 && asm_seen(&agents[0]) == move);
    snprintf(answer, sizeof answer, "{'fired':%" PRIu32 "}", move);
    WRITES(ASM_DONE, answer, asm_answer(&agents[0], OUT));
    ANSWERS(ASM_EMPTY, asm_get(&agents[0], &step, TEXT("[]"), OUT));
    REQUIRE(asm_pop(&step) == ASM_EMPTY);
}

static inline void fired(uint32_t move) { fired_by(asm_commit, move); }

/* The recorded commit returns ASM_MANY, and nothing changes: the agent has no further receipt, and
 * has seen no more. */
static inline void records_nothing(void) {
    asm_slot was[2] = {agents[0].slot, step.slot};
    asm_numbers numbers = {9, 9, 9};
    uint32_t depth = asm_depth(&step), won = asm_won(&agents[0]), seen = asm_seen(&agents[0]);
    REQUIRE(asm_commit_recorded(&agents[0], &step, &numbers) == ASM_MANY);
    REQUIRE(numbers.fired == 0 && numbers.from == 0 && numbers.to == 0);
    REQUIRE(is_same(agents[0], was[0]) && is_same(step, was[1]) && asm_depth(&step) == depth);
    REQUIRE(asm_won(&agents[0]) == won && asm_seen(&agents[0]) == seen);
    ANSWERS(ASM_NO_ANSWER, asm_answer(&agents[0], OUT));
}

/* Everything after the header in the journal of both agents. */
static inline void journal_is(const char *events, uint64_t calls, uint32_t moves) {
    REQUIRE(asm_give(&storage, &agents[0]) == ASM_DONE);
    REQUIRE(asm_give(&storage, &agents[1]) == ASM_DONE);
    char *journal = journal_of(&storage);
    is_legal(journal, calls, moves);
    const char *found = strchr(journal, '\n') + 1;
    if (strcmp(found, json(events))) {
        fprintf(stderr, "%s: found\n%swanted\n%s", __FILE__, found, json(events));
        exit(1);
    }
    free(journal);
}

#endif
