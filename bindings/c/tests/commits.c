/* Steps of agents of two storages, moves behind a journal, and steady memory. What else commits fire, record and leave is in
 * bindings/conformance/commits.jsonl; steps that agents of one storage share, and several steps of one, are in misuse.c. */
#include "commits.h"

#include <sys/resource.h>

static void polls_agent(void) { ANSWERS(ASM_DONE, asm_stands(&agents[0], TEXT("[]"), OUT)); }

/* Calls of another storage's agent on a step have no meaning, but do no harm: after a push over
 * the one state, the commit on the other clashes, and both journals are legal. */
static void steps_of_another_storage(void) {
    struct asm_storage other = {0};
    struct asm_agent agent = {0};
    asm_numbers numbers = {9, 9, 9};
    begin_with(8);
    open_with("[[['x'],{'set':[]}]]", 8, &other);
    REQUIRE(asm_agent(&other, 0, &agent) == ASM_DONE);
    gets("['x']", 0, "7");
    ANSWERS(ASM_DONE, asm_push(&agent, &step, TEXT("[['add',['x'],1]]"), OUT));
    refused(ASM_CLASH, "{'clash':[['x'],'Kind']}");
    REQUIRE(asm_commit(&agent, &step, &numbers) == ASM_DONE && numbers.fired == 1);
    REQUIRE(asm_give(&other, &agent) == ASM_DONE);
    char *journal = journal_of(&other);
    is_legal(journal, 1, 1);
    free(journal);
    asm_free_storage(&other);
    journal_is("{'agent':0,'call':{'fire':[['add',['x'],1]],'reads':[[['x'],0]]},"
               "'reply':{'clash':[['x'],'Kind']}}\n",
               1, 0);
    end_all();
}

/* What was fired after a journal was closed is in no storage that continues from it. */
static void moves_after_the_journal(void) {
    struct asm_storage next = {0};
    struct asm_agent agent = {0};
    begin_with(8);
    fire(&agents[0], "[['put',['x'],1]]");
    REQUIRE(asm_give(&storage, &agents[0]) == ASM_DONE);
    free(journal_of(&storage));
    fire(&agents[1], "[['put',['x'],2]]");
    REQUIRE(asm_next(&storage, 8, &next) == ASM_DONE && asm_agent(&next, 0, &agent) == ASM_DONE);
    WRITES(ASM_DONE, "{'number':0,'values':[1]}", asm_peek(&agent, TEXT("[['x']]"), OUT));
    asm_free_agent(&agent);
    asm_free_storage(&next);
    end_all();
}

static long kilobytes(void) {
    struct rusage usage;
    REQUIRE(!getrusage(RUSAGE_SELF, &usage));
    return usage.ru_maxrss;
}

#ifndef ROUNDS
#define ROUNDS 50000
#endif

/* Fewer rounds, as under valgrind, which retains freed memory for a while, are not measured. */
enum { LONG = 10000 };

/* A call that leaves no receipt takes no memory permanently, however often it is repeated. */
static void steady_memory(void) {
    uint32_t number;
    begin_with(8);
    for (long round = 0, before = 0; round <= ROUNDS; round++) {
        if (round == ROUNDS / 10)
            before = kilobytes();
        gets("['x']", 0, "7");
        WRITES(ASM_DONE, "[[['c'],0]]", asm_step_scan(&agents[0], &step, TEXT("c"), OUT));
        push("[['add',['s'],2]]");
        gets("['s']", 0, "{'set':[1,2]}");
        pop();
        polls_agent();
        WRITES(ASM_DONE, opening, asm_state(&agents[0], &number, OUT));
        if (round % 8 == 0)
            begins_at(0);
        REQUIRE(round < LONG || round < ROUNDS || kilobytes() - before < 256);
    }
    end_all();
}

int main(void) {
    steps_of_another_storage();
    moves_after_the_journal();
    steady_memory();
    puts("passed");
    return 0;
}
