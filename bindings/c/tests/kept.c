/* What a storage retains of calls by text, for each call. A call holds the locations of its text as
 * the agent's own state holds them, so that the entry and the receipt have no copies of them.
 *
 * Memory is counted by glibc. Where another allocator takes its place, as memcheck's does, the
 * calls are made and nothing is compared. */
#include "commits.h"

#include <malloc.h>

enum { CALLS = 1000, MISSED = 100 };

/* An argument in a text that takes memory. */
#define ACCOUNT "['account','of a text that takes memory',1]"
#define PUT "['put'," ACCOUNT ",7]"

/* Makes the calls, and compares what they retain, for each. */
#define RETAINS(most, calls) retains((most), (calls), #calls, __FILE__, __LINE__)

static void retains(size_t most, void (*calls)(void), const char *what, const char *file,
                    int line) {
    open_with("[[" ACCOUNT ",7]]", 4 * CALLS, &storage);
    REQUIRE(asm_agents(&storage, agents, 2) == ASM_DONE);
    size_t before = mallinfo2().uordblks;
    calls();
    size_t each = (mallinfo2().uordblks - before) / CALLS;
    end_all();
    if (before == 0 || (each >= MISSED && each <= most))
        return;
    fprintf(stderr, "%s: line %d: %s: %zu bytes for each, and at most %zu wanted\n", file, line,
            what, each, most);
    exit(1);
}

static void commits(void) {
    asm_numbers numbers;
    REQUIRE(asm_commit(&agents[0], &step, &numbers) == ASM_DONE);
}

static void fires_of_moves(void) {
    for (unsigned i = 0; i < CALLS; i++)
        fire(&agents[0], "[" PUT "]");
}

/* The declared read is stale, so the reply has a location too. */
static void stale_fires(void) {
    asm_numbers numbers;
    const char *move = "{'fire':[" PUT "],'reads':[[" ACCOUNT ",0]]}";
    fire(&agents[0], "[" PUT "]");
    for (unsigned i = 0; i < CALLS; i++)
        REQUIRE(asm_try_fire(&agents[0], TEXT(move), &numbers) == ASM_STALE);
}

static void pushes(void) {
    for (unsigned i = 0; i < CALLS; i++) {
        begins_at(i);
        push("[" PUT "]");
        commits();
    }
}

static void steps(void) {
    for (unsigned i = 0; i < CALLS; i++) {
        begins_at(i);
        gets(ACCOUNT, i, "7");
        push("[" PUT "]");
        commits();
    }
}

/* A receipt shares the list of the read before, if the two are equal; these aren't. */
static void reads_by_turns(void) {
    for (unsigned i = 0; i < CALLS; i++) {
        const char *locations = i % 2 ? "[" ACCOUNT "]" : "[" ACCOUNT "," ACCOUNT "]";
        REQUIRE(asm_read(&agents[0], TEXT(locations)) == ASM_DONE);
    }
}

int main(void) {
    RETAINS(200, fires_of_moves);
    RETAINS(405, stale_fires);
    RETAINS(440, pushes);
    RETAINS(440, steps);
    RETAINS(580, reads_by_turns);
    return 0;
}
