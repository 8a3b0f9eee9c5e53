/* Agents that one thread plays by turns: each takes the state of the one that acted last, begins a
 * step, gets a location, pushes one put, and commits. A line for each number of agents has the
 * median of the nanoseconds that a move took, and its ratio to that of one agent. With --kept it
 * has the bytes that a move of one agent leaves in the storage, and plays MOVES moves.
 *
 *     turns [--quick | --kept MOVES] */
#include "folugben.h"

#include <inttypes.h>
#include <malloc.h>
#include <stdio.h>
#include <stdlib.h>
#include <string.h>
#include <time.h>

enum { MOST_AGENTS = 256, LOCATIONS = 64, ROUNDS = 9, MOVES = 100000, QUICK_MOVES = 20000 };

#define REQUIRE(holds) require((holds), #holds, __LINE__)

static struct asm_storage storage;
static struct asm_agent agents[MOST_AGENTS];
static struct asm_step step;
static struct asm_move move;
static struct asm_location at[LOCATIONS];
static size_t retained;

static void require(bool holds, const char *what, int line) {
    if (!holds) {
        fprintf(stderr, "turns: line %d: %s\n", line, what);
        exit(1);
    }
}

static double now(void) {
    struct timespec time;
    clock_gettime(CLOCK_MONOTONIC, &time);
    return 1e9 * (double)time.tv_sec + (double)time.tv_nsec;
}

static void add_one(struct asm_agent *agent, struct asm_location *place) {
    uint32_t number;
    size_t written;
    asm_value value;
    asm_numbers numbers;
    REQUIRE(asm_begin(agent, &step, &number) == ASM_DONE);
    REQUIRE(asm_get_at(agent, &step, place, &value, NULL, 0, &written) == ASM_DONE);
    REQUIRE(asm_instruct(&move, place, ASM_PUT, ASM_KIND_NUM, value.number + 1, NULL, 0, 0) ==
            ASM_DONE);
    REQUIRE(asm_push_move(agent, &step, &move, NULL, 0, &written) == ASM_DONE);
    asm_free_move(&move);
    REQUIRE(asm_commit(agent, &step, &numbers) == ASM_DONE);
}

/* The nanoseconds that one of this many moves takes, by this many agents by turns. */
static double time_of(size_t count, uint32_t moves) {
    const char *init = "[]";
    char place[16];
    REQUIRE(asm_open((const uint8_t *)init, strlen(init), LOCATIONS + moves, &storage) == ASM_DONE);
    REQUIRE(asm_agents(&storage, agents, count) == ASM_DONE);
    for (size_t i = 0; i < LOCATIONS; i++) {
        int length = snprintf(place, sizeof place, "[\"x\",%zu]", i);
        REQUIRE(asm_location((const uint8_t *)place, (size_t)length, &at[i]) == ASM_DONE);
        add_one(&agents[0], &at[i]);
    }
    size_t last = 0;
    size_t used_before = mallinfo2().uordblks;
    double begin = now();
    for (uint32_t i = 0; i < moves; i++) {
        size_t next = (last + 1) % count;
        if (next != last)
            REQUIRE(asm_take_state(&agents[next], &agents[last]) == ASM_DONE);
        add_one(&agents[next], &at[i % LOCATIONS]);
        last = next;
    }
    double time = (now() - begin) / moves;
    retained = mallinfo2().uordblks - used_before;
    for (size_t i = 0; i < count; i++)
        asm_free_agent(&agents[i]);
    for (size_t i = 0; i < LOCATIONS; i++)
        asm_free_location(&at[i]);
    asm_free_storage(&storage);
    return time;
}

static int by_size(const void *a, const void *b) {
    double first = *(const double *)a, second = *(const double *)b;
    return (first > second) - (first < second);
}

static double median_of(size_t count, uint32_t moves) {
    double times[ROUNDS];
    for (size_t i = 0; i < ROUNDS; i++)
        times[i] = time_of(count, moves);
    qsort(times, ROUNDS, sizeof *times, by_size);
    return times[ROUNDS / 2];
}

int main(int count, char **words) {
    static const size_t crowds[] = {1, 8, 64, MOST_AGENTS};
    bool is_quick = count > 1 && strcmp(words[1], "--quick") == 0;
    double alone = 0;
    if (count > 2 && strcmp(words[1], "--kept") == 0) {
        uint32_t moves = (uint32_t)atoi(words[2]);
        time_of(1, moves);
        printf("%zu\n", retained / moves);
        return 0;
    }
    for (size_t i = 0; i < sizeof crowds / sizeof *crowds; i++) {
        double time = median_of(crowds[i], is_quick ? QUICK_MOVES : MOVES);
        alone = i == 0 ? time : alone;
        printf("%zu agents by turns\t%.0f\t%.2f\n", crowds[i], time, time / alone);
    }
    return 0;
}
