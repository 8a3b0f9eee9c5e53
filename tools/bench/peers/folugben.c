/* This library, by its calls without text: every step is recorded, and can be checked afterwards.
 */
#include "folugben.h"
#include "peer.h"

#include <string.h>

enum { CAPACITY = 1048576 };

static struct asm_storage storage;
static struct worker {
    _Alignas(128) struct asm_agent agent;
    struct asm_step step;
    struct asm_move move;
    struct asm_location at[PLACES];
} workers[MOST_THREADS];
static unsigned worker_count;

static void open_worker(struct worker *it, unsigned number) {
    REQUIRE(asm_agent(&storage, number, &it->agent) == ASM_DONE);
    for (unsigned i = 0; i < PLACES; i++) {
        char text[32];
        int length = snprintf(text, sizeof text, "[\"x\",%u]", i);
        REQUIRE(asm_location((const uint8_t *)text, (size_t)length, &it->at[i]) == ASM_DONE);
    }
}

void peer_open(unsigned threads, const char *folder) {
    static char init[32 * PLACES];
    size_t length = 0;
    (void)folder;
    for (unsigned i = 0; i < PLACES; i++)
        length += (size_t)sprintf(init + length, "%c[[\"x\",%u],0]", i ? ',' : '[', i);
    init[length++] = ']';
    REQUIRE(asm_open((const uint8_t *)init, length, CAPACITY, &storage) == ASM_DONE);
    worker_count = threads;
    for (unsigned i = 0; i < threads; i++)
        open_worker(&workers[i], i);
}

static int64_t get(struct worker *it, unsigned place) {
    asm_value value;
    size_t written;
    REQUIRE(asm_get_at(&it->agent, &it->step, &it->at[place], &value, NULL, 0, &written) ==
            ASM_DONE);
    return value.number;
}

/* One put needs no slot for its move. */
static void push(struct worker *it, const unsigned *places, const int64_t *values, unsigned count) {
    size_t written;
    if (count == 1) {
        REQUIRE(asm_push_at(&it->agent, &it->step, &it->at[*places], ASM_PUT, ASM_KIND_NUM, *values,
                            NULL, 0, 0, NULL, 0, &written) == ASM_DONE);
        return;
    }
    for (unsigned i = 0; i < count; i++)
        REQUIRE(asm_instruct(&it->move, &it->at[places[i]], ASM_PUT, ASM_KIND_NUM, values[i], NULL,
                             0, 0) == ASM_DONE);
    REQUIRE(asm_push_move(&it->agent, &it->step, &it->move, NULL, 0, &written) == ASM_DONE);
    asm_free_move(&it->move);
}

void peer_step(unsigned thread, const unsigned *places, unsigned reads, unsigned writes,
               const int64_t *more) {
    struct worker *it = &workers[thread];
    int64_t values[PLACES];
    asm_numbers numbers;
    uint32_t number;
    int32_t code;
    do {
        REQUIRE(asm_begin(&it->agent, &it->step, &number) == ASM_DONE);
        for (unsigned i = 0; i < reads; i++)
            values[i] = get(it, places[i]);
        for (unsigned i = 0; i < writes; i++)
            values[i] += more[i];
        push(it, places, values, writes);
        code = asm_commit(&it->agent, &it->step, &numbers);
    } while (code == ASM_STALE || code == ASM_BUSY);
    REQUIRE(code == ASM_DONE);
}

/* A reader needs no commit: its own state is the one after a number of moves. */
int64_t peer_sum(unsigned thread, unsigned first, unsigned count) {
    struct worker *it = &workers[thread];
    int64_t sum = 0;
    asm_value value;
    uint32_t number;
    size_t written;
    REQUIRE(asm_follow(&it->agent, &number) == ASM_DONE);
    for (unsigned i = first; i < first + count; i++) {
        REQUIRE(asm_peek_at(&it->agent, &it->at[i], &number, &value, NULL, 0, &written) ==
                ASM_DONE);
        sum += value.number;
    }
    return sum;
}

void peer_close(void) {
    for (unsigned i = 0; i < worker_count; i++) {
        asm_free_step(&workers[i].step);
        for (unsigned k = 0; k < PLACES; k++)
            asm_free_location(&workers[i].at[k]);
        asm_free_agent(&workers[i].agent);
    }
    asm_free_storage(&storage);
}
