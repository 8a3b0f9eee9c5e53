/* The works by the twin. */
#include "bench.h"
#include "twin.h"

#include <string.h>

typedef struct agent {
    _Alignas(128) twin_step step;
    twin_step idle;
} agent;

static twin storage;
static agent agents[THREADS];
static char keys[LOCATIONS][TWIN_KEY];

static twin_part part_of(unsigned location, int64_t value) {
    twin_part part = {.value = value};
    memcpy(part.key, keys[location], TWIN_KEY);
    return part;
}

static void open_storage(unsigned moves) {
    (void)moves;
    twin_open(&storage);
    for (unsigned i = 0; i < LOCATIONS; i++) {
        uint32_t number;
        snprintf(keys[i], sizeof keys[i], "[\"x\",%u]", i);
        REQUIRE(twin_peek(&storage, keys[i], &number) == 0);
    }
    for (unsigned i = 0; i < THREADS; i++)
        twin_begin(&storage, &agents[i].idle);
}

static bool read_fire(unsigned thread, unsigned location) {
    uint32_t number;
    int64_t value = twin_read(&storage, (uint8_t)thread, keys[location], &number);
    twin_part put = part_of(location, value + 1), named = part_of(location, number);
    return twin_fire(&storage, (uint8_t)thread, &put, 1, &named, 1) != 0;
}

static bool whole_step(unsigned thread, unsigned location) {
    twin_step *step = &agents[thread].step;
    int64_t value;
    twin_begin(&storage, step);
    return twin_get(&storage, step, keys[location], &value) &&
           twin_push(step, keys[location], value + 1) &&
           twin_commit(&storage, (uint8_t)thread, step) != 0;
}

static bool peek(unsigned thread, unsigned location) {
    (void)thread;
    uint32_t number;
    return twin_peek(&storage, keys[location], &number) == 0;
}

static bool push_pop(unsigned thread, unsigned location) {
    twin_step *step = &agents[thread].idle;
    return twin_push(step, keys[location], 7) && twin_pop(step);
}

static int64_t close_storage(void) {
    int64_t sum = 0;
    uint32_t number;
    for (unsigned i = 0; i < LOCATIONS; i++)
        sum += twin_peek(&storage, keys[i], &number);
    REQUIRE(storage.event_count >= storage.number);
    twin_close(&storage);
    return sum;
}

const side theirs = {
    open_storage, {read_fire, whole_step, whole_step, peek, peek, push_pop}, close_storage};
