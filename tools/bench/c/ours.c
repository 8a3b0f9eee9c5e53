/* The works by the library. */
#include "bench.h"
#include "folugben.h"

#include <string.h>

enum { ROOM = 256, INIT = 32 * LOCATIONS };

typedef struct agent {
    /* A slot on a separate line of the processor's cache. */
    _Alignas(128) struct asm_agent handle;
    struct asm_step step, idle;
    struct asm_location at[LOCATIONS];
} agent;

static struct asm_storage storage;
static agent agents[THREADS];
/* [LOC] for each location. */
static char places[LOCATIONS][16];

static const uint8_t *bytes(const char *text) { return (const uint8_t *)text; }

static void open_storage(unsigned moves) {
    char init[INIT];
    uint32_t number;
    size_t at = 0;
    for (unsigned i = 0; i < LOCATIONS; i++) {
        snprintf(places[i], sizeof places[i], "[[\"x\",%u]]", i);
        at += (size_t)snprintf(init + at, INIT - at, "%c[[\"x\",%u],0]", i == 0 ? '[' : ',', i);
    }
    at += (size_t)snprintf(init + at, INIT - at, "]");
    REQUIRE(asm_open(bytes(init), at, moves, &storage) == ASM_DONE);
    for (unsigned i = 0; i < THREADS; i++) {
        REQUIRE(asm_agent(&storage, i, &agents[i].handle) == ASM_DONE);
        REQUIRE(asm_begin(&agents[i].handle, &agents[i].idle, &number) == ASM_DONE);
        /* What is passed is the one location of [LOC]. */
        for (unsigned k = 0; k < LOCATIONS; k++)
            REQUIRE(asm_location(bytes(places[k] + 1), strlen(places[k]) - 2, &agents[i].at[k]) ==
                    ASM_DONE);
    }
}

/* The number and the value of the text {"number":N,"values":[VALUE]}. */
static uint32_t number_of(const char *text, long *value) {
    char *end;
    unsigned long number = strtoul(text + strlen("{\"number\":"), &end, 10);
    *value = strtol(end + strlen(",\"values\":["), NULL, 10);
    return (uint32_t)number;
}

static bool is_fired(int32_t code) {
    REQUIRE(code == ASM_DONE || code == ASM_STALE || code == ASM_BUSY);
    return code == ASM_DONE;
}

static bool read_fire(unsigned thread, unsigned location) {
    struct asm_agent *handle = &agents[thread].handle;
    char text[ROOM];
    size_t length;
    long value;
    asm_numbers numbers;
    REQUIRE(asm_read(handle, bytes(places[location]), strlen(places[location])) == ASM_DONE);
    REQUIRE(asm_answer(handle, (uint8_t *)text, ROOM - 1, &length) == ASM_DONE);
    text[length] = 0;
    uint32_t number = number_of(text, &value);
    int written = snprintf(
        text, ROOM, "{\"fire\":[[\"put\",[\"x\",%u],%ld]],\"reads\":[[[\"x\",%u],%" PRIu32 "]]}",
        location, value + 1, location, number);
    return is_fired(asm_try_fire(handle, bytes(text), (size_t)written, &numbers));
}

static void push_put(agent *a, struct asm_step *step, unsigned location, long value) {
    char text[ROOM];
    size_t length;
    int written = snprintf(text, ROOM, "[[\"put\",[\"x\",%u],%ld]]", location, value);
    REQUIRE(asm_push(&a->handle, step, bytes(text), (size_t)written, (uint8_t *)text + written,
                     ROOM - (size_t)written, &length) == ASM_DONE);
}

/* The value that the step sees at the location. */
static long get(agent *a, struct asm_step *step, unsigned location) {
    char text[ROOM];
    size_t length;
    long value;
    REQUIRE(asm_get(&a->handle, step, bytes(places[location]), strlen(places[location]),
                    (uint8_t *)text, ROOM - 1, &length) == ASM_DONE);
    text[length] = 0;
    number_of(text, &value);
    return value;
}

static bool whole_step(unsigned thread, unsigned location) {
    agent *a = &agents[thread];
    uint32_t number;
    asm_numbers numbers;
    REQUIRE(asm_begin(&a->handle, &a->step, &number) == ASM_DONE);
    push_put(a, &a->step, location, get(a, &a->step, location) + 1);
    return is_fired(asm_commit(&a->handle, &a->step, &numbers));
}

static bool plain_step(unsigned thread, unsigned location) {
    agent *a = &agents[thread];
    struct asm_location *at = &a->at[location];
    uint32_t number;
    size_t length;
    asm_value value;
    asm_numbers numbers;
    REQUIRE(asm_begin(&a->handle, &a->step, &number) == ASM_DONE);
    REQUIRE(asm_get_at(&a->handle, &a->step, at, &value, NULL, 0, &length) == ASM_DONE);
    REQUIRE(asm_push_at(&a->handle, &a->step, at, ASM_PUT, ASM_KIND_NUM, value.number + 1, NULL, 0, 0,
                        NULL, 0, &length) == ASM_DONE);
    return is_fired(asm_commit(&a->handle, &a->step, &numbers));
}

static bool plain_peek(unsigned thread, unsigned location) {
    agent *a = &agents[thread];
    uint32_t number;
    size_t length;
    asm_value value;
    REQUIRE(asm_peek_at(&a->handle, &a->at[location], &number, &value, NULL, 0, &length) == ASM_DONE);
    return true;
}

static bool peek(unsigned thread, unsigned location) {
    char text[ROOM];
    size_t length;
    long value;
    REQUIRE(asm_peek(&agents[thread].handle, bytes(places[location]), strlen(places[location]),
                     (uint8_t *)text, ROOM - 1, &length) == ASM_DONE);
    text[length] = 0;
    number_of(text, &value);
    return true;
}

static bool push_pop(unsigned thread, unsigned location) {
    agent *a = &agents[thread];
    push_put(a, &a->idle, location, 7);
    REQUIRE(asm_pop(&a->idle) == ASM_DONE);
    return true;
}

static int64_t close_storage(void) {
    int64_t sum = 0;
    uint32_t number;
    REQUIRE(asm_begin(&agents[0].handle, &agents[0].step, &number) == ASM_DONE);
    for (unsigned i = 0; i < LOCATIONS; i++)
        sum += get(&agents[0], &agents[0].step, i);
    for (unsigned i = 0; i < THREADS; i++) {
        asm_free_step(&agents[i].step);
        asm_free_step(&agents[i].idle);
        for (unsigned k = 0; k < LOCATIONS; k++)
            asm_free_location(&agents[i].at[k]);
        asm_free_agent(&agents[i].handle);
    }
    asm_free_storage(&storage);
    return sum;
}

const side ours = {
    open_storage, {read_fire, whole_step, plain_step, peek, plain_peek, push_pop}, close_storage};
