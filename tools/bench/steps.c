/* Works of one kind, for tools/bench/instructions to count: `steps WORK COUNT [LOCATIONS]` does
 * COUNT of them on a state of so many locations, else of 64. */
#include "folugben.h"

#include <inttypes.h>
#include <stdio.h>
#include <stdlib.h>
#include <string.h>

enum { AGENTS = 4, MOST_LOCATIONS = 1024, ROOM = 1 << 20, STRIDE = 7, APART = 37 };

#define REQUIRE(holds) require((holds), #holds, __LINE__)
#define OUT out, ROOM, &written

static struct asm_storage storage;
static struct asm_agent agents[AGENTS];
static struct asm_step steps[AGENTS];
static struct asm_move move;
static struct asm_location at[MOST_LOCATIONS];
static size_t locations, used, written;
static uint8_t *journal;
static uint8_t out[ROOM];
static asm_numbers numbers;
static uint32_t number;

static void require(bool holds, const char *what, int line) {
    if (!holds) {
        fprintf(stderr, "steps: line %d: %s\n", line, what);
        exit(1);
    }
}

static void open_all(void) {
    static char init[32 * MOST_LOCATIONS];
    size_t length = 1;
    init[0] = '[';
    for (size_t i = 0; i < locations; i++) {
        char place[32];
        int size = snprintf(place, sizeof place, "[\"x\",%zu]", i);
        length += (size_t)sprintf(init + length, "%s[%s,0]", i ? "," : "", place);
        REQUIRE(asm_location((const uint8_t *)place, (size_t)size, &at[i]) == ASM_DONE);
    }
    init[length++] = ']';
    REQUIRE(asm_open((const uint8_t *)init, length, 1000000, &storage) == ASM_DONE);
    REQUIRE(asm_agents(&storage, agents, AGENTS) == ASM_DONE);
}

static void end_all(void) {
    for (size_t i = 0; i < AGENTS; i++) {
        asm_free_step(&steps[i]);
        asm_free_agent(&agents[i]);
    }
    for (size_t i = 0; i < locations; i++)
        asm_free_location(&at[i]);
    asm_free_move(&move);
    asm_free_storage(&storage);
    free(journal);
}

/* The agent's step gets so many locations from the first on, and puts at so many of them. */
static void play(size_t agent, size_t first, size_t gets, size_t puts) {
    asm_value value = {0, 0};
    REQUIRE(asm_begin(&agents[agent], &steps[agent], &number) == ASM_DONE);
    for (size_t i = 0; i < gets; i++) {
        struct asm_location *place = &at[(first + i * APART) % locations];
        REQUIRE(asm_get_at(&agents[agent], &steps[agent], place, &value, OUT) == ASM_DONE);
    }
    for (size_t i = 0; i < puts; i++) {
        struct asm_location *place = &at[(first + i * APART) % locations];
        REQUIRE(asm_instruct(&move, place, ASM_PUT, ASM_KIND_NUM, value.number + 1, NULL, 0, 0) ==
                ASM_DONE);
    }
    if (puts)
        REQUIRE(asm_push_move(&agents[agent], &steps[agent], &move, OUT) == ASM_DONE);
    asm_free_move(&move);
    REQUIRE(asm_commit(&agents[agent], &steps[agent], &numbers) == ASM_DONE);
}

/* The agent's step gets one location, and pushes a put there, without a slot for the move. */
static void put(size_t agent, size_t place) {
    asm_value value = {0, 0};
    REQUIRE(asm_begin(&agents[agent], &steps[agent], &number) == ASM_DONE);
    REQUIRE(asm_get_at(&agents[agent], &steps[agent], &at[place], &value, OUT) == ASM_DONE);
    REQUIRE(asm_push_at(&agents[agent], &steps[agent], &at[place], ASM_PUT, ASM_KIND_NUM,
                        value.number + 1, NULL, 0, 0, OUT) == ASM_DONE);
    REQUIRE(asm_commit(&agents[agent], &steps[agent], &numbers) == ASM_DONE);
}

static void step(size_t i) { put(0, i * STRIDE % used); }
static void slot_step(size_t i) { play(0, i * STRIDE % used, 1, 1); }
static void turn(size_t i) { put(i % AGENTS, i * STRIDE % used); }
static void gets_and_puts(size_t i) { play(0, i * STRIDE % locations, 16, 4); }
static void gets(size_t i) { play(0, i * STRIDE % locations, 64, 0); }
static void single_gets(size_t i) { play(0, i * STRIDE % locations, 256, 0); }

/* The step gets 256 locations, each by a text of its own. */
static void text_gets(size_t i) {
    REQUIRE(asm_begin(&agents[0], &steps[0], &number) == ASM_DONE);
    for (size_t k = 0; k < 256; k++) {
        char text[64];
        size_t place = (i * STRIDE + k * APART) % locations;
        int length = snprintf(text, sizeof text, "[[\"x\",%zu]]", place);
        REQUIRE(asm_get(&agents[0], &steps[0], (const uint8_t *)text, (size_t)length, OUT) ==
                ASM_DONE);
    }
    REQUIRE(asm_commit(&agents[0], &steps[0], &numbers) == ASM_DONE);
}

static void increment(size_t i) {
    REQUIRE(asm_begin(&agents[0], &steps[0], &number) == ASM_DONE);
    REQUIRE(asm_push_at(&agents[0], &steps[0], &at[i * STRIDE % locations], ASM_INC, ASM_KIND_NUM, 1,
                        NULL, 0, 0, OUT) == ASM_DONE);
    REQUIRE(asm_commit(&agents[0], &steps[0], &numbers) == ASM_DONE);
}

/* Half of the locations are written by moves, and half are those of the opening state. */
static void scan(size_t i) {
    if (i == 0)
        for (size_t k = 0; k < locations; k += 2)
            play(0, k, 1, 1);
    REQUIRE(asm_begin(&agents[0], &steps[0], &number) == ASM_DONE);
    REQUIRE(asm_step_scan(&agents[0], &steps[0], (const uint8_t *)"x", 1, OUT) == ASM_DONE);
    REQUIRE(asm_commit(&agents[0], &steps[0], &numbers) == ASM_DONE);
}

static void fire_text(size_t i) {
    char text[128];
    size_t place = i % locations;
    int length =
        snprintf(text, sizeof text,
                 "{\"fire\":[[\"put\",[\"x\",%zu],%zu]],\"reads\":[[[\"x\",%zu],%" PRIu32 "]]}",
                 place, i, place, asm_seen(&agents[0]));
    REQUIRE(asm_try_fire(&agents[0], (const uint8_t *)text, (size_t)length, &numbers) == ASM_DONE);
}

static void read_text(size_t i) {
    char text[64];
    int length = snprintf(text, sizeof text, "[[\"x\",%zu]]", i % locations);
    REQUIRE(asm_peek(&agents[0], (const uint8_t *)text, (size_t)length, OUT) == ASM_DONE);
}

static void peek(size_t i) {
    asm_value value;
    REQUIRE(asm_peek_at(&agents[0], &at[i * STRIDE % locations], &number, &value, OUT) == ASM_DONE);
}

static void poll(size_t i) {
    (void)i;
    REQUIRE(asm_follow(&agents[0], &number) == ASM_DONE);
}

/* Behind the steps all agents are closed into a journal. */
static void close_all(void) {
    for (size_t i = 0; i < AGENTS; i++)
        REQUIRE(asm_give(&storage, &agents[i]) == ASM_DONE);
    REQUIRE(asm_close(&storage, &number) == ASM_DONE);
    REQUIRE(asm_journal(&storage, NULL, 0, &written) == ASM_SMALL);
    journal = malloc(written);
    REQUIRE(journal && asm_journal(&storage, journal, written, &written) == ASM_DONE);
}

static void close_and_check(void) {
    uint64_t calls;
    uint32_t moves;
    close_all();
    REQUIRE(asm_check(journal, written, &calls, &moves) == ASM_DONE);
}

static const struct work {
    const char *name;
    void (*one)(size_t);
    void (*last)(void);
} works[] = {
    {"step", step, NULL},
    {"slot_step", slot_step, NULL},
    {"turn", turn, NULL},
    {"close", step, close_all},
    {"check", step, close_and_check},
    {"gets_and_puts", gets_and_puts, NULL},
    {"gets", gets, NULL},
    {"single_gets", single_gets, NULL},
    {"text_gets", text_gets, NULL},
    {"increment", increment, NULL},
    {"scan", scan, NULL},
    {"fire", fire_text, NULL},
    {"read", read_text, NULL},
    {"peek", peek, NULL},
    {"poll", poll, NULL},
};

int main(int argc, char **argv) {
    REQUIRE(argc > 2);
    size_t count = (size_t)atol(argv[2]);
    locations = argc > 3 ? (size_t)atol(argv[3]) : 64;
    used = argc > 4 ? (size_t)atol(argv[4]) : locations;
    REQUIRE(0 < used && used <= locations && locations <= MOST_LOCATIONS);
    for (size_t i = 0; i < sizeof works / sizeof *works; i++) {
        if (strcmp(works[i].name, argv[1]))
            continue;
        open_all();
        for (size_t k = 0; k < count; k++)
            works[i].one(k);
        if (works[i].last)
            works[i].last();
        end_all();
        return 0;
    }
    fprintf(stderr, "steps: no work %s\n", argv[1]);
    return 2;
}
