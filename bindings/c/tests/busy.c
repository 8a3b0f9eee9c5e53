/* A fire, and the commit of a step, that lose 64 attempts to append: while they are judged,
 * which takes long, agents on two other threads fire. Then all agents are returned and closed,
 * or all slots freed with their content. */
#include "folugben.h"

#include <inttypes.h>
#include <pthread.h>
#include <stdatomic.h>
#include <stdio.h>
#include <stdlib.h>
#include <string.h>
#include <time.h>

#define REQUIRE(holds) require((holds), #holds, __LINE__)

enum { OTHERS = 2, INSTRS = 4096, TRIES = 5000, CAPACITY = 1000000 };

static struct asm_storage storage;
static struct asm_agent agents[OTHERS + 1];
static struct asm_step step;
static atomic_bool is_over;
static char *move;

static void require(bool holds, const char *what, int line) {
    if (!holds) {
        fprintf(stderr, "line %d: %s\n", line, what);
        exit(1);
    }
}

static const uint8_t *bytes(const char *text) { return (const uint8_t *)text; }

/* Fires short moves, each after a pause in which the long move makes progress, also if there is
 * only one processor. */
static void *fire_short(void *agent) {
    const char *call = "{\"fire\":[[\"inc\",[\"x\"],1]],\"reads\":[]}";
    const struct timespec pause = {0, 20000};
    asm_numbers numbers;
    while (!is_over) {
        int32_t code = asm_try_fire(agent, bytes(call), strlen(call), &numbers);
        REQUIRE(code == ASM_DONE || code == ASM_BUSY);
        nanosleep(&pause, NULL);
    }
    return NULL;
}

/* The text of a move that takes long to be judged. */
static char *long_move(void) {
    char *text = malloc(INSTRS * 32 + 64);
    REQUIRE(text != NULL);
    char *at = text + sprintf(text, "[");
    for (int i = 0; i < INSTRS; i++)
        at += sprintf(at, "%s[\"put\",[\"y\",%d],%d]", i ? "," : "", i, i);
    sprintf(at, "]");
    return text;
}

static int32_t fire_long(struct asm_agent *agent, asm_numbers *numbers) {
    size_t room = strlen(move) + 64;
    char *call = malloc(room);
    REQUIRE(call != NULL);
    snprintf(call, room, "{\"fire\":%s,\"reads\":[[[\"z\"],0]]}", move);
    int32_t code = asm_try_fire(agent, bytes(call), strlen(call), numbers);
    free(call);
    return code;
}

static void begin_step(struct asm_agent *agent) {
    uint32_t number;
    size_t written;
    REQUIRE(asm_begin(agent, &step, &number) == ASM_DONE);
    REQUIRE(asm_push(agent, &step, bytes(move), strlen(move), NULL, 0, &written) == ASM_DONE);
}

/* A step that was busy is committed again unchanged. */
static int32_t commit_long(struct asm_agent *agent, asm_numbers *numbers) {
    if (!step.slot.full)
        begin_step(agent);
    int32_t code = asm_commit(agent, &step, numbers);
    REQUIRE(step.slot.full == (code != ASM_DONE) && asm_depth(&step) == step.slot.full);
    return code;
}

typedef int32_t fire(struct asm_agent *agent, asm_numbers *numbers);

/* Returns whether the fire was busy; otherwise it was fired, as its agent was faster once. */
static bool is_busy(fire *call, struct asm_agent *agent) {
    asm_numbers numbers = {9, 9, 9};
    uint32_t seen = asm_seen(agent), won = asm_won(agent);
    int32_t code = call(agent, &numbers);
    if (code == ASM_DONE)
        return false;
    REQUIRE(code == ASM_BUSY && numbers.fired == 0);
    REQUIRE(seen <= numbers.from && numbers.from + 64 <= numbers.to);
    REQUIRE(asm_seen(agent) == numbers.to && asm_won(agent) == won);
    return true;
}

static void lose_64_offers(fire *call) {
    pthread_t threads[OTHERS];
    int tries = 0;
    is_over = false;
    for (int i = 0; i < OTHERS; i++)
        REQUIRE(!pthread_create(&threads[i], NULL, fire_short, &agents[i + 1]));
    while (!is_busy(call, &agents[0]))
        REQUIRE(++tries < TRIES);
    is_over = true;
    for (int i = 0; i < OTHERS; i++)
        REQUIRE(!pthread_join(threads[i], NULL));
    REQUIRE(!is_busy(call, &agents[0]));
}

/* The journal has no call that was busy. */
static void close_all(void) {
    uint32_t number, moves, won = 0;
    uint64_t calls;
    size_t len;
    for (int i = 0; i <= OTHERS; i++) {
        won += asm_won(&agents[i]);
        REQUIRE(asm_give(&storage, &agents[i]) == ASM_DONE);
    }
    REQUIRE(asm_close(&storage, &number) == ASM_DONE);
    REQUIRE(asm_journal(&storage, NULL, 0, &len) == ASM_SMALL);
    uint8_t *journal = malloc(len);
    REQUIRE(journal != NULL && asm_journal(&storage, journal, len, &len) == ASM_DONE);
    REQUIRE(asm_check(journal, len, &calls, &moves) == ASM_DONE && moves == won && calls == won);
    free(journal);
    asm_free_storage(&storage);
}

/* Nothing is left of fired moves, of vain attempts to append, and of one move that was only
 * pushed. */
static void release_all(void) {
    uint32_t number, moves;
    begin_step(&agents[0]);
    REQUIRE(asm_moves(&storage, &moves) == ASM_DONE && moves >= asm_seen(&agents[0]));
    asm_free_agent(&agents[0]);
    REQUIRE(asm_close(&storage, &number) == ASM_MISSING && number == 1);
    asm_free_storage(&storage);
    for (int i = 1; i <= OTHERS; i++)
        asm_free_agent(&agents[i]);
    asm_free_step(&step);
}

int main(void) {
    const char *init = "[[[\"x\"],0]]";
    move = long_move();
    for (int i = 0; i < 2; i++) {
        REQUIRE(asm_open(bytes(init), strlen(init), CAPACITY, &storage) == ASM_DONE);
        REQUIRE(asm_agents(&storage, agents, OTHERS + 1) == ASM_DONE);
        lose_64_offers(fire_long);
        lose_64_offers(commit_long);
        i ? release_all() : close_all();
    }
    free(move);
    puts("passed");
    return 0;
}
