/* Eight agents, each on its own thread, add to one count, to a set and to a location of their own.
 * Then they are returned, closed into a journal, and the journal is checked and replayed.
 *
 *     example [JOURNAL]    writes the journal to the file */
#include "folugben.h"

#include <inttypes.h>
#include <pthread.h>
#include <stdio.h>
#include <stdlib.h>
#include <string.h>

enum { AGENTS = 8, ROOM = 1024 };

#ifndef TIMES
#define TIMES 500
#endif

/* One agent with its step, the move that it builds and the locations that it writes, and with
 * the results of its fires. */
typedef struct worker {
    struct asm_agent agent;
    struct asm_step step;
    struct asm_move move;
    struct asm_location count, own, seen;
    unsigned number, fired, stale, busy;
} worker;

static struct asm_storage storage;
static worker workers[AGENTS];

/* Ends the program if a call doesn't return the required answer. */
static void expect(int32_t code, int32_t wanted, const char *call) {
    if (code == wanted)
        return;
    uint8_t text[128];
    size_t len = 0;
    asm_error_text(code, text, sizeof text, &len);
    fprintf(stderr, "%s: code %" PRId32 ": %.*s\n", call, code, (int)len, (const char *)text);
    exit(1);
}

static void require(bool holds, const char *what) {
    if (!holds) {
        fprintf(stderr, "not so: %s\n", what);
        exit(1);
    }
}

static const uint8_t *bytes(const char *text) { return (const uint8_t *)text; }

/* Reads the locations and writes the answer, with a zero byte at its end. */
static void read_text(struct asm_agent *agent, const char *locations, char *out, size_t room) {
    size_t written;
    expect(asm_read(agent, bytes(locations), strlen(locations)), ASM_DONE, "asm_read");
    expect(asm_answer(agent, (uint8_t *)out, room - 1, &written), ASM_DONE, "asm_answer");
    out[written] = 0;
}

/* Puts an instruction with a number into the move. */
static void instruct(worker *w, struct asm_location *at, int32_t verb, int64_t number) {
    expect(asm_instruct(&w->move, at, verb, ASM_KIND_NUM, number, NULL, 0, 0), ASM_DONE,
           "asm_instruct");
}

/* Adds 1 to the count, unless another agent was faster: a step without text. */
static void add_one(worker *w) {
    uint32_t number;
    size_t written;
    asm_value count;
    asm_numbers numbers;
    expect(asm_begin(&w->agent, &w->step, &number), ASM_DONE, "asm_begin");
    expect(asm_get_at(&w->agent, &w->step, &w->count, &count, NULL, 0, &written), ASM_DONE,
           "asm_get_at");
    require(count.kind == ASM_KIND_NUM, "the count is a number");
    instruct(w, &w->count, ASM_PUT, count.number + 1);
    instruct(w, &w->own, ASM_PUT, w->fired + 1);
    instruct(w, &w->seen, ASM_ADD, count.number);
    expect(asm_push_move(&w->agent, &w->step, &w->move, NULL, 0, &written), ASM_DONE,
           "asm_push_move");
    asm_free_move(&w->move);
    int32_t code = asm_commit(&w->agent, &w->step, &numbers);
    switch (code) {
    case ASM_DONE:
        require(numbers.fired == count.number + 1, "the move after those that were read");
        w->fired++;
        break;
    case ASM_STALE:
        w->stale++;
        break;
    case ASM_BUSY:
        require(numbers.from + 64 <= numbers.to, "64 moves of others");
        w->busy++;
        break;
    default:
        expect(code, ASM_DONE, "asm_commit");
    }
}

static void prepare(const char *location, struct asm_location *at) {
    expect(asm_location(bytes(location), strlen(location), at), ASM_DONE, "asm_location");
}

/* Makes the agent with its locations. */
static void make_worker(worker *w, unsigned number) {
    char own[ROOM];
    w->number = number;
    expect(asm_agent(&storage, number, &w->agent), ASM_DONE, "asm_agent");
    snprintf(own, sizeof own, "[\"own\",%u]", number);
    prepare("[\"count\"]", &w->count);
    prepare(own, &w->own);
    prepare("[\"seen\"]", &w->seen);
}

/* Returns the agent, and frees everything else. */
static void end_worker(worker *w) {
    expect(asm_give(&storage, &w->agent), ASM_DONE, "asm_give");
    asm_free_step(&w->step);
    asm_free_location(&w->count);
    asm_free_location(&w->own);
    asm_free_location(&w->seen);
}

static void *work(void *argument) {
    worker *w = argument;
    while (w->fired < TIMES)
        add_one(w);
    return NULL;
}

static void run_threads(void) {
    pthread_t threads[AGENTS];
    for (size_t i = 0; i < AGENTS; i++)
        require(!pthread_create(&threads[i], NULL, work, &workers[i]), "a thread was started");
    for (size_t i = 0; i < AGENTS; i++)
        require(!pthread_join(threads[i], NULL), "a thread was joined");
}

/* The count and the own locations, as the text of a state, read by an agent that follows the
 * last move. */
static void read_state(char *state, size_t room) {
    struct asm_agent reader = {0};
    char text[ROOM], locations[ROOM] = "[[\"count\"]";
    expect(asm_agent(&storage, AGENTS, &reader), ASM_DONE, "asm_agent");
    for (size_t i = 0; i < AGENTS; i++)
        expect(asm_learn(&reader, &workers[i].agent), ASM_DONE, "asm_learn");
    require(asm_seen(&reader) == AGENTS * TIMES, "all moves were seen");
    for (unsigned i = 0; i < AGENTS; i++) {
        size_t len = strlen(locations);
        snprintf(locations + len, sizeof locations - len, ",[\"own\",%u]%s", i,
                 i + 1 < AGENTS ? "" : "]");
    }
    read_text(&reader, locations, text, sizeof text);
    char *at = strstr(text, "\"values\":[");
    require(at != NULL, "values were read");
    at += strlen("\"values\":[");
    size_t len = (size_t)snprintf(state, room, "[[[\"count\"],%ld]", strtol(at, &at, 10));
    for (unsigned i = 0; i < AGENTS; i++)
        len += (size_t)snprintf(state + len, room - len, ",[[\"own\",%u],%ld]", i,
                                strtol(at + 1, &at, 10));
    expect(asm_give(&storage, &reader), ASM_DONE, "asm_give");
}

/* Closes what was returned; the caller must free the journal. */
static uint8_t *journal_of(size_t *len) {
    uint32_t missing;
    expect(asm_close(&storage, &missing), ASM_DONE, "asm_close");
    expect(asm_journal(&storage, NULL, 0, len), ASM_SMALL, "asm_journal");
    uint8_t *journal = malloc(*len);
    require(journal != NULL, "there is memory");
    expect(asm_journal(&storage, journal, *len, len), ASM_DONE, "asm_journal");
    return journal;
}

/* Returns whether the state of the journal begins with what was read last. */
static bool leaves(const uint8_t *journal, size_t len, const char *state) {
    size_t room;
    uint64_t line;
    expect(asm_replay(journal, len, NULL, 0, &room, &line), ASM_SMALL, "asm_replay");
    uint8_t *left = malloc(room);
    require(left != NULL, "there is memory");
    expect(asm_replay(journal, len, left, room, &room, &line), ASM_DONE, "asm_replay");
    bool begins = room > strlen(state) && !memcmp(left, state, strlen(state));
    free(left);
    return begins;
}

static void save(const char *path, const uint8_t *journal, size_t len) {
    FILE *file = fopen(path, "wb");
    require(file && fwrite(journal, 1, len, file) == len && !fclose(file),
            "the journal was written");
}

int main(int argc, char **argv) {
    const char *init = "[[[\"count\"],0],[[\"seen\"],{\"set\":[]}]]";
    char state[ROOM];
    expect(asm_open(bytes(init), strlen(init), AGENTS * TIMES, &storage), ASM_DONE, "asm_open");
    for (unsigned i = 0; i < AGENTS; i++)
        make_worker(&workers[i], i);
    run_threads();
    for (size_t i = 0; i < AGENTS; i++) {
        worker *w = &workers[i];
        require(asm_won(&w->agent) == TIMES, "each agent fired so many moves");
        fprintf(stderr, "agent %zu: fired %u, stale %u, busy %u, misses %" PRIu64 "\n", i, w->fired,
                w->stale, w->busy, asm_misses(&w->agent));
    }
    read_state(state, sizeof state);
    for (size_t i = AGENTS; i > 0; i--)
        end_worker(&workers[i - 1]);

    size_t len;
    uint64_t calls;
    uint32_t moves;
    uint8_t *journal = journal_of(&len);
    expect(asm_check(journal, len, &calls, &moves), ASM_DONE, "asm_check");
    require(moves == AGENTS * TIMES, "the journal has all moves");
    require(leaves(journal, len, state), "the journal leaves the state that was read last");
    printf("legal %u\n%s,..]\n", (unsigned)moves, state);
    if (argc > 1)
        save(argv[1], journal, len);
    free(journal);
    asm_free_storage(&storage);
    return 0;
}
