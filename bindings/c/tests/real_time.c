/* Eight agents, each on its own thread, read, fire, follow, test reads and commit steps, also with
 * a record of what these read, with the clock before and after each call. In the journal no call
 * that was answered before another one began comes after that one: the order of the calls is one in
 * real time too. A call without a receipt comes where the number that it returns is. Calls at one
 * number that fired nothing may be in any order among each other, as none of them can tell.
 *
 * Usage: real_time [CALLS], 100,000 by default; they are made on storages of 100,000 each. */
#include "tests.h"

#include <pthread.h>
#include <time.h>

enum { AGENTS = 8, EACH = 12500, CALLS = AGENTS * EACH };

typedef struct call {
    uint64_t started, ended;
    bool fired;
} call;

/* What the journal has of a call: nothing, and the call returned this number of moves; a read or a
 * fire; or a fire, and a read in front of it if nothing that it names was stale. */
typedef enum lines { NO_LINE, ONE_LINE, FIRE_LINES } lines;

typedef struct made {
    call call;
    lines lines;
    uint32_t number;
} made;

/* A line of the journal, or a call without one: what comes before it sorts by the key. */
typedef struct placed {
    call call;
    uint64_t key;
} placed;

typedef struct worker {
    pthread_t thread;
    struct asm_agent agent;
    struct asm_step step;
    unsigned number;
    size_t made, ordered;
    made calls[EACH];
} worker;

static worker workers[AGENTS];
static placed places[2 * CALLS];
static call order[2 * CALLS];
static pthread_barrier_t start;

static uint64_t now(void) {
    struct timespec at;
    REQUIRE(!clock_gettime(CLOCK_MONOTONIC, &at));
    return (uint64_t)at.tv_sec * 1000000000 + (uint64_t)at.tv_nsec;
}

static uint64_t least(uint64_t a, uint64_t b) { return a < b ? a : b; }

/* Returns whether a call comes in this order after one that began after its answer, and can't
 * change places with it: it is of another number, or one of both fired. */
static bool is_out_of_order(const call *calls, size_t count) {
    uint64_t later = UINT64_MAX, here = UINT64_MAX;
    for (size_t i = count; i-- > 0;) {
        if (calls[i].fired)
            later = least(later, here);
        if (later < calls[i].started)
            return true;
        if (calls[i].fired) {
            later = least(later, calls[i].ended);
            here = UINT64_MAX;
        } else {
            here = least(here, calls[i].ended);
        }
    }
    return false;
}

#define REFUSES(wanted, ...)                                                                       \
    REQUIRE(is_out_of_order((const call[]){__VA_ARGS__},                                           \
                            sizeof((const call[]){__VA_ARGS__}) / sizeof(call)) == (wanted))

/* Orders that are refused, and others that aren't. */
static void judges_orders(void) {
    const call early = {1, 2, false}, fire = {10, 20, true}, next = {30, 40, true};
    const call late = {50, 60, false}, beside = {15, 35, false};
    REFUSES(false, early, fire, next, late);
    REFUSES(false, fire, late, beside);
    REFUSES(false, beside, fire, next);
    REFUSES(false, fire, next, beside);
    REFUSES(true, late, fire);
    REFUSES(true, fire, early);
    REFUSES(true, next, fire);
    REFUSES(true, fire, next, early);
    REFUSES(true, late, early, fire);
    REFUSES(true, early, next, beside, fire, late);
}

static int32_t follows(worker *w, made *it, asm_numbers *numbers) {
    (void)numbers;
    it->lines = NO_LINE;
    return asm_follow(&w->agent, &it->number);
}

static int32_t tests_read(worker *w, made *it, asm_numbers *numbers) {
    uint8_t out[64];
    char text[64];
    size_t written;
    (void)numbers;
    snprintf(text, sizeof text, "[[['p'],%" PRIu32 "]]", asm_seen(&w->agent));
    int32_t code = asm_stands(&w->agent, TEXT(text), out, sizeof out, &written);
    it->lines = NO_LINE;
    it->number = asm_seen(&w->agent);
    return code;
}

static int32_t begins(worker *w, made *it, asm_numbers *numbers) {
    (void)numbers;
    it->lines = NO_LINE;
    return asm_begin(&w->agent, &w->step, &it->number);
}

static int32_t reads(worker *w, made *it, asm_numbers *numbers) {
    (void)numbers;
    it->lines = ONE_LINE;
    return asm_read(&w->agent, TEXT(w->made % 2 ? "[['p']]" : "[['c']]"));
}

static int32_t fires(worker *w, made *it, asm_numbers *numbers) {
    it->lines = ONE_LINE;
    return asm_try_fire(&w->agent, TEXT("{'fire':[['inc',['c'],1]],'reads':[]}"), numbers);
}

static int32_t fires_by_read(worker *w, made *it, asm_numbers *numbers) {
    char text[128];
    it->lines = ONE_LINE;
    snprintf(text, sizeof text, "{'fire':[['put',['p'],%zu]],'reads':[[['p'],%" PRIu32 "]]}",
             w->made, asm_seen(&w->agent));
    return asm_try_fire(&w->agent, TEXT(text), numbers);
}

static int32_t commits(worker *w, made *it, asm_numbers *numbers) {
    it->lines = ONE_LINE;
    return asm_commit(&w->agent, &w->step, numbers);
}

/* A commit that lost too many attempts has recorded its read, and no fire. */
static int32_t records(worker *w, made *it, asm_numbers *numbers) {
    int32_t code = asm_commit_recorded(&w->agent, &w->step, numbers);
    it->lines = code == ASM_BUSY ? ONE_LINE : FIRE_LINES;
    return code;
}

typedef int32_t make(worker *w, made *it, asm_numbers *numbers);

/* Makes a call, and returns its code. One that has no answer and no receipt isn't kept. */
static int32_t makes(worker *w, make *call) {
    asm_numbers numbers = {0, 0, 0};
    made *it = &w->calls[w->made];
    it->call.started = now();
    int32_t code = call(w, it, &numbers);
    it->call.ended = now();
    it->call.fired = numbers.fired != 0;
    REQUIRE(code == ASM_DONE || code == ASM_STALE || code == ASM_BUSY);
    w->made += code != ASM_BUSY || call == records;
    return code;
}

/* A step that puts what it gets, and its commit. */
static void steps(worker *w, make *commit) {
    uint8_t out[64];
    char text[64];
    size_t written;
    makes(w, begins);
    REQUIRE(asm_get(&w->agent, &w->step, TEXT("[['p']]"), out, sizeof out, &written) == ASM_DONE);
    snprintf(text, sizeof text, "[['put',['p'],%zu]]", w->made);
    REQUIRE(asm_push(&w->agent, &w->step, TEXT(text), out, sizeof out, &written) == ASM_DONE);
    makes(w, commit);
    asm_free_step(&w->step);
}

static void *work(void *argument) {
    static make *const turns[] = {reads, follows, fires, fires, tests_read, fires_by_read, reads};
    enum { TURNS = sizeof turns / sizeof *turns };
    worker *w = argument;
    pthread_barrier_wait(&start);
    for (unsigned turn = w->number; w->made + 2 <= EACH; turn++) {
        if (turn % (TURNS + 2) < TURNS)
            makes(w, turns[turn % (TURNS + 2)]);
        else
            steps(w, turn % (TURNS + 2) == TURNS ? commits : records);
    }
    return NULL;
}

static void run_threads(struct asm_storage *storage) {
    REQUIRE(!pthread_barrier_init(&start, NULL, AGENTS));
    for (unsigned i = 0; i < AGENTS; i++) {
        workers[i].number = i;
        workers[i].made = workers[i].ordered = 0;
        REQUIRE(asm_agent(storage, i, &workers[i].agent) == ASM_DONE);
        REQUIRE(!pthread_create(&workers[i].thread, NULL, work, &workers[i]));
    }
    for (size_t i = 0; i < AGENTS; i++) {
        REQUIRE(!pthread_join(workers[i].thread, NULL));
        REQUIRE(asm_give(storage, &workers[i].agent) == ASM_DONE);
    }
    REQUIRE(!pthread_barrier_destroy(&start));
}

static int by_key(const void *a, const void *b) {
    uint64_t left = ((const placed *)a)->key, right = ((const placed *)b)->key;
    return (left > right) - (left < right);
}

/* Places the agent's calls without a line that come before its next line. */
static size_t place_unlined(worker *w, size_t count) {
    for (; w->ordered < w->made && w->calls[w->ordered].lines == NO_LINE; w->ordered++) {
        made *it = &w->calls[w->ordered];
        places[count++] = (placed){it->call, 2 * (uint64_t)it->number};
    }
    return count;
}

/* Places the calls in the order of the journal, in which those of an agent are in the order of its
 * calls, and returns how many lines and calls there are: at each number what fired nothing, in any
 * order, and then the move. */
static size_t take_order(char *journal) {
    size_t count = 0;
    uint32_t moves = 0;
    char *line = strchr(journal, '\n') + 1;
    for (char *end; *line; line = end + 1) {
        unsigned agent;
        end = strchr(line, '\n');
        REQUIRE(end != NULL);
        *end = 0;
        REQUIRE(sscanf(line, "{\"agent\":%u,", &agent) == 1 && agent < AGENTS);
        worker *w = &workers[agent];
        count = place_unlined(w, count);
        REQUIRE(w->ordered < w->made);
        const made *it = &w->calls[w->ordered];
        bool fired = strstr(line, "\"reply\":{\"fired\":") != NULL;
        bool is_read = strstr(line, "\"call\":{\"read\":") != NULL;
        bool is_ahead = it->lines == FIRE_LINES && is_read;
        REQUIRE(is_ahead || fired == it->call.fired);
        places[count++] = (placed){{it->call.started, it->call.ended, fired},
                                   2 * (uint64_t)moves + fired};
        w->ordered += !is_ahead;
        moves += fired;
    }
    for (size_t i = 0; i < AGENTS; i++) {
        count = place_unlined(&workers[i], count);
        REQUIRE(workers[i].ordered == workers[i].made);
    }
    qsort(places, count, sizeof *places, by_key);
    for (size_t i = 0; i < count; i++)
        order[i] = places[i].call;
    return count;
}

int main(int count, char **words) {
    long calls = count > 1 ? strtol(words[1], NULL, 10) : CALLS;
    judges_orders();
    for (long done = 0; done < calls; done += CALLS) {
        struct asm_storage storage = {0};
        open_with("[[['c'],0],[['p'],0]]", CALLS, &storage);
        run_threads(&storage);
        char *journal = journal_of(&storage);
        REQUIRE(!is_out_of_order(order, take_order(journal)));
        free(journal);
        asm_free_storage(&storage);
    }
    printf("passed: %ld calls of %d agents have an order of real time\n", calls, AGENTS);
    return 0;
}
