/* Eight agents, each on its own thread, move amounts between shared accounts by steps, and count
 * them on counters that they share. If another agent writes what a step depends on, the step is
 * stale, so that nothing is lost: the sums are right in each of two storages, of which the
 * second continues where the first ended, and both journals are legal. Then a thread makes
 * calls, which must take no more of its stack than folugben.h says. */
#include "tests.h"

#include <pthread.h>

enum { AGENTS = 8, ACCOUNTS = 4, STORAGES = 2 };
enum { KIB = 1024, STACK = 256 * KIB, PLAIN = 16 * KIB, FORMED = 40 * KIB, DEEP = 112 * KIB };

/* With fewer TIMES it runs under valgrind, where nobody may read what a stack held. */
#ifdef TIMES
enum { MEASURES = false };
#else
#define TIMES 200
enum { MEASURES = true };
#endif

typedef struct worker {
    pthread_t thread;
    struct asm_agent agent;
    unsigned number, stale, busy;
} worker;

static worker workers[AGENTS];

static void grow(worker *w, struct asm_step *step, bool is_push, const char *move) {
    if (is_push)
        ANSWERS(ASM_DONE, asm_push(&w->agent, step, TEXT(move), OUT));
    else
        ANSWERS(ASM_DONE, asm_extend(&w->agent, step, TEXT(move), OUT));
}

/* What the step sees of the account. */
static long seen(worker *w, struct asm_step *step, unsigned account, uint32_t number) {
    char text[LONGEST];
    uint32_t at;
    long amount;
    size_t written;
    snprintf(text, sizeof text, "[['account',%u]]", account);
    REQUIRE(asm_get(&w->agent, step, TEXT(text), (uint8_t *)text, sizeof text - 1, &written) ==
            ASM_DONE);
    text[written] = 0;
    REQUIRE(sscanf(text, "{\"number\":%" SCNu32 ",\"values\":[%ld]}", &at, &amount) == 2);
    REQUIRE(at == number);
    return amount;
}

/* Moves an amount from one account to another by two moves of one step, and counts it. Returns
 * whether it was fired. */
static bool transfer(worker *w, struct asm_step *step, unsigned turn) {
    unsigned from = (w->number + turn) % ACCOUNTS, to = (from + 1 + turn % 3) % ACCOUNTS;
    char move[256];
    uint32_t number;
    asm_numbers numbers;
    REQUIRE(asm_begin(&w->agent, step, &number) == ASM_DONE);
    long left = seen(w, step, from, number);
    snprintf(move, sizeof move, "[['put',['account',%u],%ld]]", from, left - 5);
    grow(w, step, true, move);
    REQUIRE(seen(w, step, from, number) == left - 5);
    snprintf(move, sizeof move, "[['inc',['account',%u],5]]", to);
    grow(w, step, true, move);
    snprintf(move, sizeof move, "[['add',['seen',%u],%u],['inc',['count'],1]]", w->number, turn);
    grow(w, step, false, move);
    int32_t code = asm_commit(&w->agent, step, &numbers);
    w->stale += code == ASM_STALE;
    w->busy += code == ASM_BUSY;
    REQUIRE(code == ASM_DONE || code == ASM_STALE || code == ASM_BUSY);
    REQUIRE(code != ASM_DONE || (numbers.fired > number && !step->slot.full));
    REQUIRE(code == ASM_DONE || (step->slot.full && asm_depth(step) == 2));
    return code == ASM_DONE;
}

static void *work(void *argument) {
    worker *w = argument;
    struct asm_step step = {0};
    for (unsigned turn = 0; turn < TIMES;)
        turn += transfer(w, &step, turn);
    REQUIRE(!step.slot.full && asm_won(&w->agent) == TIMES);
    return NULL;
}

static void run_threads(struct asm_storage *storage) {
    for (unsigned i = 0; i < AGENTS; i++) {
        workers[i] = (worker){.number = i};
        REQUIRE(asm_agent(storage, i, &workers[i].agent) == ASM_DONE);
    }
    for (size_t i = 0; i < AGENTS; i++)
        REQUIRE(!pthread_create(&workers[i].thread, NULL, work, &workers[i]));
    for (size_t i = 0; i < AGENTS; i++)
        REQUIRE(!pthread_join(workers[i].thread, NULL));
}

static void give_all(struct asm_storage *storage) {
    for (size_t i = 0; i < AGENTS; i++) {
        fprintf(stderr, "agent %zu: stale %u, busy %u\n", i, workers[i].stale, workers[i].busy);
        REQUIRE(asm_give(storage, &workers[i].agent) == ASM_DONE);
    }
}

/* The accounts' sum, and the count, in the state after the journal. */
static void sums(const char *journal, long count) {
    char *state = malloc(strlen(journal));
    size_t written;
    uint64_t line;
    long sum = 0, amount;
    REQUIRE(state != NULL);
    REQUIRE(asm_replay(bytes(journal), strlen(journal), (uint8_t *)state, strlen(journal), &written,
                       &line) == ASM_DONE);
    state[written] = 0;
    const char *at = state;
    for (unsigned i = 0; i < ACCOUNTS; i++) {
        REQUIRE((at = strstr(at, "[\"account\",")) != NULL);
        REQUIRE(sscanf(at, "[\"account\",%*u],%ld", &amount) == 1);
        sum += amount;
        at += strlen("[\"account\",");
    }
    REQUIRE(sum == ACCOUNTS * 1000 && strstr(at, "[\"account\",") == NULL);
    REQUIRE((at = strstr(state, "[\"count\"],")) != NULL);
    REQUIRE(sscanf(at, "[\"count\"],%ld", &amount) == 1 && amount == count);
    free(state);
}

static void open_first(struct asm_storage *storage) {
    char init[LONGEST];
    size_t at = (size_t)snprintf(init, sizeof init, "[[['count'],0]");
    for (unsigned i = 0; i < ACCOUNTS; i++)
        at += (size_t)snprintf(init + at, sizeof init - at, ",[['account',%u],1000]", i);
    for (unsigned i = 0; i < AGENTS; i++)
        at += (size_t)snprintf(init + at, sizeof init - at, ",[['seen',%u],{'set':[]}]", i);
    snprintf(init + at, sizeof init - at, "]");
    open_with(init, AGENTS * TIMES, storage);
}

static _Alignas(4096) uint8_t stack[STACK];
static uintptr_t top;

/* A list as deep as allowed, and a text that is nested as deep as any that is read. */
#define PAIR_OF_LISTS "{'list':[{'list':["
#define PAIR_OF_ENDS "]}]}"
#define LIST                                                                                       \
    PAIR_OF_LISTS PAIR_OF_LISTS PAIR_OF_LISTS PAIR_OF_LISTS PAIR_OF_ENDS PAIR_OF_ENDS PAIR_OF_ENDS \
        PAIR_OF_ENDS
enum { DEEPEST = 127 };
static char deep[2 * DEEPEST];

static void *calls_on_stack(void *argument) {
    uint8_t here;
    top = (uintptr_t)&here;
    void (**calls)(void) = argument;
    (*calls)();
    return NULL;
}

/* How many bytes of a thread's stack the calls take. */
static size_t stack_of(void (*calls)(void)) {
    pthread_attr_t attributes;
    pthread_t thread;
    size_t lowest = 0;
    memset(stack, UNTOUCHED, sizeof stack);
    REQUIRE(!pthread_attr_init(&attributes));
    REQUIRE(!pthread_attr_setstack(&attributes, stack, STACK));
    REQUIRE(!pthread_create(&thread, &attributes, calls_on_stack, &calls));
    REQUIRE(!pthread_join(thread, NULL) && !pthread_attr_destroy(&attributes));
    while (stack[lowest] == UNTOUCHED)
        lowest++;
    return (size_t)(top - (uintptr_t)(stack + lowest));
}

/* Calls without text. */
static void plain_calls(void) {
    static struct asm_storage storage;
    static struct asm_agent agents[2];
    static struct asm_location at;
    static struct asm_move move;
    static struct asm_step step;
    uint32_t number;
    size_t written;
    asm_value value;
    asm_numbers numbers;
    if (!storage.slot.full) {
        open_with("[[['x'],1]]", 4, &storage);
        REQUIRE(asm_location(TEXT("['x']"), &at) == ASM_DONE);
        return;
    }
    REQUIRE(asm_agents(&storage, agents, 2) == ASM_DONE);
    REQUIRE(asm_begin(&agents[0], &step, &number) == ASM_DONE);
    REQUIRE(asm_get_at(&agents[0], &step, &at, &value, NULL, 0, &written) == ASM_DONE);
    REQUIRE(asm_instruct(&move, &at, ASM_INC, ASM_KIND_NUM, 2, NULL, 0, 0) == ASM_DONE);
    REQUIRE(asm_push_move(&agents[0], &step, &move, NULL, 0, &written) == ASM_DONE);
    REQUIRE(asm_extend_move(&agents[0], &step, &move, NULL, 0, &written) == ASM_DONE);
    REQUIRE(asm_commit(&agents[0], &step, &numbers) == ASM_DONE);
    REQUIRE(asm_learn(&agents[1], &agents[0]) == ASM_DONE);
    REQUIRE(asm_follow(&agents[1], &number) == ASM_DONE && number == 1);
    REQUIRE(asm_peek_at(&agents[1], &at, &number, &value, NULL, 0, &written) == ASM_DONE);
    REQUIRE(value.kind == ASM_KIND_NUM && value.number == 5);
    asm_free_move(&move);
    asm_free_location(&at);
    REQUIRE(asm_give(&storage, &agents[0]) == ASM_DONE);
    REQUIRE(asm_give(&storage, &agents[1]) == ASM_DONE);
    REQUIRE(asm_close(&storage, &number) == ASM_DONE);
    asm_free_storage(&storage);
}

/* Calls with texts that have spaces, so that they are read as any JSON. */
static void formed_calls(void) {
    static uint8_t journal[LONGEST], text[LONGEST];
    struct asm_storage storage = {0};
    struct asm_agent agent = {0};
    uint64_t calls, line;
    uint32_t number;
    size_t length, written;
    asm_numbers numbers;
    open_with("[ [['x'," LIST "],{'set':[" LIST "]}]]", 4, &storage);
    REQUIRE(asm_agent(&storage, 0, &agent) == ASM_DONE);
    REQUIRE(asm_read(&agent, TEXT("[ ['x'," LIST "]]")) == ASM_DONE);
    REQUIRE(asm_answer(&agent, text, sizeof text, &written) == ASM_DONE);
    const char *fire = "{'fire': [['put',['x'," LIST "],{'set':[" LIST "]}]],'reads':[]}";
    REQUIRE(asm_try_fire(&agent, TEXT(fire), &numbers) == ASM_DONE);
    REQUIRE(asm_give(&storage, &agent) == ASM_DONE && asm_close(&storage, &number) == ASM_DONE);
    REQUIRE(asm_journal(&storage, journal, sizeof journal - 1, &length) == ASM_DONE);
    /* A space at the end of a line is no compact JSON. */
    journal[length - 1] = ' ';
    journal[length++] = '\n';
    REQUIRE(asm_check(journal, length, &calls, &number) == ASM_DONE && calls == 2);
    REQUIRE(asm_replay(journal, length, text, sizeof text, &written, &line) == ASM_DONE);
    asm_free_storage(&storage);
}

static void deep_calls(void) {
    struct asm_storage storage = {0};
    REQUIRE(asm_open(bytes(deep), sizeof deep, 4, &storage) == ASM_SHAPE);
}

static void small_stacks(void) {
    memset(deep, '[', DEEPEST);
    memset(deep + DEEPEST, ']', DEEPEST);
    plain_calls();
    size_t plain = stack_of(plain_calls), formed = stack_of(formed_calls);
    size_t most = stack_of(deep_calls);
    fprintf(stderr, "stack: %zu, %zu, %zu bytes\n", plain, formed, most);
    REQUIRE(plain < PLAIN && formed < FORMED && most < DEEP);
}

int main(void) {
    static struct asm_storage storages[STORAGES];
    uint64_t calls;
    uint32_t moves;
    for (int round = 0; round < STORAGES; round++) {
        struct asm_storage *storage = &storages[round];
        if (round == 0)
            open_first(storage);
        else
            REQUIRE(asm_next(&storages[round - 1], AGENTS * TIMES, storage) == ASM_DONE);
        run_threads(storage);
        give_all(storage);
        char *journal = journal_of(storage);
        REQUIRE(asm_check(bytes(journal), strlen(journal), &calls, &moves) == ASM_DONE);
        REQUIRE(moves == AGENTS * TIMES && calls >= moves);
        sums(journal, (long)(round + 1) * AGENTS * TIMES);
        free(journal);
    }
    for (int round = 0; round < STORAGES; round++)
        asm_free_storage(&storages[round]);
    if (MEASURES)
        small_stacks();
    puts("passed");
    return 0;
}
