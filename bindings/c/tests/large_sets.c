/* Sets and bags of 10 to 100,000 numbers, texts and lists. What comes and goes is seen, and nobody
 * else sees it who holds a copy. An addition that is refused memory leaves all unchanged. Threads
 * change copies of one set at the same time. */
#include "tests.h"

#include <pthread.h>

enum { KINDS = 3, SIZES = 4, THREADS = 4, ROUNDS = 40 };
enum { LONGEST_ELEMENT = 64, CHANGES = 300, ROOM = 1 << 24, FEW = 1000 };

/* The elements, in the order of their numbers. */
static const char *const formats[KINDS] = {"%zu", "'text %06zu'", "{'list':[%zu,'x']}"};
static const size_t sizes[SIZES] = {10, 32, FEW, 100000};

/* How often a set or a bag has each of its possible elements. */
typedef struct model {
    bool is_bag;
    const char *format;
    size_t end;
    uint8_t *counts;
} model;

static struct asm_storage storage;
static struct asm_agent agents[THREADS];
static size_t kind_of_threads;

static size_t append_element(char *at, const model *it, size_t i) {
    return (size_t)snprintf(at, LONGEST_ELEMENT, json(it->format), i);
}

/* Appends the text of the value. */
static size_t append_value(char *at, const model *it) {
    char *end = at + sprintf(at, "{\"%s\":[", it->is_bag ? "bag" : "set");
    for (size_t i = 0; i < it->end; i++) {
        if (it->counts[i] == 0)
            continue;
        if (end[-1] != '[' || end[-2] != ':')
            *end++ = ',';
        if (it->is_bag)
            *end++ = '[';
        end += append_element(end, it, i);
        if (it->is_bag)
            end += sprintf(end, ",%u]", it->counts[i]);
    }
    end += sprintf(end, "]}");
    return (size_t)(end - at);
}

/* The text of both values after this beginning; the caller must free it. */
static char *text_of(const char *start, const char *between, const model *both, const char *rest) {
    size_t room = 256 + (both[0].end + both[1].end) * (LONGEST_ELEMENT + 8);
    char *text = malloc(room), *end = text;
    REQUIRE(text != NULL);
    end += sprintf(end, "%s", json(start));
    end += append_value(end, &both[0]);
    end += sprintf(end, "%s", json(between));
    end += append_value(end, &both[1]);
    sprintf(end, "%s", json(rest));
    return text;
}

/* Every second of the possible elements is there. */
static void make_models(model *both, size_t kind, size_t size) {
    for (size_t k = 0; k < 2; k++) {
        both[k] = (model){k == 0, formats[kind], 2 * size, calloc(2 * size, 1)};
        REQUIRE(both[k].counts != NULL);
        for (size_t i = 0; i < size; i++)
            both[k].counts[2 * i] = k == 0 ? 1 + i % 3 : 1;
    }
}

static void free_models(model *both) {
    free(both[0].counts);
    free(both[1].counts);
}

static void open_with_models(const model *both) {
    char *init = text_of("[[['b'],", "],[['s'],", both, "]]");
    REQUIRE(asm_open(bytes(init), strlen(init), 100, &storage) == ASM_DONE);
    REQUIRE(asm_agents(&storage, agents, THREADS) == ASM_DONE);
    free(init);
}

static void free_all(void) {
    for (size_t i = 0; i < THREADS; i++)
        asm_free_agent(&agents[i]);
    asm_free_storage(&storage);
}

/* The agent has the values at this number, in the step if there is one. */
static void holds(struct asm_agent *agent, struct asm_step *step, const model *both,
                  unsigned number) {
    char start[64];
    snprintf(start, sizeof start, "{'number':%u,'values':[", number);
    char *wanted = text_of(start, ",", both, "]}");
    size_t written, length = strlen(wanted);
    uint8_t *out = malloc(ROOM);
    REQUIRE(out != NULL);
    int32_t code = step ? asm_get(agent, step, TEXT("[['b'],['s']]"), out, ROOM, &written)
                        : asm_peek(agent, TEXT("[['b'],['s']]"), out, ROOM, &written);
    REQUIRE(code == ASM_DONE && written == length && !memcmp(out, wanted, length));
    free(out);
    free(wanted);
}

/* An instruction that adds the element once, or takes it out once. */
static void write_change(char *move, const model *it, size_t i, bool is_addition) {
    char text[LONGEST_ELEMENT];
    append_element(text, it, i);
    if (it->is_bag)
        sprintf(move, "[[\"%s\",[\"b\"],%s,1]]", is_addition ? "bagadd" : "bagremove", text);
    else
        sprintf(move, "[[\"%s\",[\"s\"],%s]]", is_addition ? "add" : "remove", text);
}

static int32_t extend(struct asm_agent *agent, struct asm_step *step, const char *move) {
    uint8_t out[LONGEST];
    size_t written;
    return asm_extend(agent, step, bytes(move), strlen(move), out, sizeof out, &written);
}

/* Some element comes or goes, in the step and in the model. */
static void change(struct asm_agent *agent, struct asm_step *step, model *both, size_t turn) {
    model *it = &both[turn % 2];
    size_t i = turn * 7919 % it->end;
    bool is_addition = it->counts[i] == 0 || (it->is_bag && turn % 4 == 0);
    char move[2 * LONGEST_ELEMENT];
    write_change(move, it, i, is_addition);
    REQUIRE(extend(agent, step, move) == ASM_DONE);
    if (is_addition)
        it->counts[i]++;
    else
        it->counts[i]--;
}

/* One agent changes its copy in a step; what another one has stays until it follows the commit. */
static void changes_are_seen(size_t kind, size_t size) {
    struct asm_step step = {0};
    model before[2], after[2];
    asm_numbers numbers;
    uint32_t number;
    make_models(before, kind, size);
    make_models(after, kind, size);
    open_with_models(before);
    REQUIRE(asm_begin(&agents[0], &step, &number) == ASM_DONE);
    for (size_t turn = 0; turn < CHANGES; turn++)
        change(&agents[0], &step, after, turn + size / 2);
    holds(&agents[0], &step, after, 0);
    holds(&agents[0], NULL, before, 0);
    REQUIRE(asm_commit(&agents[0], &step, &numbers) == ASM_DONE);
    REQUIRE(asm_follow(&agents[0], &number) == ASM_DONE);
    holds(&agents[0], NULL, after, 1);
    holds(&agents[1], NULL, before, 0);
    REQUIRE(asm_follow(&agents[1], &number) == ASM_DONE);
    holds(&agents[1], NULL, after, 1);
    free_models(before);
    free_models(after);
    asm_free_step(&step);
    free_all();
}

/* The allocation that is refused, counted down; 0 is none. */
static _Thread_local unsigned refused;

/* Adds elements with each allocation of an addition refused in turn, until none is. An addition may
 * succeed all the same if a larger buffer alone was refused. */
static void refusals_change_nothing(size_t kind, size_t size, bool is_bag) {
    struct asm_step step = {0};
    model both[2], *it = &both[!is_bag];
    uint32_t number;
    size_t next = 1;
    make_models(both, kind, size);
    open_with_models(both);
    REQUIRE(asm_begin(&agents[0], &step, &number) == ASM_DONE);
    for (unsigned each = 1; refused == 0; each++) {
        char move[2 * LONGEST_ELEMENT];
        write_change(move, it, next, true);
        refused = each;
        int32_t code = extend(&agents[0], &step, move);
        REQUIRE(code == ASM_DONE || (refused == 0 && code == ASM_MEMORY));
        if (code == ASM_DONE) {
            it->counts[next]++;
            next = (next + 2) % it->end;
        }
        unsigned left = refused;
        refused = 0;
        holds(&agents[0], &step, both, 0);
        refused = left;
    }
    refused = 0;
    free_models(both);
    asm_free_step(&step);
    free_all();
}

/* Each round changes a copy of the values that the agents have had in common. */
static void *work(void *argument) {
    struct asm_agent *agent = argument;
    size_t mine = (size_t)(agent - agents);
    for (size_t round = 0; round < ROUNDS; round++) {
        struct asm_step step = {0};
        model both[2];
        uint32_t number;
        make_models(both, kind_of_threads, FEW);
        REQUIRE(asm_begin(agent, &step, &number) == ASM_DONE);
        for (size_t turn = 0; turn < CHANGES / 10; turn++)
            change(agent, &step, both, (mine * ROUNDS + round) * CHANGES + turn);
        holds(agent, &step, both, 0);
        free_models(both);
        asm_free_step(&step);
    }
    return NULL;
}

static void threads_change_copies(size_t kind) {
    pthread_t threads[THREADS];
    model both[2];
    kind_of_threads = kind;
    make_models(both, kind, FEW);
    open_with_models(both);
    for (size_t i = 0; i < THREADS; i++)
        REQUIRE(pthread_create(&threads[i], NULL, work, &agents[i]) == 0);
    for (size_t i = 0; i < THREADS; i++)
        REQUIRE(pthread_join(threads[i], NULL) == 0);
    for (size_t i = 0; i < THREADS; i++)
        holds(&agents[i], NULL, both, 0);
    free_models(both);
    free_all();
}

int main(void) {
    for (size_t kind = 0; kind < KINDS; kind++) {
        for (size_t i = 0; i < SIZES; i++) {
            changes_are_seen(kind, sizes[i]);
            if (sizes[i] <= FEW) {
                refusals_change_nothing(kind, sizes[i], true);
                refusals_change_nothing(kind, sizes[i], false);
            }
        }
        threads_change_copies(kind);
    }
    return 0;
}

void *__real_malloc(size_t size);
void *__real_realloc(void *block, size_t size);
void *__real_memcpy(void *to, const void *from, size_t size);
void *__real_memmove(void *to, const void *from, size_t size);

static bool is_refused(void) { return refused > 0 && --refused == 0; }

void *__wrap_malloc(size_t size) { return is_refused() ? NULL : __real_malloc(size); }

void *__wrap_realloc(void *block, size_t size) {
    return is_refused() ? NULL : __real_realloc(block, size);
}

void *__wrap_memcpy(void *to, const void *from, size_t size) {
    return __real_memcpy(to, from, size);
}

void *__wrap_memmove(void *to, const void *from, size_t size) {
    return __real_memmove(to, from, size);
}
