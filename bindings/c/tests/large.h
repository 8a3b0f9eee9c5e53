/* Shared parts of the tests of large inputs: texts that grow, and what calls cost at three sizes.
 *
 * The linker's --wrap puts the functions at the end in the place of malloc, realloc, free, memcpy
 * and memmove. They refuse nothing; they count. A call costs the allocations, the bytes asked for,
 * the bytes copied, and the processor time. Each cost of a call is compared between the sizes of
 * what the call works on: it is to be level, or grow at most as the size does. */
#ifndef LARGE_H
#define LARGE_H

#include "tests.h"

#include <sys/resource.h>
#include <time.h>

/* What the calls work on has one of these sizes. */
enum { SIZES = 3 };

/* How a cost may grow with the size: by the digits of a number; by what a deeper tree takes; or as
 * the size does, or so in time alone, as a walk that makes nothing. */
typedef enum growth { SAME, LEVEL, WALK, LINEAR } growth;

/* What a deeper tree takes, and what each further item may take of a LINEAR cost that was small. */
enum { DIGITS = 64, DEEPER_ALLOCATIONS = 16, DEEPER_BYTES = 16384 };
enum { ITEM_ALLOCATIONS = 4, ITEM_BYTES = 1024 };

/* Processor time is exact to a factor only, and what takes less than this isn't compared. A call
 * that walks over everything takes a hundred times as long, or more. */
#define TIMES_LONGER 20
#define SHORT_TIME 200e-6

enum { CALLS = 200, ROUNDS = 5 };

typedef struct cost {
    uint64_t allocations, size, copied;
    double seconds;
} cost;

/* A call, and its cost in each round at each size. */
typedef struct call {
    const char *held, *text;
    const size_t *sizes;
    growth growth;
    unsigned rounds[SIZES];
    cost costs[SIZES][ROUNDS];
} call;

static struct costs {
    const char *only;    /* the one part of the test that runs, or none: all run */
    const char *held;    /* what there are many of */
    const size_t *sizes; /* how many */
    unsigned size, count;
    call calls[CALLS];
    cost now, start;
} costs;

static inline double processor_seconds(void) {
    struct timespec t;
    REQUIRE(clock_gettime(CLOCK_THREAD_CPUTIME_ID, &t) == 0);
    return (double)t.tv_sec + (double)t.tv_nsec / 1e9;
}

static inline void start_cost(void) {
    costs.start = costs.now;
    costs.start.seconds = processor_seconds();
}

/* The row of the call; a call is known by its text. */
static inline call *call_of(const char *text, growth growth) {
    for (unsigned i = 0; i < costs.count; i++)
        if (!strcmp(costs.calls[i].text, text) && !strcmp(costs.calls[i].held, costs.held))
            return &costs.calls[i];
    REQUIRE(costs.count < CALLS);
    call *row = &costs.calls[costs.count++];
    *row = (call){.held = costs.held, .text = text, .sizes = costs.sizes, .growth = growth};
    return row;
}

static inline void end_cost(const char *text, growth growth) {
    cost spent = costs.now;
    spent.seconds = processor_seconds() - costs.start.seconds;
    spent.allocations -= costs.start.allocations;
    spent.size -= costs.start.size;
    spent.copied -= costs.start.copied;
    call *row = call_of(text, growth);
    unsigned *round = &row->rounds[costs.size];
    if (*round < ROUNDS)
        row->costs[costs.size][(*round)++] = spent;
}

/* Measures a statement. */
#define COSTS(growth, statement) MEASURE(growth, #statement, statement)

/* Measures a call that returns ASM_DONE. */
#define DOES(growth, call) RETURNS_DONE(growth, #call, call)

/* Measures a call that writes this text. */
#define SAYS(growth, wanted, call)                                                                 \
    do {                                                                                           \
        RETURNS_DONE(growth, #call, call);                                                         \
        answers_with(ASM_DONE, ASM_DONE, json(wanted), said, length, __FILE__, __LINE__);          \
    } while (0)

/* Measures a call that writes the text that grew. */
#define SHOWS(growth, wanted, call)                                                                \
    do {                                                                                           \
        RETURNS_DONE(growth, #call, call);                                                         \
        shows(&(wanted), __FILE__, __LINE__);                                                      \
    } while (0)

/* Measures a call that writes a text of this length. */
#define FILLS(growth, wanted, call)                                                                \
    do {                                                                                           \
        RETURNS_DONE(growth, #call, call);                                                         \
        REQUIRE(length == (wanted));                                                               \
    } while (0)

#define MEASURE(growth, text, statement)                                                           \
    do {                                                                                           \
        start_cost();                                                                              \
        statement;                                                                                 \
        end_cost(text, growth);                                                                    \
    } while (0)

#define RETURNS_DONE(growth, text, call)                                                           \
    do {                                                                                           \
        int32_t code;                                                                              \
        MEASURE(growth, text, code = (call));                                                      \
        returns_done(code, text, __FILE__, __LINE__);                                              \
    } while (0)

/* The buffer of those calls. */
enum { ROOM = 1 << 28 };
static uint8_t said[ROOM];
static size_t length;
#define SAID said, ROOM, &length

static inline void returns_done(int32_t code, const char *what, const char *file, int line) {
    if (code == ASM_DONE)
        return;
    fprintf(stderr, "%s: line %d: %zu %s: code %" PRId32 " of %s\n", file, line,
            costs.sizes[costs.size], costs.held, code, what);
    exit(1);
}

/* The format with two numbers; the text is valid until the fourth call after this one. */
static inline const char *with(const char *format, size_t first, size_t second) {
    static char texts[4][256];
    static unsigned turn;
    char *at = texts[turn++ % 4];
    snprintf(at, sizeof texts[0], format, first, second);
    return at;
}
#define WITH(format, first, second) TEXT(with(format, first, second))

/* A text that grows. */
typedef struct text {
    char *at;
    size_t length, room;
} text;

#define OF(text) bytes((text).at), (text).length

static inline void reserve(text *it, size_t more) {
    if (it->room - it->length >= more)
        return;
    it->room = 2 * it->room + more;
    it->at = realloc(it->at, it->room);
    REQUIRE(it->at != NULL);
}

/* Appends a format with one number, without its comma after a bracket. */
static inline void append(text *it, const char *format, size_t number) {
    enum { LONGEST_ITEM = 128 };
    reserve(it, LONGEST_ITEM);
    bool is_first = it->length > 0 && it->at[it->length - 1] == '[' && *format == ',';
    int added = snprintf(it->at + it->length, LONGEST_ITEM, json(format + is_first), number);
    REQUIRE(0 <= added && added < LONGEST_ITEM);
    it->length += (size_t)added;
}

static inline void append_all(text *it, const char *format, size_t first, size_t end) {
    for (size_t i = first; i < end; i++)
        append(it, format, i);
}

/* Appends bytes that are all the same. */
static inline void append_many(text *it, char byte, size_t count) {
    reserve(it, count + 1);
    memset(it->at + it->length, byte, count);
    it->length += count;
}

static inline void append_text(text *it, const text *other) {
    reserve(it, other->length);
    memcpy(it->at + it->length, other->at, other->length);
    it->length += other->length;
}

/* The text that the last call wrote; the caller must free it. */
static inline text said_text(void) {
    text it = {0};
    append_text(&it, &(text){.at = (char *)said, .length = length});
    return it;
}

/* The text of a list of this many items; the caller must free it. */
static inline text list_of(const char *format, size_t count) {
    text it = {0};
    append(&it, "[", 0);
    append_all(&it, format, 0, count);
    append(&it, "]", 0);
    return it;
}

/* The text that grew was written. */
static inline void shows(const text *wanted, const char *file, int line) {
    if (length == wanted->length && !memcmp(said, wanted->at, length))
        return;
    fprintf(stderr, "%s: line %d: %.200s\n  wanted %.200s\n", file, line, said, wanted->at);
    exit(1);
}

static inline int by_allocations(const void *left, const void *right) {
    uint64_t a = ((const cost *)left)->allocations, b = ((const cost *)right)->allocations;
    return (a > b) - (a < b);
}
static inline int by_size(const void *left, const void *right) {
    uint64_t a = ((const cost *)left)->size, b = ((const cost *)right)->size;
    return (a > b) - (a < b);
}
static inline int by_copied(const void *left, const void *right) {
    uint64_t a = ((const cost *)left)->copied, b = ((const cost *)right)->copied;
    return (a > b) - (a < b);
}

/* The median of each count, and the least time. */
static inline cost usual_cost(call *row, unsigned size) {
    cost *all = row->costs[size], usual = {0};
    unsigned count = row->rounds[size], middle = count / 2;
    if (count == 0)
        return usual;
    usual.seconds = all[0].seconds;
    for (unsigned i = 1; i < count; i++)
        if (all[i].seconds < usual.seconds)
            usual.seconds = all[i].seconds;
    qsort(all, count, sizeof *all, by_allocations);
    usual.allocations = all[middle].allocations;
    qsort(all, count, sizeof *all, by_size);
    usual.size = all[middle].size;
    qsort(all, count, sizeof *all, by_copied);
    usual.copied = all[middle].copied;
    return usual;
}

static inline bool is_within(double few, double many, double times, double more) {
    return many <= few * times + more;
}

/* Returns whether the costs with many items are those with few, as they may have grown. */
static inline bool has_grown_well(growth growth, cost few, cost many, size_t count, size_t larger) {
    double ratio = (double)larger / (double)count;
    double times = growth == LINEAR ? 2 * ratio : 1, longer = growth >= WALK ? ratio : 1;
    double items = growth == LINEAR ? (double)larger : 0, depth = growth == LEVEL || growth == LINEAR;
    double allocations = depth * DEEPER_ALLOCATIONS + items * ITEM_ALLOCATIONS;
    double size = DIGITS + depth * DEEPER_BYTES + items * ITEM_BYTES;
    return is_within((double)few.allocations, (double)many.allocations, times, allocations) &&
           is_within((double)few.size, (double)many.size, times, size) &&
           is_within((double)few.copied, (double)many.copied, times, size) &&
           is_within(few.seconds, many.seconds, TIMES_LONGER * longer, SHORT_TIME);
}

static inline void print_costs(const call *row, const cost *usual) {
    static const char *const growths[] = {"the same", "level", "a walk", "linear"};
    fprintf(stderr, "%s, %s: %s\n", row->held, growths[row->growth], row->text);
    for (unsigned i = 0; i < SIZES; i++)
        if (row->rounds[i])
            fprintf(stderr,
                    "  %7zu: %" PRIu64 " allocations, %" PRIu64 " bytes asked for, %" PRIu64
                    " copied, %.1f us\n",
                    row->sizes[i], usual[i].allocations, usual[i].size, usual[i].copied,
                    usual[i].seconds * 1e6);
}

/* Returns whether the costs of the call have grown well from each size to the next. */
static inline bool is_well(const call *row, const cost *usual) {
    for (unsigned i = 1; i < SIZES; i++)
        if (row->rounds[i - 1] && row->rounds[i] &&
            !has_grown_well(row->growth, usual[i - 1], usual[i], row->sizes[i - 1], row->sizes[i]))
            return false;
    return true;
}

/* Returns the status of the test: 1 if the costs of a call grow too fast. Prints these; those of
 * all calls if one part alone was run. */
static inline int compare_costs(void) {
    int faults = 0;
    for (unsigned i = 0; i < costs.count; i++) {
        call *row = &costs.calls[i];
        cost usual[SIZES];
        for (unsigned size = 0; size < SIZES; size++)
            usual[size] = usual_cost(row, size);
        bool is_good = is_well(row, usual);
        faults += !is_good;
        if (costs.only || !is_good)
            print_costs(row, usual);
    }
    if (faults)
        fprintf(stderr, "%d of %u calls cost too much at a larger size\n", faults, costs.count);
    return faults > 0;
}

/* Begins a test, which ends within a limit of processor time. Its word, if there is one, is what is
 * held in the one part that is to run. */
static inline void begin_test(int argc, char **argv) {
    enum { SECONDS = 120 };
    struct rlimit limit = {SECONDS, SECONDS};
    REQUIRE(setrlimit(RLIMIT_CPU, &limit) == 0);
    costs.only = argc > 1 ? argv[1] : NULL;
}

static inline bool is_part(const char *held) { return !costs.only || !strcmp(costs.only, held); }

/* Runs the work at each size of what is held. */
static inline void at_each_size(const char *held, const size_t *sizes, void work(size_t count)) {
    if (!is_part(held))
        return;
    costs.held = held;
    costs.sizes = sizes;
    for (costs.size = 0; costs.size < SIZES; costs.size++)
        work(sizes[costs.size]);
}

void *__real_malloc(size_t size);
void *__real_realloc(void *block, size_t size);
void *__real_memcpy(void *to, const void *from, size_t size);
void *__real_memmove(void *to, const void *from, size_t size);

void *__wrap_malloc(size_t size) {
    costs.now.allocations++;
    costs.now.size += size;
    return __real_malloc(size);
}

/* A block that grows is counted as if it were copied. */
void *__wrap_realloc(void *block, size_t size) {
    costs.now.allocations++;
    costs.now.size += size;
    costs.now.copied += size;
    return __real_realloc(block, size);
}

void *__wrap_memcpy(void *to, const void *from, size_t size) {
    costs.now.copied += size;
    return __real_memcpy(to, from, size);
}

void *__wrap_memmove(void *to, const void *from, size_t size) {
    costs.now.copied += size;
    return __real_memmove(to, from, size);
}

#endif
