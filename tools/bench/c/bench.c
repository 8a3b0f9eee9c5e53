/* Does each work by the library and by the twin in turn, and writes a line for it: its name, and
 * the medians of the nanoseconds that one call took, for all threads together: the library's and
 * the twin's by the clock, and both of processor time.
 *
 *     bench [--quick] */
#define _GNU_SOURCE
#include "bench.h"

#include <pthread.h>
#include <sched.h>
#include <string.h>
#include <time.h>

enum { LEAST = 5, MOST = 9 };

/* A work has no further rounds after this many seconds, beyond the minimum number of rounds. */
static double seconds = 0.9;
/* What the numbers of calls are divided by. */
static unsigned part = 1;

/* The twin is called this many times as often, so that a round of either is as long, and other
 * work on the machine interrupts both alike. */
typedef struct row {
    const char *name;
    enum work work;
    bool fires;
    unsigned calls, times;
} row;

static const row rows[] = {
    {"read, answer, fire", READ_FIRE, true, 20000, 16},
    {"step: begin, get, push, commit", STEP, true, 20000, 16},
    {"step without text", PLAIN_STEP, true, 20000, 16},
    {"peek", PEEK, false, 40000, 32},
    {"peek_at", PLAIN_PEEK, false, 200000, 8},
    {"push and pop", PUSH_POP, false, 30000, 200},
};

/* Those that are for fires alone have more threads than most machines have processors. */
typedef struct crowd {
    const char *name;
    unsigned threads;
    bool shares, is_for_fires;
} crowd;

static const crowd crowds[] = {
    {"1 thread", 1, false, false},
    {"4 threads, a location each", 4, false, false},
    {"4 threads, one location", 4, true, false},
    {"8 threads, a location each", 8, false, true},
    {"8 threads, one location", 8, true, true},
    {"16 threads, a location each", THREADS, false, true},
    {"16 threads, one location", THREADS, true, true},
};

typedef struct worker {
    _Alignas(128) pthread_t thread;
    work_call *work;
    bool is_alone;
    unsigned number, location, calls;
    double begin, end;
} worker;

static worker workers[THREADS];
static pthread_barrier_t gate;

/* What one call took, in nanoseconds. */
typedef struct call_time {
    double clock, processor;
} call_time;

static double seconds_of(clockid_t clock) {
    struct timespec at;
    clock_gettime(clock, &at);
    return (double)at.tv_sec + 1e-9 * (double)at.tv_nsec;
}

static double now(void) { return seconds_of(CLOCK_MONOTONIC); }

/* Moves the thread to a separate processor, if there are as many, and then removes that
 * restriction: otherwise the scheduler may leave all threads on one for the short time of a
 * round. */
static void spread(unsigned number) {
    cpu_set_t all, own;
    REQUIRE(!sched_getaffinity(0, sizeof all, &all));
    unsigned left = number % (unsigned)CPU_COUNT(&all), at = 0;
    while (!CPU_ISSET(at, &all) || left-- > 0)
        at++;
    CPU_ZERO(&own);
    CPU_SET(at, &own);
    REQUIRE(!sched_setaffinity(0, sizeof own, &own));
    REQUIRE(!sched_setaffinity(0, sizeof all, &all));
}

static void *run_worker(void *argument) {
    worker *w = argument;
    pthread_barrier_wait(&gate);
    if (!w->is_alone)
        spread(w->number);
    w->begin = now();
    for (unsigned done = 0; done < w->calls;)
        done += w->work(w->number, w->location);
    w->end = now();
    return NULL;
}

/* Makes this many calls, which the threads share out among them. */
static call_time timed(work_call *work, const crowd *crowd, unsigned calls) {
    double begin = 0, end = 0, used = seconds_of(CLOCK_PROCESS_CPUTIME_ID);
    REQUIRE(!pthread_barrier_init(&gate, NULL, crowd->threads));
    for (unsigned i = 0; i < crowd->threads; i++) {
        worker *w = &workers[i];
        *w = (worker){.work = work, .number = i, .calls = calls / crowd->threads};
        w->location = crowd->shares ? 0 : i;
        w->is_alone = crowd->threads == 1;
        REQUIRE(!pthread_create(&w->thread, NULL, run_worker, w));
    }
    for (unsigned i = 0; i < crowd->threads; i++) {
        REQUIRE(!pthread_join(workers[i].thread, NULL));
        begin = i == 0 || workers[i].begin < begin ? workers[i].begin : begin;
        end = workers[i].end > end ? workers[i].end : end;
    }
    REQUIRE(!pthread_barrier_destroy(&gate));
    used = seconds_of(CLOCK_PROCESS_CPUTIME_ID) - used;
    return (call_time){1e9 * (end - begin) / calls, 1e9 * used / calls};
}

/* A round on a separate storage, whose locations must show each fire. */
static call_time round_of(const side *side, const row *row, const crowd *crowd, unsigned calls) {
    side->open(calls);
    call_time time = timed(side->works[row->work], crowd, calls);
    REQUIRE(side->close() == (row->fires ? calls : 0));
    return time;
}

static int by_size(const void *a, const void *b) {
    double first = *(const double *)a, second = *(const double *)b;
    return (first > second) - (first < second);
}

static double median(double *times, size_t count) {
    qsort(times, count, sizeof *times, by_size);
    return (times[(count - 1) / 2] + times[count / 2]) / 2;
}

static void measure(const row *row, const crowd *crowd) {
    double times[4][MOST], begin = now();
    unsigned calls = row->calls / part / THREADS * THREADS;
    size_t count = 0;
    while (count < LEAST || (count < MOST && now() - begin < seconds)) {
        call_time mine = round_of(&ours, row, crowd, calls);
        call_time its = round_of(&theirs, row, crowd, row->times * calls);
        times[0][count] = mine.clock;
        times[1][count] = its.clock;
        times[2][count] = mine.processor;
        times[3][count] = its.processor;
        count++;
    }
    printf("C: %s; %s", row->name, crowd->name);
    for (size_t i = 0; i < 4; i++)
        printf("\t%.0f", median(times[i], count));
    puts("");
    fflush(stdout);
}

int main(int count, char **words) {
    if (count > 1 && strcmp(words[1], "--quick") == 0) {
        seconds = 0.1;
        part = 5;
    }
    for (size_t i = 0; i < sizeof rows / sizeof *rows; i++)
        for (size_t k = 0; k < sizeof crowds / sizeof *crowds; k++)
            if (rows[i].fires || !crowds[k].is_for_fires)
                measure(&rows[i], &crowds[k]);
    return 0;
}
