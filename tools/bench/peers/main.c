/* Measures a peer: `PEER WORK THREADS COUNT FOLDER` prints the nanoseconds that a step took, for
 * all threads together. In the works `apart` and `together` a step adds one to a number, each
 * thread to one of its own or all to the same; in `wide` it reads 16 of the thread's numbers and
 * adds one to four of them; in `reader` a thread sums 64 numbers while another moves ones between
 * them. */
#define _POSIX_C_SOURCE 200809L
#include "peer.h"

#include <pthread.h>
#include <stdatomic.h>
#include <stdbool.h>
#include <string.h>
#include <time.h>

enum { READS = 16, WRITES = 4, STRIDE = 7, APART = 37 };

static const char *work;
static unsigned threads, count;
static atomic_bool is_over;
static pthread_barrier_t gate;
/* When each thread began and ended, behind the gate. */
static double begins[MOST_THREADS], ends[MOST_THREADS];

static double now(void) {
    struct timespec at;
    clock_gettime(CLOCK_MONOTONIC, &at);
    return 1e9 * (double)at.tv_sec + (double)at.tv_nsec;
}

static void step_alone(unsigned thread, unsigned i) {
    const unsigned place = strcmp(work, "together") ? thread * PLACES_OF_THREAD : 0;
    const int64_t more = 1;
    (void)i;
    peer_step(thread, &place, 1, 1, &more);
}

static void step_wide(unsigned thread, unsigned i) {
    static const int64_t more[WRITES] = {1, 1, 1, 1};
    unsigned places[READS];
    for (unsigned k = 0; k < READS; k++)
        places[k] = thread * PLACES_OF_THREAD + (i * STRIDE + k * APART) % PLACES_OF_THREAD;
    peer_step(thread, places, READS, WRITES, more);
}

static void step_reader(unsigned thread, unsigned i) {
    (void)i;
    REQUIRE(peer_sum(thread, 0, PLACES_OF_THREAD) == 0);
}

/* The writer beside the reader. */
static void *write_on(void *unused) {
    static const int64_t more[2] = {1, -1};
    (void)unused;
    pthread_barrier_wait(&gate);
    for (unsigned i = 0; !is_over; i++) {
        const unsigned places[2] = {i * STRIDE % PLACES_OF_THREAD,
                                    (i * STRIDE + APART) % PLACES_OF_THREAD};
        peer_step(1, places, 2, 2, more);
    }
    return NULL;
}

static void *run(void *at) {
    unsigned thread = *(unsigned *)at;
    void (*step)(unsigned, unsigned) = !strcmp(work, "wide")     ? step_wide
                                       : !strcmp(work, "reader") ? step_reader
                                                                 : step_alone;
    pthread_barrier_wait(&gate);
    begins[thread] = now();
    for (unsigned i = 0; i < count; i++)
        step(thread, i);
    ends[thread] = now();
    return NULL;
}

/* The nanoseconds from the first thread's begin to the last one's end. */
static double run_all(void) {
    bool has_writer = !strcmp(work, "reader");
    pthread_t handles[MOST_THREADS], writer;
    unsigned numbers[MOST_THREADS];
    pthread_barrier_init(&gate, NULL, threads + has_writer);
    for (unsigned i = 0; i < threads; i++) {
        numbers[i] = i;
        REQUIRE(pthread_create(&handles[i], NULL, run, &numbers[i]) == 0);
    }
    if (has_writer)
        REQUIRE(pthread_create(&writer, NULL, write_on, NULL) == 0);
    for (unsigned i = 0; i < threads; i++)
        pthread_join(handles[i], NULL);
    is_over = true;
    if (has_writer)
        pthread_join(writer, NULL);
    double begin = begins[0], end = ends[0];
    for (unsigned i = 1; i < threads; i++) {
        begin = begins[i] < begin ? begins[i] : begin;
        end = ends[i] > end ? ends[i] : end;
    }
    return end - begin;
}

int main(int argc, char **argv) {
    REQUIRE(argc == 5);
    work = argv[1];
    threads = (unsigned)atoi(argv[2]);
    count = (unsigned)atoi(argv[3]);
    bool is_reader = !strcmp(work, "reader"), is_wide = !strcmp(work, "wide");
    REQUIRE(0 < threads && threads <= (is_reader ? 1 : MOST_THREADS) && count > 0);
    peer_open(threads + is_reader, argv[4]);
    double spent = run_all();
    int64_t added = is_reader ? 0 : (int64_t)threads * count * (is_wide ? WRITES : 1);
    REQUIRE(peer_sum(0, 0, PLACES) == added);
    peer_close();
    printf("%.1f\n", spent / threads / count);
    return 0;
}
