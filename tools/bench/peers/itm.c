/* GCC's transactional memory: numbers in memory, and no record of what a step did. */
#include "peer.h"

static int64_t numbers[PLACES];
/* The sum of what each thread's last step read, so that no read is left out. */
static int64_t sums[MOST_THREADS];

void peer_open(unsigned threads, const char *folder) {
    (void)threads;
    (void)folder;
}

void peer_step(unsigned thread, const unsigned *places, unsigned reads, unsigned writes,
               const int64_t *more) {
    int64_t sum;
    __transaction_atomic {
        sum = 0;
        for (unsigned i = 0; i < reads; i++)
            sum += numbers[places[i]];
        for (unsigned i = 0; i < writes; i++)
            numbers[places[i]] += more[i];
    }
    sums[thread] = sum;
}

int64_t peer_sum(unsigned thread, unsigned first, unsigned count) {
    int64_t sum = 0;
    (void)thread;
    __transaction_atomic {
        sum = 0;
        for (unsigned i = first; i < first + count; i++)
            sum += numbers[i];
    }
    return sum;
}

void peer_close(void) {}
