/* What a peer does for main.c: numbers at places, in transactions of its own kind. */
#ifndef PEER_H
#define PEER_H

#include <stdint.h>
#include <stdio.h>
#include <stdlib.h>

enum { MOST_THREADS = 4, PLACES_OF_THREAD = 64, PLACES = MOST_THREADS * PLACES_OF_THREAD };

#define REQUIRE(holds) ((holds) ? (void)0 : peer_failed(#holds, __FILE__, __LINE__))

static inline void peer_failed(const char *what, const char *file, int line) {
    fprintf(stderr, "%s: line %d: %s\n", file, line, what);
    exit(1);
}

/* Each place holds 0. The folder may be written, if the peer needs files. */
void peer_open(unsigned threads, const char *folder);

/* One transaction of the thread: it reads these places, and adds the numbers to the first ones of
 * them. It is tried until it commits. */
void peer_step(unsigned thread, const unsigned *places, unsigned reads, unsigned writes,
               const int64_t *more);

/* The sum of so many places from the first on, read in one transaction. */
int64_t peer_sum(unsigned thread, unsigned first, unsigned count);

void peer_close(void);

#endif
