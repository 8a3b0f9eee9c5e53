/* What is measured: the same works, done by the library and by a twin behind a lock. */
#ifndef BENCH_H
#define BENCH_H

#include <inttypes.h>
#include <stdbool.h>
#include <stddef.h>
#include <stdio.h>
#include <stdlib.h>

enum { THREADS = 16, LOCATIONS = 64 };

/* READ_FIRE: read, answer, and a fire of one put that names what was read. STEP: begin, get,
 * push of one put, commit. PUSH_POP: a push on a step that was begun before, and its pop. The
 * PLAIN ones are the same without text. */
enum work { READ_FIRE, STEP, PLAIN_STEP, PEEK, PLAIN_PEEK, PUSH_POP, WORKS };

/* Does the work once, as the agent of the thread, at the location with this number. Returns
 * whether it was done: otherwise something was stale, and the work must be repeated. A work that
 * fires adds 1 there. */
typedef bool work_call(unsigned thread, unsigned location);

/* A side that does the works: the library or the twin. */
typedef struct side {
    /* Opens a storage for this many moves, with 0 at each location, and agents for the threads. */
    void (*open)(unsigned moves);
    work_call *works[WORKS];
    /* The sum of all locations; the storage is freed. */
    int64_t (*close)(void);
} side;

extern const side ours, theirs;

#define REQUIRE(holds) require((holds), #holds, __FILE__, __LINE__)

static inline void require(bool holds, const char *what, const char *file, int line) {
    if (!holds) {
        fprintf(stderr, "%s: line %d: %s\n", file, line, what);
        exit(1);
    }
}

#endif
