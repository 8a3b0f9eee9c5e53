/* A storage as it is written in a day: a hash map and a history behind one mutex. A value is an
 * integer, and a move puts values. */
#ifndef TWIN_H
#define TWIN_H

#include <pthread.h>
#include <stdbool.h>
#include <stddef.h>
#include <stdint.h>

enum { TWIN_KEY = 16, TWIN_PARTS = 64, TWIN_BUCKETS = 256 };

/* A location with a value that is put there, or with the number of moves under which it is
 * named. */
typedef struct twin_part {
    char key[TWIN_KEY];
    int64_t value;
} twin_part;

/* A call and its answer: a read's number and its one part; or a fire's puts, what it names, and
 * the number of its move, 0 for a stale one. Its parts are those of the history from `first` on. */
typedef struct twin_event {
    uint32_t number;
    uint8_t agent;
    bool is_read;
    uint16_t puts, named;
    size_t first;
} twin_event;

/* What is known of a location: its value, and the move that wrote it last. */
typedef struct twin_place {
    char key[TWIN_KEY];
    int64_t value;
    uint32_t written;
    struct twin_place *next;
} twin_place;

typedef struct twin {
    pthread_mutex_t lock;
    twin_place *buckets[TWIN_BUCKETS];
    uint32_t number;
    twin_event *events;
    size_t event_count, event_room;
    twin_part *parts;
    size_t part_count, part_room;
} twin;

/* The locations that were read and what was pushed, on the state after this many moves. */
typedef struct twin_step {
    uint32_t number;
    uint16_t read, pushed;
    twin_part gets[TWIN_PARTS], puts[TWIN_PARTS];
} twin_step;

void twin_open(twin *t);
void twin_close(twin *t);

/* Reads a location, with a history entry; a peek makes none. A location that isn't there has 0. */
int64_t twin_read(twin *t, uint8_t agent, const char *key, uint32_t *number);
int64_t twin_peek(twin *t, const char *key, uint32_t *number);

/* Fires the puts, unless a named location was written since. Returns the move's number, 0 for
 * stale. */
uint32_t twin_fire(twin *t, uint8_t agent, const twin_part *puts, uint16_t put_count,
                   const twin_part *named, uint16_t named_count);

void twin_begin(twin *t, twin_step *step);

/* Reads the value that the step sees. Returns false if it was written since the step began. */
bool twin_get(twin *t, twin_step *step, const char *key, int64_t *value);
bool twin_push(twin_step *step, const char *key, int64_t value);
bool twin_pop(twin_step *step);
uint32_t twin_commit(twin *t, uint8_t agent, const twin_step *step);

#endif
