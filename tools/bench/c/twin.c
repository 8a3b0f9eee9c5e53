#include "twin.h"

#include "bench.h"

#include <string.h>

void twin_open(twin *t) {
    *t = (twin){.number = 0};
    REQUIRE(!pthread_mutex_init(&t->lock, NULL));
}

void twin_close(twin *t) {
    for (size_t i = 0; i < TWIN_BUCKETS; i++)
        for (twin_place *at = t->buckets[i], *next; at != NULL; at = next) {
            next = at->next;
            free(at);
        }
    free(t->events);
    free(t->parts);
    REQUIRE(!pthread_mutex_destroy(&t->lock));
}

static void lock(twin *t) { REQUIRE(!pthread_mutex_lock(&t->lock)); }
static void unlock(twin *t) { REQUIRE(!pthread_mutex_unlock(&t->lock)); }

static void set_key(char *to, const char *key) {
    REQUIRE(strlen(key) < TWIN_KEY);
    memcpy(to, key, strlen(key) + 1);
}

/* The place of the location, which is created if it isn't there. */
static twin_place *place_of(twin *t, const char *key) {
    uint32_t hash = 2166136261u;
    for (const char *c = key; *c; c++)
        hash = (hash ^ (uint8_t)*c) * 16777619u;
    twin_place **at = &t->buckets[hash % TWIN_BUCKETS];
    for (; *at != NULL; at = &(*at)->next)
        if (strcmp((*at)->key, key) == 0)
            return *at;
    REQUIRE((*at = calloc(1, sizeof **at)) != NULL);
    set_key((*at)->key, key);
    return *at;
}

/* Room for this many more items, of which there are `count`. */
static void *with_room(void *items, size_t size, size_t count, size_t more, size_t *room) {
    if (count + more <= *room)
        return items;
    *room = 2 * *room + more + 64;
    void *larger = realloc(items, *room * size);
    REQUIRE(larger != NULL);
    return larger;
}

static void add_event(twin *t, twin_event event, const twin_part *puts, const twin_part *named) {
    size_t more = (size_t)event.puts + event.named;
    t->events = with_room(t->events, sizeof event, t->event_count, 1, &t->event_room);
    t->parts = with_room(t->parts, sizeof *puts, t->part_count, more, &t->part_room);
    event.first = t->part_count;
    t->events[t->event_count++] = event;
    memcpy(t->parts + t->part_count, puts, event.puts * sizeof *puts);
    if (event.named > 0)
        memcpy(t->parts + t->part_count + event.puts, named, event.named * sizeof *named);
    t->part_count += more;
}

int64_t twin_read(twin *t, uint8_t agent, const char *key, uint32_t *number) {
    twin_part part;
    set_key(part.key, key);
    lock(t);
    part.value = place_of(t, key)->value;
    *number = t->number;
    twin_event event = {.number = t->number, .agent = agent, .is_read = true, .puts = 1};
    add_event(t, event, &part, NULL);
    unlock(t);
    return part.value;
}

int64_t twin_peek(twin *t, const char *key, uint32_t *number) {
    lock(t);
    int64_t value = place_of(t, key)->value;
    *number = t->number;
    unlock(t);
    return value;
}

uint32_t twin_fire(twin *t, uint8_t agent, const twin_part *puts, uint16_t put_count,
                   const twin_part *named, uint16_t named_count) {
    twin_event event = {.agent = agent, .puts = put_count, .named = named_count};
    bool is_valid = true;
    lock(t);
    for (size_t i = 0; i < named_count; i++)
        is_valid = is_valid && place_of(t, named[i].key)->written <= named[i].value;
    if (is_valid) {
        event.number = ++t->number;
        for (size_t i = 0; i < put_count; i++) {
            twin_place *at = place_of(t, puts[i].key);
            at->value = puts[i].value;
            at->written = t->number;
        }
    }
    add_event(t, event, puts, named);
    unlock(t);
    return event.number;
}

void twin_begin(twin *t, twin_step *step) {
    lock(t);
    step->number = t->number;
    unlock(t);
    step->read = step->pushed = 0;
}

bool twin_get(twin *t, twin_step *step, const char *key, int64_t *value) {
    for (size_t i = step->pushed; i > 0; i--)
        if (strcmp(step->puts[i - 1].key, key) == 0) {
            *value = step->puts[i - 1].value;
            return true;
        }
    lock(t);
    const twin_place *at = place_of(t, key);
    bool is_valid = at->written <= step->number;
    *value = at->value;
    unlock(t);
    if (!is_valid || step->read == TWIN_PARTS)
        return false;
    set_key(step->gets[step->read].key, key);
    step->gets[step->read++].value = step->number;
    return true;
}

bool twin_push(twin_step *step, const char *key, int64_t value) {
    if (step->pushed == TWIN_PARTS)
        return false;
    set_key(step->puts[step->pushed].key, key);
    step->puts[step->pushed++].value = value;
    return true;
}

bool twin_pop(twin_step *step) {
    if (step->pushed == 0)
        return false;
    step->pushed--;
    return true;
}

uint32_t twin_commit(twin *t, uint8_t agent, const twin_step *step) {
    return twin_fire(t, agent, step->puts, step->pushed, step->gets, step->read);
}
