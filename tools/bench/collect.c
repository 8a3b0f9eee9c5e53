/* Measures steps that collect into one set, bag or counter: the milliseconds that extensions take,
 * each with one partial update, also if each element is removed again, and the microseconds of one
 * more beside many elements.
 *
 *     cc -std=c11 -O2 -D_POSIX_C_SOURCE=200809L -Ibindings/out -o collect tools/bench/collect.c \
 *         bindings/out/libfolugben.a && ./collect */
#include "folugben.h"

#include <stdio.h>
#include <stdlib.h>
#include <string.h>
#include <time.h>

#define REQUIRE(holds) ((holds) ? (void)0 : fail(#holds))

enum { MANY = 4000, LATER = 200, ROOM = 64 };

typedef struct kind {
    const char *name, *first, *one, *back;
} kind;

/* What is below, the move of one extension, and one that undoes it, except for counters. */
static const kind kinds[] = {
    {"set", "{\"set\":[]}", "[[\"add\",[\"x\"],%u]]", "[[\"remove\",[\"x\"],%u]]"},
    {"bag", "{\"bag\":[]}", "[[\"bagadd\",[\"x\"],%u,1]]", "[[\"bagremove\",[\"x\"],%u,1]]"},
    {"counter", "0", "[[\"inc\",[\"x\"],%u]]", NULL},
};

static struct asm_storage storage;
static struct asm_agent agent;
static struct asm_step step;

static void fail(const char *what) {
    fprintf(stderr, "collect: %s doesn't hold\n", what);
    exit(1);
}

static double now(void) {
    struct timespec t;
    clock_gettime(CLOCK_MONOTONIC, &t);
    return (double)t.tv_sec * 1e3 + (double)t.tv_nsec / 1e6;
}

static void begin(const char *value) {
    size_t room = strlen(value) + ROOM;
    char *init = malloc(room);
    uint32_t number;
    REQUIRE(init != NULL);
    snprintf(init, room, "[[[\"x\"],%s]]", value);
    REQUIRE(asm_open((const uint8_t *)init, strlen(init), 1, &storage) == ASM_DONE);
    REQUIRE(asm_agent(&storage, 0, &agent) == ASM_DONE);
    REQUIRE(asm_begin(&agent, &step, &number) == ASM_DONE);
    free(init);
}

static void end(void) {
    asm_free_step(&step);
    asm_free_agent(&agent);
    asm_free_storage(&storage);
}

static void extend(const char *text) {
    uint8_t out[ROOM];
    size_t written;
    REQUIRE(asm_extend(&agent, &step, (const uint8_t *)text, strlen(text), out, sizeof out, &written) == ASM_DONE);
}

static void extend_by(const kind *k, unsigned n) {
    char text[ROOM];
    snprintf(text, sizeof text, k->one, n);
    extend(text);
}

static void take_back(const kind *k, unsigned n) {
    char text[ROOM];
    snprintf(text, sizeof text, k->back, n);
    extend(text);
}

/* The milliseconds of this many extensions, every second of which undoes the one before it. */
static double taken_back(const kind *k, unsigned times) {
    begin(k->first);
    double from = now();
    extend_by(k, 0);
    for (unsigned i = 1; i < times / 2; i++) {
        extend_by(k, i);
        take_back(k, i - 1);
    }
    double seconds = now() - from;
    end();
    return seconds;
}

/* The milliseconds of this many extensions, over what is below or after a put. */
static double collected(const kind *k, unsigned times, bool is_put) {
    begin(k->first);
    double from = now();
    if (is_put) {
        char text[ROOM];
        snprintf(text, sizeof text, "[[\"put\",[\"x\"],%s]]", k->first);
        extend(text);
    }
    for (unsigned i = 0; i < times; i++)
        extend_by(k, i);
    double seconds = now() - from;
    end();
    return seconds;
}

/* The set or the bag of this many elements, below those that are added later. */
static char *large(bool is_bag, unsigned elements) {
    char *text = malloc((size_t)elements * 16 + ROOM);
    REQUIRE(text != NULL);
    int at = sprintf(text, is_bag ? "{\"bag\":[" : "{\"set\":[");
    for (unsigned i = 0; i < elements; i++)
        at += sprintf(text + at, is_bag ? "%s[%u,1]" : "%s%u", i ? "," : "", MANY + i);
    strcpy(text + at, "]}");
    return text;
}

/* The microseconds of an extension beside this many elements, once the first two have been made. */
static double beside(const kind *k, unsigned elements) {
    char *text = large(k == &kinds[1], elements);
    begin(text);
    free(text);
    extend_by(k, 0);
    extend_by(k, 1);
    double from = now();
    for (unsigned i = 2; i < LATER + 2; i++)
        extend_by(k, i);
    double seconds = (now() - from) * 1e3 / LATER;
    end();
    return seconds;
}

/* The same of an addition and its removal, by turns. */
static double back_and_forth(const kind *k, unsigned elements) {
    char *text = large(k == &kinds[1], elements);
    begin(text);
    free(text);
    extend_by(k, 0);
    take_back(k, 0);
    double from = now();
    for (unsigned i = 0; i < LATER / 2; i++) {
        extend_by(k, 0);
        take_back(k, 0);
    }
    double seconds = (now() - from) * 1e3 / LATER;
    end();
    return seconds;
}

int main(void) {
    puts("milliseconds of 500, 1000, 2000 and 4000 extensions");
    for (unsigned put = 0; put < 2; put++)
        for (const kind *k = kinds; k < kinds + 3; k++) {
            printf("%-8s %s", k->name, put ? "after a put:" : "over a value:");
            for (unsigned times = MANY / 8; times <= MANY; times *= 2)
                printf(" %9.2f", collected(k, times, put));
            puts("");
        }
    for (const kind *k = kinds; k < kinds + 2; k++) {
        printf("%-8s and removals: ", k->name);
        for (unsigned times = MANY / 8; times <= MANY; times *= 2)
            printf(" %9.2f", taken_back(k, times));
        puts("");
    }
    puts("microseconds of one more beside 10 and 100,000 elements");
    for (const kind *k = kinds; k < kinds + 2; k++)
        printf("%-8s %9.2f %9.2f, by turns %9.2f %9.2f\n", k->name, beside(k, 10), beside(k, 100000),
               back_and_forth(k, 10), back_and_forth(k, 100000));
    return 0;
}
