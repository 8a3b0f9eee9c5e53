/* What a run's folder leaves after a power failure or a kill at any moment, by a log of calls that
 * is played on a simulated disk. */
#include "disk.h"

#ifndef ROUNDS
#define ROUNDS 1000
#endif

enum { STEPS = 160 };

/* A call that was asked for: what was reported as saved before it, and how many drops were ordered
 * by then. */
static struct step {
    int32_t request;
    char name[NAME_ROOM];
    text text;
    asm_run_numbers reported;
    char digest[DIGEST];
    unsigned drops;
} steps[STEPS + 1];
static unsigned done_steps;

/* Logs what the run asks for until it rests. */
static void log_all(struct asm_run *run, const char *name, text written, unsigned drops) {
    for (int32_t request; (request = request_of(run)) != ASM_REST;) {
        REQUIRE(done_steps < STEPS);
        struct step *it = &steps[done_steps++];
        *it = (struct step){.request = request, .text = written, .drops = drops};
        strcpy(it->name, name);
        it->reported = saved_of(run, it->digest);
        if (!*name)
            return; /* the folder was flushed, and would be read now */
        REQUIRE(asm_run_done(run) == ASM_DONE);
    }
}

/* Logs a run that saves all but the last two segments, and drops some of the oldest ones in
 * between. */
static void log_run(void) {
    struct asm_run run = {0};
    char name[NAME_ROOM], names[SEGMENTS][NAME_ROOM];
    unsigned drops = 0;
    done_steps = 0;
    REQUIRE(asm_run_open(&run) == ASM_DONE);
    log_all(&run, "", (text){NULL, 0}, 0);
    REQUIRE(asm_run_read(&run) == ASM_DONE);
    for (unsigned k = 0; k + 2 < SEGMENTS; k++) {
        REQUIRE(hand(&run, k, name) == ASM_DONE);
        strcpy(names[k], name);
        log_all(&run, name, text_of(k), drops);
        uint64_t number = 9;
        while (drops < k && below(3) == 0) {
            REQUIRE(asm_run_drop(&run, &number) == ASM_DONE && number == drops);
            log_all(&run, names[number], (text){NULL, 0}, ++drops);
        }
    }
    steps[done_steps] = (struct step){.drops = drops};
    steps[done_steps].reported = saved_of(&run, steps[done_steps].digest);
    REQUIRE(steps[done_steps].reported.segments == SEGMENTS - 2);
    asm_free_run(&run);
}

static int by_name(const void *one, const void *other) {
    return strcmp((*(entry *const *)one)->name, (*(entry *const *)other)->name);
}

/* Returns the segments that are there, in ascending order of names. */
static unsigned listed(disk *it, entry **found) {
    unsigned count = 0;
    for (unsigned i = 0; i < it->names; i++)
        if (it->entries[i].to >= 0 && strstr(it->entries[i].name, ".journal"))
            found[count++] = &it->entries[i];
    qsort(found, count, sizeof *found, by_name);
    return count;
}

/* Opens the folder, and returns whether all of it is read, and is what was saved. */
static bool reads(struct asm_run *run, disk *it) {
    entry *found[NAMES];
    asm_audit_numbers told;
    unsigned count = listed(it, found);
    REQUIRE(asm_run_open(run) == ASM_DONE && request_of(run) == ASM_FLUSH_FOLDER);
    do_on(it, ASM_FLUSH_FOLDER, "", (text){NULL, 0});
    for (unsigned i = 0; i < count; i++) {
        text read = it->files[found[i]->to].text;
        unsigned k = (unsigned)strtoul(found[i]->name, NULL, 10);
        if (code_of(run, found[i]->name, read, &told) != ASM_DONE || told.parts != i + 1)
            return false;
        if (k >= SEGMENTS || read.len != text_of(k).len ||
            memcmp(read.at, segments[k].journal, read.len))
            return false;
    }
    char digest[DIGEST];
    return asm_run_read(run) == ASM_DONE &&
           saved_of(run, digest).segments - saved_of(run, digest).first == count;
}

/* Saves the next segment on the disk, and returns whether a power failure leaves it. */
static bool goes_on(struct asm_run *run, disk *it) {
    struct asm_run again = {0};
    char name[NAME_ROOM], digest[DIGEST];
    unsigned k = (unsigned)saved_of(run, digest).segments;
    REQUIRE(hand(run, k, name) == ASM_DONE);
    for (int32_t request; (request = request_of(run)) != ASM_REST;
         REQUIRE(asm_run_done(run) == ASM_DONE))
        do_on(it, request, name, text_of(k));
    REQUIRE(saved_of(run, digest).segments == k + 1);
    fail_power(it);
    bool is_right = reads(&again, it) && saved_of(&again, digest).segments == k + 1;
    asm_free_run(&again);
    return is_right;
}

/* Plays the log up to some step on an empty disk, where the driver forgets one kind of call, and
 * ends the process or fails the power; returns whether all that was reported is there, and only
 * what was dropped by order is gone. */
static bool survives(int32_t forgotten) {
    static disk it;
    struct asm_run run = {0};
    char digest[DIGEST];
    unsigned at = below(done_steps + 1);
    it = (disk){.count = 0};
    for (unsigned i = 0; i < at; i++)
        if (steps[i].request != forgotten || i == 0)
            do_on(&it, steps[i].request, steps[i].name, steps[i].text);
    const struct step *now = &steps[at];
    if (at < done_steps && now->request != forgotten && below(2))
        do_on(&it, now->request, now->name,
              now->request == ASM_WRITE_NEW ? torn(now->text) : now->text);
    if (below(4))
        fail_power(&it);
    bool is_right = reads(&run, &it);
    if (is_right) {
        asm_run_numbers found = saved_of(&run, digest);
        is_right =
            found.first <= now->drops && found.segments >= now->reported.segments &&
            found.segments <= now->reported.segments + 1 &&
            (now->reported.segments == 0 || found.first < found.segments) &&
            (found.segments != now->reported.segments || !memcmp(digest, now->digest, DIGEST)) &&
            goes_on(&run, &it);
    }
    asm_free_run(&run);
    return is_right;
}

/* What was reported survives in each of many states; a driver that forgets a call loses something,
 * and this test sees it. */
static void crashes_lose_nothing(void) {
    const int32_t forgotten[] = {ASM_WRITE_NEW, ASM_FLUSH_NEW, ASM_RENAME_NEW, ASM_FLUSH_FOLDER};
    for (unsigned runs = 0; runs < 3; runs++) {
        log_run();
        for (unsigned i = 0; i < ROUNDS; i++)
            REQUIRE(survives(ASM_REST));
        for (unsigned k = 0; k < 4; k++) {
            unsigned lost = 0;
            for (unsigned i = 0; i < ROUNDS; i++)
                lost += !survives(forgotten[k]);
            REQUIRE(lost > ROUNDS / 20);
        }
    }
}

int main(void) {
    make_segments();
    crashes_lose_nothing();
    free_segments();
    printf("crashes: what was saved survives\n");
}
