/* Runs: what a folder with a fault is refused for, and each code of each call. */
#include "runs.h"

/* A folder of the first segments, without a disk. */
typedef struct folder {
    char names[SEGMENTS][NAME_ROOM];
    text texts[SEGMENTS];
    unsigned count;
} folder;

static void work(struct asm_run *run) {
    for (unsigned k = 0; request_of(run) != ASM_REST; k++)
        REQUIRE(k < 7 && asm_run_done(run) == ASM_DONE);
}

/* Saves a segment with these numbers and this text. */
static void add(folder *it, struct asm_run *run, uint64_t moves, uint64_t events, text added) {
    size_t written;
    char *name = it->names[it->count];
    REQUIRE(asm_run_hand(run, moves, events, added.at, added.len, (uint8_t *)name, NAME_ROOM - 1,
                         &written) == ASM_DONE);
    name[written] = 0;
    it->texts[it->count++] = added;
    work(run);
}

static void begin(struct asm_run *run) {
    REQUIRE(asm_run_open(run) == ASM_DONE && asm_run_read(run) == ASM_DONE);
}

static folder folder_of(unsigned count) {
    folder made = {.count = 0};
    struct asm_run run = {0};
    begin(&run);
    for (unsigned k = 0; k < count; k++)
        add(&made, &run, segments[k].moves, segments[k].events, text_of(k));
    asm_free_run(&run);
    return made;
}

/* Reads the folder from this segment on, and returns the first code. */
static int32_t read_all(struct asm_run *run, const folder *it, unsigned from,
                        asm_audit_numbers *told) {
    int32_t code = asm_run_open(run);
    REQUIRE(code == ASM_DONE);
    for (unsigned k = from; k < it->count && code == ASM_DONE; k++)
        code = code_of(run, it->names[k], it->texts[k], told);
    return code;
}

/* After a refused text nothing is read, and nothing is saved. */
static void refuses(const folder *it, unsigned from, int32_t wanted, asm_audit_numbers numbers) {
    struct asm_run run = {0};
    asm_audit_numbers told = {9, 9, 9};
    REQUIRE(read_all(&run, it, from, &told) == wanted);
    REQUIRE(told.parts == numbers.parts && told.calls == numbers.calls &&
            told.moves == numbers.moves);
    asm_free_run(&run);
}

static char *copied(text it) {
    char *made = malloc(it.len + 1);
    REQUIRE(made != NULL);
    memcpy(made, it.at, it.len);
    made[it.len] = 0;
    return made;
}

static const asm_audit_numbers none = {0, 0, 0};

/* A folder whose names, texts or order are others is refused, each time with its own code. */
static void faults_are_found(void) {
    folder it = folder_of(5), was = it;
    struct asm_run run = {0};
    asm_audit_numbers told;
    REQUIRE(read_all(&run, &it, 0, &told) == ASM_DONE && told.parts == 5 &&
            told.moves == 2 + 3 + 1 + 2);
    REQUIRE(told.calls == told.moves);
    asm_free_run(&run);
    REQUIRE(read_all(&run, &it, 2, &told) == ASM_DONE && told.parts == 3 &&
            told.moves == 3 + 1 + 2);
    asm_free_run(&run);
    it.names[3][strlen(it.names[3]) - 9] ^= 1; /* its digest */
    refuses(&it, 0, ASM_DAMAGED, none);
    it = was;
    it.names[3][strlen(it.names[3]) - 9] = 'G';
    refuses(&it, 0, ASM_NAME, none);
    it = was;
    it.names[3][strlen(it.names[3]) - 80] ^= 1; /* the digest before it */
    refuses(&it, 0, ASM_PREVIOUS, none);
    it = was;
    it.names[2][9]++; /* the moves before it */
    refuses(&it, 0, ASM_PREVIOUS, none);
    refuses(&it, 2, ASM_DAMAGED, none);
    it = was;
    it.names[1][11]++; /* its moves */
    refuses(&it, 0, ASM_DAMAGED, none);
    it = was;
    memcpy(it.names[2], it.names[1], NAME_ROOM);
    refuses(&it, 0, ASM_NOT_NEXT, none);
    it = was;
    memcpy(it.names[2], it.names[3], NAME_ROOM);
    refuses(&it, 0, ASM_NOT_NEXT, none);
    it = was;
    it.texts[2] = it.texts[3];
    refuses(&it, 0, ASM_DAMAGED, none);
    it = was;
    it.texts[4].len--;
    refuses(&it, 0, ASM_DAMAGED, none);
    for (unsigned i = 0; i < 50; i++) {
        unsigned k = below(5);
        it = was;
        char *changed = copied(was.texts[k]);
        changed[below((unsigned)was.texts[k].len)] ^= (char)(1 + below(255));
        it.texts[k].at = bytes(changed);
        refuses(&it, below(k + 1), ASM_DAMAGED, none);
        free(changed);
    }
}

/* What was saved so, but is no legal run, is refused too: its counts, its opening state, its
 * answers, its form. */
static void saved_faults_are_found(void) {
    struct asm_run run = {0};
    folder it;
    text wrong = text_of(2);
    char *changed = copied(text_of(1)), *answer = strstr(changed, "\"fired\":1");
    REQUIRE(answer != NULL);
    answer[8] = '2';
    for (unsigned k = 0; k < 4; k++) {
        it = (folder){.count = 0};
        begin(&run);
        add(&it, &run, 0, 0, text_of(0));
        if (k == 0)
            add(&it, &run, segments[1].moves + 1, segments[1].events, text_of(1));
        if (k == 1)
            add(&it, &run, segments[1].moves, segments[1].events + 1, text_of(1));
        if (k == 2)
            add(&it, &run, segments[2].moves, segments[2].events, wrong);
        if (k == 3)
            add(&it, &run, segments[1].moves, segments[1].events,
                (text){bytes(changed), strlen(changed)});
        asm_free_run(&run);
        refuses(&it, 0,
                k < 2    ? ASM_COUNTS
                : k == 2 ? ASM_APART
                         : ASM_ILLEGAL,
                k < 2 ? none : (asm_audit_numbers){1, 0, 0});
    }
    it = (folder){.count = 0};
    begin(&run);
    add(&it, &run, 0, 0, text_of(0));
    add(&it, &run, 1, 1, (text){bytes("{\n"), 2});
    asm_free_run(&run);
    refuses(&it, 0, ASM_NOT_JSON, (asm_audit_numbers){1, 1, 0});
    free(changed);
}

static int32_t takes(struct asm_run *run, const char *name, uint64_t length, asm_segment *found) {
    *found = (asm_segment){9, 9, 9, 9};
    return asm_run_name(run, bytes(name), strlen(name), length, found);
}

static bool is_none(asm_segment it) { return !it.number && !it.first && !it.moves && !it.events; }

/* The name with this beginning, and with two digests. */
static const char *named(const char *start) {
    static char name[NAME_ROOM];
    snprintf(name, sizeof name, "%s-%064d-%064d.journal", start, 0, 1);
    return name;
}

static void names_have_codes(void) {
    const struct {
        const char *start;
        int32_t code;
    } rows[] = {
        {"00000000-0-0-0", ASM_DONE},
        {"00000007-12-3-4", ASM_DONE},
        {"00000000-0-0-1", ASM_OPENING},
        {"00000000-0-1-0", ASM_OPENING},
        {"00000000-1-0-0", ASM_OPENING},
        {"00000007-18446744073709551615-1-1", ASM_LONG_RUN},
        {"00000007-18446744073709551616-1-1", ASM_NAME},
        {"0000007-12-3-4", ASM_NAME},
        {"00000007-012-3-4", ASM_NAME},
        {"00000007-12-3", ASM_NAME},
        {"+0000007-12-3-4", ASM_NAME},
        {"", ASM_NAME},
    };
    for (size_t k = 0; k < sizeof rows / sizeof *rows; k++) {
        struct asm_run run = {0};
        asm_segment found;
        REQUIRE(asm_run_open(&run) == ASM_DONE);
        REQUIRE(takes(&run, named(rows[k].start), 5, &found) == rows[k].code);
        REQUIRE(rows[k].code == ASM_DONE || is_none(found));
        if (k == 1)
            REQUIRE(found.number == 7 && found.first == 12 && found.moves == 3 &&
                    found.events == 4);
        asm_free_run(&run);
    }
    struct asm_run run = {0};
    asm_segment found;
    REQUIRE(asm_run_open(&run) == ASM_DONE);
    REQUIRE(asm_run_name(&run, bytes("\xff\xfe"), 2, 5, &found) == ASM_NAME && is_none(found));
    REQUIRE(takes(&run, named("00000007-12-3-4"), UINT64_MAX, &found) == ASM_DAMAGED &&
            is_none(found));
    REQUIRE(takes(&run, named("00000007-12-3-4"), 5, &found) == ASM_DONE);
    REQUIRE(takes(&run, named("00000008-15-3-4"), 5, &found) == ASM_ORDER && is_none(found));
    asm_free_run(&run);
}

/* Of a run of 100,000,000 segments the last one is taken, and no further one is saved. */
static void runs_have_an_end(void) {
    struct asm_run run = {0};
    asm_segment found;
    char name[NAME_ROOM];
    REQUIRE(asm_run_open(&run) == ASM_DONE);
    REQUIRE(takes(&run, named("99999999-12-3-4"), 5, &found) == ASM_DONE &&
            asm_run_skip(&run) == ASM_DONE);
    ANSWERS(ASM_NO_PART, asm_run_state(&run, OUT));
    REQUIRE(asm_run_read(&run) == ASM_DONE);
    REQUIRE(hand(&run, 1, name) == ASM_LONG_RUN && request_of(&run) == ASM_REST);
    asm_free_run(&run);
    REQUIRE(asm_run_open(&run) == ASM_DONE);
    REQUIRE(takes(&run, named("00000007-18446744073709551614-1-1"), 5, &found) == ASM_DONE);
    REQUIRE(asm_run_skip(&run) == ASM_DONE && asm_run_read(&run) == ASM_DONE);
    REQUIRE(hand(&run, 1, name) == ASM_LONG_RUN && request_of(&run) == ASM_REST);
    asm_free_run(&run);
}

/* Each call comes in its turn; out of turn nothing changes. */
static void calls_have_an_order(void) {
    folder it = folder_of(3);
    struct asm_run run = {0};
    asm_segment found;
    asm_audit_numbers told;
    char name[NAME_ROOM], digest[DIGEST];
    uint64_t number = 9;
    REQUIRE(asm_run_open(&run) == ASM_DONE && asm_run_open(&run) == ASM_TAKEN);
    REQUIRE(request_of(&run) == ASM_FLUSH_FOLDER && asm_run_done(&run) == ASM_DONE);
    REQUIRE(request_of(&run) == ASM_FLUSH_FOLDER);
    REQUIRE(hand(&run, 0, name) == ASM_ORDER && asm_run_drop(&run, &number) == ASM_ORDER &&
            number == 0);
    REQUIRE(asm_run_text(&run, bytes("x"), 1) == ASM_ORDER &&
            asm_run_end(&run, &told) == ASM_ORDER);
    REQUIRE(asm_run_skip(&run) == ASM_ORDER);
    REQUIRE(takes(&run, it.names[0], it.texts[0].len, &found) == ASM_DONE &&
            asm_run_read(&run) == ASM_ORDER);
    REQUIRE(asm_run_skip(&run) == ASM_DONE);
    REQUIRE(code_of(&run, it.names[1], it.texts[1], &told) == ASM_DONE && told.parts == 1);
    WRITES(ASM_DONE, "[[['n'],2]]", asm_run_state(&run, OUT));
    REQUIRE(takes(&run, it.names[2], it.texts[2].len, &found) == ASM_DONE &&
            asm_run_skip(&run) == ASM_ORDER);
    ANSWERS(ASM_ORDER, asm_run_state(&run, OUT));
    REQUIRE(asm_run_text(&run, bytes("x"), 1) == ASM_DONE &&
            asm_run_end(&run, &told) == ASM_DAMAGED);
    REQUIRE(asm_run_text(&run, bytes("x"), 1) == ASM_ORDER &&
            asm_run_end(&run, &told) == ASM_ORDER);
    REQUIRE(takes(&run, it.names[2], it.texts[2].len, &found) == ASM_ORDER &&
            asm_run_read(&run) == ASM_ORDER);
    ANSWERS(ASM_ORDER, asm_run_state(&run, OUT));
    REQUIRE(hand(&run, 2, name) == ASM_ORDER && saved_of(&run, digest).segments == 0);
    asm_free_run(&run);
    REQUIRE(read_all(&run, &it, 0, &told) == ASM_DONE && asm_run_read(&run) == ASM_DONE);
    REQUIRE(asm_run_read(&run) == ASM_ORDER && request_of(&run) == ASM_REST &&
            asm_run_done(&run) == ASM_DONE);
    REQUIRE(hand(&run, 3, name) == ASM_DONE && hand(&run, 3, name) == ASM_ORDER);
    REQUIRE(request_of(&run) == ASM_REMOVE_NEW && asm_run_drop(&run, &number) == ASM_ORDER);
    REQUIRE(saved_of(&run, digest).segments == 3);
    work(&run);
    REQUIRE(saved_of(&run, digest).segments == 4 && saved_of(&run, digest).moves == 2 + 3 + 1);
    for (unsigned k = 0; k < 3; k++) {
        REQUIRE(asm_run_drop(&run, &number) == ASM_DONE && number == k &&
                request_of(&run) == ASM_REMOVE_OLDEST);
        REQUIRE(saved_of(&run, digest).first == k);
        work(&run);
        REQUIRE(saved_of(&run, digest).first == k + 1);
    }
    REQUIRE(asm_run_drop(&run, &number) == ASM_ONE_SEGMENT && number == 0);
    asm_free_run(&run);
}

/* After a failed call nothing is asked for, and what was saved is. */
static void failures_end_a_run(void) {
    for (unsigned wait = 0; wait < 7; wait++) {
        struct asm_run run = {0};
        char name[NAME_ROOM], digest[DIGEST];
        uint64_t number;
        begin(&run);
        REQUIRE(hand(&run, 0, name) == ASM_DONE);
        for (unsigned k = 0; k < wait; k++)
            REQUIRE(request_of(&run) != ASM_REST && asm_run_done(&run) == ASM_DONE);
        REQUIRE(saved_of(&run, digest).segments == (wait == 6));
        REQUIRE(asm_run_failed(&run) == ASM_DONE && request_of(&run) == ASM_REST);
        REQUIRE(asm_run_done(&run) == ASM_DONE && request_of(&run) == ASM_REST);
        REQUIRE(hand(&run, 1, name) == ASM_ORDER && asm_run_drop(&run, &number) == ASM_ORDER);
        REQUIRE(asm_run_read(&run) == ASM_ORDER && saved_of(&run, digest).segments == (wait == 6));
        asm_free_run(&run);
    }
}

/* Buffers that are too small, segment 0 with events, and slots without a run. */
static void slots_and_buffers(void) {
    struct asm_run run = {0};
    asm_run_numbers saved = {9, 9, 9};
    asm_audit_numbers told = {9, 9, 9};
    asm_segment found;
    uint64_t number = 9;
    int32_t request = 9;
    text it = text_of(0);
    REQUIRE(asm_run_text(&run, NULL, 0) == ASM_EMPTY && asm_run_skip(&run) == ASM_EMPTY);
    REQUIRE(takes(&run, "x", 1, &found) == ASM_EMPTY && is_none(found));
    REQUIRE(asm_run_end(&run, &told) == ASM_EMPTY && told.parts + told.calls + told.moves == 0);
    REQUIRE(asm_run_read(&run) == ASM_EMPTY && asm_run_done(&run) == ASM_EMPTY);
    REQUIRE(asm_run_failed(&run) == ASM_EMPTY && asm_run_drop(&run, &number) == ASM_EMPTY &&
            number == 0);
    REQUIRE(asm_run_request(&run, &request) == ASM_EMPTY && request == 0);
    ANSWERS(ASM_EMPTY, asm_run_state(&run, OUT));
    ANSWERS(ASM_EMPTY, asm_run_hand(&run, 0, 0, it.at, it.len, OUT));
    ANSWERS(ASM_EMPTY, asm_run_saved(&run, &saved, OUT));
    REQUIRE(saved.first + saved.segments + saved.moves == 0 && !run.slot.full);
    open_with("[]", 1, AS(storage, &run));
    REQUIRE(asm_run_open(&run) == ASM_TAKEN && asm_run_read(&run) == ASM_EMPTY);
    asm_free_run(&run);
    begin(&run);
    ANSWERS(ASM_OPENING, asm_run_hand(&run, 0, 1, it.at, it.len, OUT));
    ANSWERS(ASM_OPENING, asm_run_hand(&run, 1, 0, it.at, it.len, OUT));
    folder made = folder_of(1);
    WRITES(ASM_DONE, made.names[0], asm_run_hand(&run, 0, 0, it.at, it.len, OUT));
    work(&run);
    char digest[DIGEST + 1] = {0};
    memcpy(digest, made.names[0] + strlen(made.names[0]) - 8 - DIGEST, DIGEST);
    WRITES(ASM_DONE, digest, asm_run_saved(&run, &saved, OUT));
    REQUIRE(saved.first == 0 && saved.segments == 1 && saved.moves == 0);
    asm_free_run(&run);
}

/* A run is nothing else to another call, and nothing else is a run. */
static void kinds_are_distinct(void) {
    struct asm_run run = {0};
    struct asm_audit audit = {0};
    struct asm_move move = {0}, other = {0};
    struct asm_location at = {0};
    asm_audit_numbers told;
    uint32_t moves;
    size_t taken;
    begin(&run);
    asm_slot was = run.slot;
    REQUIRE(asm_audit(AS(audit, &run), bytes("x"), 1, &taken, &told) == ASM_TAKEN && taken == 0);
    REQUIRE(asm_audited(AS(audit, &run), &told) == ASM_EMPTY);
    REQUIRE(asm_open(TEXT("[]"), 1, AS(storage, &run)) == ASM_TAKEN);
    REQUIRE(asm_moves(AS(storage, &run), &moves) == ASM_EMPTY && moves == 0);
    REQUIRE(asm_seen(AS(agent, &run)) == 0 && asm_depth(AS(step, &run)) == 0);
    REQUIRE(asm_location(TEXT("['x']"), AS(location, &run)) == ASM_TAKEN);
    REQUIRE(asm_unite(AS(move, &run), &other) == ASM_TAKEN);
    REQUIRE(asm_unite(&move, AS(move, &run)) == ASM_EMPTY && !move.slot.full && is_same(run, was));
    asm_free_run(&run);
    REQUIRE(asm_audit(&audit, bytes("{"), 1, &taken, &told) == ASM_DONE);
    REQUIRE(asm_location(TEXT("['x']"), &at) == ASM_DONE);
    asm_slot both[2] = {audit.slot, at.slot};
    REQUIRE(asm_run_open(AS(run, &audit)) == ASM_TAKEN && asm_run_open(AS(run, &at)) == ASM_TAKEN);
    REQUIRE(asm_run_text(AS(run, &audit), bytes("x"), 1) == ASM_EMPTY);
    REQUIRE(asm_run_done(AS(run, &at)) == ASM_EMPTY && asm_run_skip(AS(run, &at)) == ASM_EMPTY);
    REQUIRE(is_same(audit, both[0]) && is_same(at, both[1]));
    asm_free_audit(&audit);
    asm_free_location(&at);
}

int main(void) {
    make_segments();
    faults_are_found();
    saved_faults_are_found();
    names_have_codes();
    runs_have_an_end();
    calls_have_an_order();
    failures_end_a_run();
    slots_and_buffers();
    kinds_are_distinct();
    free_segments();
    printf("runs: each fault has its code\n");
}
