/* A storage with the largest number of moves, and states of many locations. A call that walks
 * over everything, though it needs only a little, doesn't end within the limit of processor
 * time. */
#include "tests.h"

#include <sys/resource.h>

enum { SECONDS = 120, MOST = 1048576, FIRST = 600000, READS = 1000 };
enum { NAMES = 100000, AT_ONCE = 4000, SCANS = 100000, TWICE = 128, LARGEST_STEP = 2048 };

static const char nothing[] = "{\"fire\":[],\"reads\":[]}";

/* Formats with a name and a number. */
static const char place[] = ",[\"%s\",%zu]";
static const char pair[] = ",[[\"%s\",%zu],1]";
static const char put[] = ",[\"put\",[\"%s\",%zu],1]";
static const char inc[] = ",[\"inc\",[\"%s\",%zu],1]";

/* A text that grows. */
typedef struct text {
    char *at;
    size_t length, room;
} text;

/* Appends the format, without its comma after a bracket. */
static void append(text *it, const char *format, const char *name, size_t number) {
    if (it->room - it->length < 100) {
        it->room = 2 * it->room + 100;
        it->at = realloc(it->at, it->room);
        REQUIRE(it->at != NULL);
    }
    bool is_first = it->length > 0 && it->at[it->length - 1] == '[' && *format == ',';
    it->length += (size_t)snprintf(it->at + it->length, 100, format + is_first, name, number);
}

static void append_all(text *it, const char *format, const char *name, size_t first, size_t end) {
    for (size_t i = first; i < end; i++)
        append(it, format, name, i);
}

/* The text of a list; the caller must free it. */
static text list_of(const char *format, const char *name, size_t count) {
    text it = {0};
    append(&it, "[", "", 0);
    append_all(&it, format, name, 0, count);
    append(&it, "]", "", 0);
    return it;
}

static void fire_all(struct asm_agent *agent, size_t times) {
    asm_numbers numbers;
    for (size_t i = 0; i < times; i++)
        REQUIRE(asm_try_fire(agent, bytes(nothing), strlen(nothing), &numbers) == ASM_DONE);
}

static uint32_t followed(struct asm_agent *agent) {
    uint32_t number = 0;
    REQUIRE(asm_follow(agent, &number) == ASM_DONE);
    return number;
}

/* Two agents fill the row, each with many moves, and see all of them. */
static void fill(struct asm_storage *storage, struct asm_agent *agents) {
    asm_numbers numbers;
    uint32_t moves;
    fire_all(&agents[0], FIRST);
    REQUIRE(followed(&agents[1]) == FIRST);
    fire_all(&agents[1], MOST - FIRST);
    REQUIRE(asm_try_fire(&agents[1], bytes(nothing), strlen(nothing), &numbers) == ASM_FULL);
    REQUIRE(followed(&agents[0]) == MOST);
    REQUIRE(asm_moves(storage, &moves) == ASM_DONE && moves == MOST);
}

/* The journal of a full row and of some reads is complete. */
static void full_row(void) {
    struct asm_storage storage = {0};
    struct asm_agent agents[2] = {0};
    open_with("[]", MOST, &storage);
    REQUIRE(asm_agents(&storage, agents, 2) == ASM_DONE);
    fill(&storage, agents);
    for (size_t i = 0; i < READS; i++)
        REQUIRE(asm_read(&agents[0], TEXT("[['x']]")) == ASM_DONE);
    REQUIRE(asm_give(&storage, &agents[0]) == ASM_DONE);
    REQUIRE(asm_give(&storage, &agents[1]) == ASM_DONE);
    char *journal = journal_of(&storage);
    is_legal(journal, MOST + 1 + READS, MOST);
    free(journal);
    asm_free_storage(&storage);
}

/* A storage that opens with many locations before and after the three of the function m. */
static void open_many(struct asm_storage *storage) {
    text it = {0};
    append(&it, "[", "", 0);
    append_all(&it, pair, "a", 0, NAMES);
    append_all(&it, pair, "m", 0, 3);
    append_all(&it, pair, "z", 0, NAMES);
    append(&it, "]", "", 0);
    REQUIRE(asm_open(bytes(it.at), it.length, MOST, storage) == ASM_DONE);
    free(it.at);
}

/* Moves put a value at this many locations with this name. */
static void write_all(struct asm_agent *agent, const char *name, size_t count) {
    asm_numbers numbers;
    for (size_t first = 0; first < count; first += AT_ONCE) {
        text it = {0};
        append(&it, "{\"fire\":[", "", 0);
        append_all(&it, put, name, first, first + AT_ONCE < count ? first + AT_ONCE : count);
        append(&it, "],\"reads\":[]}", "", 0);
        REQUIRE(asm_try_fire(agent, bytes(it.at), it.length, &numbers) == ASM_DONE);
        free(it.at);
    }
}

/* The length of the text that a scan writes. */
static size_t scanned(struct asm_agent *agent, const char *name) {
    uint32_t number;
    size_t length;
    REQUIRE(asm_scan(agent, bytes(name), strlen(name), &number, NULL, 0, &length) == ASM_SMALL);
    return length;
}

/* A scan, and a fire over a scan, check only the locations of one function. */
static void small_function(void) {
    struct asm_storage storage = {0};
    struct asm_agent agent = {0};
    asm_numbers numbers;
    char scans[64];
    open_many(&storage);
    REQUIRE(asm_agent(&storage, 0, &agent) == ASM_DONE);
    write_all(&agent, "b", NAMES);
    write_all(&agent, "m", 5);
    write_all(&agent, "y", NAMES);
    snprintf(scans, sizeof scans, "[['m',%" PRIu32 "]]", followed(&agent));
    for (size_t i = 0; i < SCANS; i++) {
        REQUIRE(scanned(&agent, "m") == 5 * strlen("[['m',0],1],") + 1);
        REQUIRE(asm_try_fire_over(&agent, bytes(nothing), strlen(nothing), TEXT(scans), &numbers) ==
                ASM_DONE);
    }
    asm_free_agent(&agent);
    asm_free_storage(&storage);
}

/* The values at this many locations with the name f, each of one digit, are peeked at once. */
static void peek_all(struct asm_agent *agent, size_t count) {
    text it = list_of(place, "f", count);
    char empty[64];
    size_t length;
    snprintf(empty, sizeof empty, "{'number':%" PRIu32 ",'values':[]}", asm_seen(agent));
    REQUIRE(asm_peek(agent, bytes(it.at), it.length, NULL, 0, &length) == ASM_SMALL);
    REQUIRE(length == strlen(empty) + (count ? 2 * count - 1 : 0));
    free(it.at);
}

/* The agent's own state has the functions f and g, whose pairs have this length each. */
static void write_names(struct asm_agent *agent, size_t count, size_t length) {
    uint32_t number;
    size_t both;
    REQUIRE(scanned(agent, "f") == length && scanned(agent, "g") == length);
    REQUIRE(asm_state(agent, &number, NULL, 0, &both) == ASM_SMALL);
    REQUIRE(both == (count ? 2 * length - 1 : length));
    peek_all(agent, count);
}

/* A storage in which f has this many locations, and two agents; the length of their pairs. */
static size_t open_function(struct asm_storage *storage, struct asm_agent *agents, size_t count) {
    text it = list_of(pair, "f", count);
    REQUIRE(asm_open(bytes(it.at), it.length, 64, storage) == ASM_DONE);
    REQUIRE(asm_agents(storage, agents, 2) == ASM_DONE);
    free(it.at);
    return it.length;
}

/* The number of the function's locations, and whether there is one, as seen through the step. */
static void counts(struct asm_agent *agent, struct asm_step *step, const char *name, size_t wanted) {
    uint64_t count;
    uint32_t any;
    REQUIRE(asm_count(agent, step, bytes(name), strlen(name), &count) == ASM_DONE && count == wanted);
    REQUIRE(asm_any(agent, step, bytes(name), strlen(name), &any) == ASM_DONE &&
            any == (wanted > 0));
}

/* The functions are counted without a step's own moves, and with one that removes a location. */
static void count_functions(struct asm_agent *agent, size_t count) {
    struct asm_step step = {0};
    uint32_t number;
    size_t written;
    REQUIRE(asm_begin(agent, &step, &number) == ASM_DONE);
    counts(agent, &step, "f", count);
    counts(agent, &step, "g", count);
    REQUIRE(asm_push(agent, &step, TEXT("[[\"put\",[\"f\",0],null],[\"put\",[\"g\",-1],1]]"), NULL, 0,
                     &written) == ASM_DONE);
    counts(agent, &step, "f", count ? count - 1 : 0);
    counts(agent, &step, "g", count + 1);
    asm_free_step(&step);
}

/* The functions of a state are reported, for values of the opening state and of moves. */
static void write_functions(size_t count) {
    struct asm_storage storage = {0};
    struct asm_agent agents[2] = {0};
    size_t length = open_function(&storage, agents, count);
    write_all(&agents[0], "g", count);
    write_all(&agents[0], "f", count / 2);
    REQUIRE(followed(&agents[1]) == followed(&agents[0]));
    write_names(&agents[1], count, length);
    count_functions(&agents[1], count);
    for (size_t i = 0; i < 2; i++)
        asm_free_agent(&agents[i]);
    asm_free_storage(&storage);
}

/* The first of the two pushes the move, the second joins it to the pushed one. */
static void grow(struct asm_agent *agent, struct asm_step *step, bool is_push, const char *format, const char *name,
                 size_t count) {
    text it = list_of(format, name, count);
    size_t written;
    REQUIRE((is_push ? asm_push : asm_extend)(agent, step, bytes(it.at), it.length, NULL, 0,
                                              &written) == ASM_DONE);
    free(it.at);
}

/* The length of the text of the function, as it is seen through the step. */
static size_t count_values(struct asm_agent *agent, struct asm_step *step, const char *name) {
    size_t length;
    REQUIRE(asm_step_scan(agent, step, bytes(name), strlen(name), NULL, 0, &length) == ASM_SMALL);
    return length;
}

/* A step puts each location of g, increments each of f, some of these twice, and depends on the
 * latter. */
static void play_step(size_t count) {
    struct asm_storage storage = {0};
    struct asm_agent agents[2] = {0};
    struct asm_step step = {0};
    struct asm_move move = {0};
    size_t length = open_function(&storage, agents, count), written;
    asm_numbers numbers;
    uint32_t number;
    REQUIRE(asm_begin(&agents[0], &step, &number) == ASM_DONE);
    grow(&agents[0], &step, true, put, "g", count);
    grow(&agents[0], &step, false, inc, "f", count);
    grow(&agents[0], &step, false, inc, "f", count < TWICE ? count : TWICE);
    REQUIRE(count_values(&agents[0], &step, "f") == length &&
            count_values(&agents[0], &step, "g") == length);
    counts(&agents[0], &step, "f", count);
    counts(&agents[0], &step, "g", count);
    counts(&agents[0], &step, "none", 0);
    REQUIRE(asm_pop_move(&step, &move) == ASM_DONE && asm_depth(&step) == 0);
    REQUIRE(asm_push_move(&agents[0], &step, &move, NULL, 0, &written) == ASM_DONE);
    REQUIRE(asm_commit(&agents[0], &step, &numbers) == ASM_DONE && numbers.fired == 1);
    REQUIRE(followed(&agents[1]) == 1);
    write_names(&agents[1], count, length);
    asm_free_move(&move);
    for (size_t i = 0; i < 2; i++)
        asm_free_agent(&agents[i]);
    asm_free_storage(&storage);
}

static void functions_of_each_size(void) {
    static const size_t sizes[] = {0,    1,    2,    15,   16,   17,   63,   64,   65,    255,   256,
                                   257, 1023, 1024, 1025, 2047, 2048, 4095, 4096, 4097, 65536, 100000};
    for (size_t i = 0; i < sizeof sizes / sizeof *sizes; i++) {
        write_functions(sizes[i]);
        if (sizes[i] <= LARGEST_STEP)
            play_step(sizes[i]);
    }
}

int main(void) {
    struct rlimit limit = {SECONDS, SECONDS};
    REQUIRE(setrlimit(RLIMIT_CPU, &limit) == 0);
    full_row();
    small_function();
    functions_of_each_size();
    return 0;
}
