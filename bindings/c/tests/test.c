/* Tests of what no caller must do, each of which must return a code. Slots that hold something else are in misuse.c. */
#include "tests.h"

enum { ROOM = 65536 };

static int32_t open_of(const char *init, uint32_t capacity, struct asm_storage *storage) {
    return asm_open(bytes(init), strlen(init), capacity, storage);
}

static int32_t read_of(struct asm_agent *agent, const char *locations) {
    return asm_read(agent, bytes(locations), strlen(locations));
}

static int32_t fire_of(struct asm_agent *agent, const char *call) {
    asm_numbers numbers = {9, 9, 9};
    int32_t code = asm_try_fire(agent, bytes(call), strlen(call), &numbers);
    REQUIRE((numbers.fired > 0) == (code == ASM_DONE));
    REQUIRE(code == ASM_BUSY || (numbers.from == 0 && numbers.to == 0));
    return code;
}

static void full_slots(void) {
    struct asm_storage storage = {0};
    struct asm_agent many[257] = {0};
    REQUIRE(open_of("[]", 4, &storage) == ASM_DONE && open_of("[]", 4, &storage) == ASM_TAKEN);
    REQUIRE(open_of("[", 0, &storage) == ASM_TAKEN);
    REQUIRE(asm_agents(&storage, many, 257) == ASM_AGENTS && !many[0].slot.full);
    REQUIRE(asm_agents(&storage, many, 256) == ASM_DONE && many[255].slot.full && !many[256].slot.full);
    REQUIRE(asm_agent(&storage, 0, &many[0]) == ASM_TAKEN);
    REQUIRE(asm_agents(&storage, many + 255, 2) == ASM_TAKEN && !many[256].slot.full);
    for (size_t i = 0; i < 256; i++)
        asm_free_agent(&many[i]);
    asm_free_storage(&storage);
}

/* The same of an agent's polls and its step, and names that aren't UTF-8. */
static void step_of_no_bytes(struct asm_agent *agent) {
    struct asm_step step = {0};
    struct asm_location at = {0};
    uint8_t out[2];
    size_t written;
    uint32_t number;
    REQUIRE(asm_begin(agent, &step, &number) == ASM_DONE);
    int32_t codes[] = {
        asm_peek(agent, NULL, 0, NULL, 0, &written),
        asm_stands(agent, NULL, 0, NULL, 0, &written),
        asm_get(agent, &step, NULL, 0, NULL, 0, &written),
        asm_see(agent, &step, NULL, 0, NULL, 0, &written),
        asm_push(agent, &step, NULL, 0, NULL, 0, &written),
        asm_extend(agent, &step, NULL, 0, NULL, 0, &written),
        asm_location(NULL, 0, &at),
        asm_aggregate(bytes("[]"), 2, NULL, 0, NULL, 0, &written),
        asm_aggregate(NULL, 0, bytes("7"), 1, NULL, 0, &written),
        asm_compose(bytes("[]"), 2, NULL, 0, NULL, 0, &written),
        asm_compose(NULL, 0, bytes("7"), 1, NULL, 0, &written),
    };
    for (size_t i = 0; i < sizeof codes / sizeof *codes; i++)
        REQUIRE(codes[i] == ASM_NOT_JSON);
    REQUIRE(written == 0 && !at.slot.full);
    REQUIRE(asm_scan(agent, NULL, 0, &number, out, 2, &written) == ASM_DONE && written == 2);
    REQUIRE(asm_step_scan(agent, &step, NULL, 0, out, 2, &written) == ASM_DONE && written == 2);
    REQUIRE(asm_scan(agent, bytes("\xed\xa0\xbd"), 3, &number, out, 2, &written) == ASM_SHAPE && written == 0);
    REQUIRE(asm_step_scan(agent, &step, bytes("y\xc3"), 2, out, 2, &written) == ASM_SHAPE && written == 0);
    asm_free_step(&step);
}

static void no_bytes(void) {
    struct asm_storage storage = {0};
    struct asm_agent agent = {0};
    asm_numbers numbers;
    size_t written;
    uint64_t calls, line;
    uint32_t number;
    REQUIRE(asm_open(NULL, 0, 4, &storage) == ASM_NOT_JSON && !storage.slot.full);
    REQUIRE(open_of("[]", 4, &storage) == ASM_DONE && asm_agent(&storage, 0, &agent) == ASM_DONE);
    REQUIRE(asm_agents(&storage, NULL, 0) == ASM_DONE);
    REQUIRE(asm_read(&agent, NULL, 0) == ASM_NOT_JSON &&
            asm_try_fire(&agent, NULL, 0, &numbers) == ASM_NOT_JSON);
    step_of_no_bytes(&agent);
    REQUIRE(asm_try_fire_over(&agent, bytes("{\"read\":[]}"), 11, bytes("["), 1, &numbers) == ASM_SHAPE);
    REQUIRE(asm_try_fire_over(&agent, bytes("{\"fire\":[],\"reads\":[]}"), 22, NULL, 0, &numbers) == ASM_NOT_JSON);
    REQUIRE(asm_answer(&agent, NULL, 0, &written) == ASM_NO_ANSWER && read_of(&agent, "[]") == ASM_DONE);
    REQUIRE(asm_answer(&agent, NULL, 0, &written) == ASM_SMALL &&
            written == strlen("{\"number\":0,\"values\":[]}"));
    REQUIRE(asm_journal(&storage, NULL, 0, &written) == ASM_NO_JOURNAL);
    REQUIRE(asm_give(&storage, &agent) == ASM_DONE && asm_close(&storage, &number) == ASM_DONE);
    REQUIRE(asm_journal(&storage, NULL, 0, &written) == ASM_SMALL && written > 0);
    REQUIRE(asm_check(NULL, 0, &calls, &number) == ASM_CUT);
    REQUIRE(asm_replay(NULL, 0, NULL, 0, &written, &line) == ASM_CUT && written == 0 && line == 0);
    REQUIRE(asm_trace(NULL, 0, NULL, 0, &written, &line) == ASM_CUT && written == 0 && line == 0);
    REQUIRE(asm_error_text(0, NULL, 0, &written) == ASM_SMALL && written == 4);
    REQUIRE(asm_explain(ASM_FORM_STATE, NULL, 0, NULL, 0, &written) == ASM_SMALL && written == ASM_SENTENCE_LIMIT);
    asm_free_storage(&storage);
}

static void garbage(void) {
    const char *texts[] = {"",
                           "{",
                           "[[",
                           "nul",
                           "\xff\xfe",
                           "[1e999]",
                           "\"\\ud800\"",
                           "[[\"\"]]",
                           "[[\"1\"]]",
                           "[{}]",
                           "7",
                           "{}",
                           "[[\"x\",1,2,3,4,5,6,7,8,9]]",
                           "[[[\"x\"],1.5]]",
                           "[null]",
                           "{\"fire\":7,\"reads\":[]}",
                           "{\"fire\":[],\"reads\":[7]}"};
    struct asm_storage storage = {0}, other = {0};
    struct asm_agent agent = {0};
    REQUIRE(open_of("[]", 4, &storage) == ASM_DONE && asm_agent(&storage, 0, &agent) == ASM_DONE);
    for (size_t i = 0; i < sizeof texts / sizeof *texts; i++) {
        size_t len = strlen(texts[i]), written;
        uint64_t calls, line;
        uint32_t moves;
        int32_t codes[] = {open_of(texts[i], 4, &other), read_of(&agent, texts[i]),
                           fire_of(&agent, texts[i])};
        for (size_t k = 0; k < 3; k++)
            REQUIRE(codes[k] == ASM_NOT_JSON || codes[k] == ASM_SHAPE);
        int32_t code = asm_check(bytes(texts[i]), len, &calls, &moves);
        REQUIRE(code == ASM_CUT || code == ASM_NOT_JSON || code == ASM_SHAPE);
        REQUIRE(asm_replay(bytes(texts[i]), len, NULL, 0, &written, &line) == code &&
                line == calls);
        REQUIRE(asm_trace(bytes(texts[i]), len, NULL, 0, &written, &line) == code && line == calls);
    }
    char deep[400];
    memset(deep, '[', sizeof deep - 1);
    deep[sizeof deep - 1] = 0;
    REQUIRE(open_of(deep, 4, &other) == ASM_NOT_JSON && read_of(&agent, deep) == ASM_NOT_JSON);
    REQUIRE(asm_seen(&agent) == 0 && !other.slot.full);
    asm_free_agent(&agent);
    asm_free_storage(&storage);
}

/* A journal that isn't legal is traced too, with the right answer beside the wrong one. */
static void illegal(void) {
    static const char text[] = "{\"agents\":1,\"capacity\":2,\"events\":2,\"init\":[],\"version\":2}\n"
                               "{\"agent\":0,\"call\":{\"fire\":[],\"reads\":[]},\"reply\":{\"fired\":1}}\n"
                               "{\"agent\":0,\"call\":{\"read\":[]},\"reply\":{\"number\":0,\"values\":[]}}\n";
    static const char trace[] =
        "{\"agents\":1,\"capacity\":2,\"events\":2,\"init\":[],\"trace\":1}\n"
        "{\"agent\":0,\"call\":{\"fire\":[],\"reads\":[]},\"event\":0,\"reply\":{\"fired\":1},\"updates\":[]}\n"
        "{\"agent\":0,\"call\":{\"read\":[]},\"event\":1,\"reply\":{\"number\":0,\"values\":[]},"
        "\"right\":{\"differs\":[],\"number\":1}}\n";
    uint8_t out[sizeof trace];
    size_t written = 9;
    uint64_t line = 9;
    REQUIRE(asm_trace(bytes(text), strlen(text), out, strlen(trace) - 1, &written, &line) == ASM_SMALL);
    REQUIRE(written == strlen(trace) && line == 0);
    REQUIRE(asm_trace(bytes(text), strlen(text), out, sizeof out, &written, &line) == ASM_DONE);
    REQUIRE(written == strlen(trace) && line == 0 && !memcmp(out, trace, written));
}

static void ends(void) {
    struct asm_storage storage = {0};
    struct asm_agent a[3] = {0};
    static uint8_t text[ROOM], state[ROOM];
    size_t len, written;
    uint64_t calls, line;
    uint32_t number;
    REQUIRE(open_of("[]", 4, &storage) == ASM_DONE && asm_agents(&storage, a, 3) == ASM_DONE);
    REQUIRE(asm_journal(&storage, text, ROOM, &written) == ASM_NO_JOURNAL);
    REQUIRE(fire_of(&a[1], "{\"fire\":[[\"put\",[\"x\"],1]],\"reads\":[]}") == ASM_DONE &&
            read_of(&a[2], "[[\"x\"]]") == ASM_DONE);
    REQUIRE(asm_give(&storage, &a[2]) == ASM_DONE && asm_close(&storage, &number) == ASM_MISSING &&
            number == 1);
    REQUIRE(asm_give(&storage, &a[0]) == ASM_DONE && asm_give(&storage, &a[1]) == ASM_DONE);
    REQUIRE(asm_close(&storage, &number) == ASM_DONE && number == 0);
    REQUIRE(asm_journal(&storage, text, ROOM, &len) == ASM_DONE &&
            asm_journal(&storage, text, len, &written) == ASM_DONE);
    REQUIRE(asm_journal(&storage, text, len - 1, &written) == ASM_SMALL && written == len);
    REQUIRE(asm_check(text, len, &calls, &number) == ASM_DONE && calls == 2 && number == 1);
    REQUIRE(asm_replay(text, len, state, ROOM, &written, &line) == ASM_DONE);
    REQUIRE(written == 11 && !memcmp(state, "[[[\"x\"],1]]", 11));
    for (size_t cut = 0; cut < len; cut++) {
        int32_t code = asm_check(text, cut, &calls, &number);
        REQUIRE(code == ASM_CUT || code == ASM_NOT_JSON);
        REQUIRE(asm_replay(text, cut, state, ROOM, &written, &line) == code);
        REQUIRE(asm_trace(text, cut, state, ROOM, &written, &line) == code);
    }
    for (size_t at = 0; at < len; at++) {
        text[at] ^= 1;
        int32_t code = asm_check(text, len, &calls, &number);
        REQUIRE(code == ASM_DONE || (code >= ASM_ILLEGAL && code <= ASM_CUT));
        asm_replay(text, len, state, ROOM, &written, &line);
        text[at] ^= 1;
    }
    REQUIRE(asm_agent(&storage, 3, &a[0]) == ASM_DONE && asm_give(&storage, &a[0]) == ASM_DONE);
    REQUIRE(asm_journal(&storage, text, ROOM, &written) == ASM_NO_JOURNAL &&
            asm_close(&storage, &number) == ASM_DONE);
    asm_free_storage(&storage);
}

int main(void) {
    full_slots();
    no_bytes();
    garbage();
    illegal();
    ends();
    puts("passed");
    return 0;
}
