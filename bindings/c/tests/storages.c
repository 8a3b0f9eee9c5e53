/* Storages: moves that are judged in several ways, many moves and many agents. */
#include "tests.h"

static struct asm_storage storage;
static struct asm_agent agents[2];

static void begin_with(const char *opening, uint32_t capacity) {
    open_with(opening, capacity, &storage);
    REQUIRE(asm_agents(&storage, agents, 2) == ASM_DONE);
}

static void end_all(void) {
    asm_free_storage(&storage);
    asm_free_agent(&agents[0]);
    asm_free_agent(&agents[1]);
}

static void holds(uint32_t moves) {
    uint32_t number = 9999999;
    REQUIRE(asm_moves(&storage, &number) == ASM_DONE && number == moves);
}

static void reads(struct asm_agent *agent, const char *locations, const char *answer) {
    REQUIRE(asm_read(agent, TEXT(locations)) == ASM_DONE);
    WRITES(ASM_DONE, answer, asm_answer(agent, OUT));
}

static int32_t fire_of(struct asm_agent *agent, const char *call) {
    asm_numbers numbers;
    return asm_try_fire(agent, TEXT(call), &numbers);
}

static uint32_t drawn(uint32_t seed) { return seed * 1664525 + 1013904223; }

/* A move of at most 19 puts at 24 locations, many of which clash; if it is wide, with puts at 17
 * locations more. */
static char *append_drawn(char *at, uint32_t seed, bool is_wide) {
    uint32_t draw = seed;
    const char *comma = "";
    for (uint32_t i = 0; i < (seed >> 8) % 20; i++, comma = ",") {
        draw = drawn(draw);
        at += sprintf(at, "%s['put',['w',%u],%u]", comma, (unsigned)((draw >> 8) % 24),
                      (unsigned)((draw >> 16) % 2));
    }
    for (int i = 100; is_wide && i < 117; i++, comma = ",")
        at += sprintf(at, "%s['put',['w',%d],1]", comma, i);
    return at;
}

/* The same moves are answered alike with no read, with one that is never stale, and if they are
 * wide, until the storage is full. */
static void judged_equally(void) {
    struct asm_storage stores[3] = {0};
    struct asm_agent ones[3] = {0};
    unsigned fired = 0, clashed = 0;
    uint32_t seed = 1;
    for (int i = 0; i < 3; i++) {
        open_with("[]", 40, &stores[i]);
        REQUIRE(asm_agent(&stores[i], 0, &ones[i]) == ASM_DONE);
    }
    for (int k = 0; k < 300; k++) {
        asm_numbers numbers[3];
        int32_t codes[3];
        seed = drawn(seed);
        for (int i = 0; i < 3; i++) {
            char call[LONGEST];
            char *at = append_drawn(call + sprintf(call, "{'fire':["), seed, i == 2);
            sprintf(at, "],'reads':[%s]}", i == 1 ? "[['never'],0]" : "");
            codes[i] = asm_try_fire(&ones[i], TEXT(call), &numbers[i]);
            REQUIRE(codes[i] == codes[0] && numbers[i].fired == numbers[0].fired);
        }
        fired += codes[0] == ASM_DONE;
        clashed += codes[0] == ASM_CLASH;
        REQUIRE(codes[0] == ASM_DONE || codes[0] == ASM_CLASH || codes[0] == ASM_FULL);
    }
    REQUIRE(fired == 40 && clashed > 100);
    for (int i = 0; i < 3; i++) {
        REQUIRE(asm_give(&stores[i], &ones[i]) == ASM_DONE);
        char *journal = journal_of(&stores[i]);
        is_legal(journal, 300, 40);
        free(journal);
        asm_free_storage(&stores[i]);
    }
}

/* Many moves that needed no state are followed by the first call that asks for one. */
static void many_moves(uint32_t count) {
    char call[128];
    begin_with("[]", count + 8);
    for (uint32_t k = 1; k <= count; k++) {
        snprintf(call, sizeof call, "[['put',['x'],%u]]", (unsigned)k);
        fire(&agents[1], call);
    }
    holds(count);
    snprintf(call, sizeof call, "{'fire':[],'reads':[[['x'],%u]]}", (unsigned)count - 1);
    REQUIRE(fire_of(&agents[1], call) == ASM_STALE && asm_misses(&agents[1]) == count + 1);
    snprintf(call, sizeof call, "{'number':%u,'values':[%u]}", (unsigned)count, (unsigned)count);
    reads(&agents[0], "[['x']]", call);
    REQUIRE(asm_seen(&agents[0]) == count && asm_misses(&agents[0]) == 1);
    end_all();
}

/* Of 256 agents the first and the last fire, and the others read between the two moves. */
static void many_agents(void) {
    struct asm_agent many[256] = {0};
    char line[64];
    open_with("[]", 8, &storage);
    REQUIRE(asm_agents(&storage, many, 256) == ASM_DONE);
    for (size_t i = 0; i < 256; i++) {
        if (i % 255 == 0)
            fire(&many[i], "[['put',['x'],0]]");
        else
            reads(&many[i], "[]", "{'number':1,'values':[]}");
    }
    holds(2);
    for (size_t i = 256; i > 0; i--)
        REQUIRE(asm_give(&storage, &many[i - 1]) == ASM_DONE);
    char *journal = journal_of(&storage);
    is_legal(journal, 256, 2);
    const char *at = journal;
    for (int i = 0; i < 256; i++) {
        snprintf(line, sizeof line, "\n{\"agent\":%d,", i);
        REQUIRE((at = strchr(at, '\n')) != NULL && !strncmp(at++, line, strlen(line)));
    }
    free(journal);
    asm_free_storage(&storage);
}

int main(void) {
    judged_equally();
    many_moves(1000);
    many_moves(16384);
    many_agents();
    puts("passed");
    return 0;
}
