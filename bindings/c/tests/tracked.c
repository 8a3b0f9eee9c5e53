/* What a step reads without room, how many places commits record, and what a refusal without room reveals. What else belongs to the
 * read set, and is recorded, is in bindings/conformance/commits.jsonl. */
#include "commits.h"

static const char *const shelf = "[[['b'],{'bag':[['e',1]]}],[['c'],0],[['s'],{'set':[1]}]]";

static struct asm_move move;

static void begin_at_shelf(void) {
    open_with(shelf, 16, &storage);
    REQUIRE(asm_agents(&storage, agents, 2) == ASM_DONE);
    begins_at(0);
}

static void end_at_shelf(void) {
    asm_free_move(&move);
    end_all();
}

/* A move of one instruction at a location, in the slot. */
static void gathers(const char *location, int32_t verb, int32_t kind, int64_t number,
                    const char *text, uint32_t amount) {
    struct asm_location at = {0};
    REQUIRE(asm_location(TEXT(location), &at) == ASM_DONE);
    REQUIRE(asm_instruct(&move, &at, verb, kind, number, *text ? bytes(text) : NULL, strlen(text),
                         amount) == ASM_DONE);
    asm_free_location(&at);
}

/* Takes two of the bag's one element, by a call at its location. */
static int32_t pushes_at(const char *location, uint8_t *out, size_t room, size_t *written) {
    struct asm_location at = {0};
    REQUIRE(asm_location(TEXT(location), &at) == ASM_DONE);
    int32_t code = asm_push_at(&agents[0], &step, &at, ASM_BAGREMOVE, ASM_KIND_TEXT, 0, bytes("e"), 1,
                               2, out, room, written);
    asm_free_location(&at);
    return code;
}

/* Each call that puts a move onto a step; it takes two of the bag's one element. */
static int32_t takes_two(int way, uint8_t *out, size_t room, size_t *written) {
    const char *text = "[['bagremove',['b'],'e',2]]";
    asm_free_move(&move);
    gathers("['b']", ASM_BAGREMOVE, ASM_KIND_TEXT, 0, "e", 2);
    switch (way) {
    case 0:
        return asm_push(&agents[0], &step, TEXT(text), out, room, written);
    case 1:
        return asm_extend(&agents[0], &step, TEXT(text), out, room, written);
    case 2:
        return asm_push_move(&agents[0], &step, &move, out, room, written);
    case 3:
        return pushes_at("['b']", out, room, written);
    default:
        return asm_extend_move(&agents[0], &step, &move, out, room, written);
    }
}

/* A refusal reveals a location to the step, also if its text has no room. */
static void refusals_without_room(void) {
    for (int way = 0; way < 5; way++) {
        size_t written;
        begin_at_shelf();
        REQUIRE(takes_two(way, NULL, 0, &written) == ASM_SMALL && written > 0);
        WRITES(ASM_DONE, "{'fire':[],'reads':[[['b'],0]]}", asm_offer(&step, OUT));
        push("[['put',['soldOut'],true]]");
        fire(&agents[1], "[['bagadd',['b'],'e',1]]");
        refused(ASM_STALE, "{'stale':['b']}");
        end_at_shelf();
    }
}

/* A text of this many instructions or locations, each with its number. */
static const char *each(const char *format, int count) {
    static char text[32 * LONGEST];
    char *at = text + sprintf(text, "[");
    for (int i = 0; i < count; i++) {
        at += sprintf(at, "%s", i ? "," : "");
        at += sprintf(at, format, i);
    }
    sprintf(at, "]");
    return text;
}

/* Takes this many places. */
static void takes_places(int count) {
    static uint8_t out[2 * LONGEST];
    const char *text = each("[\"w\",%d]", count);
    size_t written;
    REQUIRE(asm_get(&agents[0], &step, bytes(text), strlen(text), out, sizeof out, &written) ==
            ASM_DONE);
}

/* An agent that gave its state away records what its step read, at the number of what it has seen. */
static void records_without_a_state(void) {
    begin_with(8);
    fire(&agents[1], "[['put',['y'],1]]");
    begins_at(1);
    gets("['y']", 1, "1");
    REQUIRE(asm_take_state(&agents[1], &agents[0]) == ASM_DONE);
    fired_by(asm_commit_recorded, 2);
    journal_is("{'agent':1,'call':{'fire':[['put',['y'],1]],'reads':[]},'reply':{'fired':1}}\n"
               "{'agent':0,'call':{'read':[['y']]},'reply':{'number':1,'values':[1]}}\n"
               "{'agent':0,'call':{'fire':[],'reads':[[['y'],1]]},'reply':{'fired':2}}\n",
               3, 2);
    end_all();
}

/* What doesn't fit into the room is no read, and names no function. */
static void without_room(void) {
    size_t written = 9;
    begin_with(8);
    REQUIRE(asm_get(&agents[0], &step, TEXT("[['x']]"), NULL, 0, &written) == ASM_SMALL && written > 0);
    REQUIRE(asm_step_scan(&agents[0], &step, TEXT("y"), NULL, 0, &written) == ASM_SMALL && written > 0);
    WRITES(ASM_DONE, "{'fire':[],'reads':[]}", asm_offer(&step, OUT));
    fire(&agents[1], "[['put',['x'],8],['put',['y',3],3]]");
    fired(2);
    end_all();
}

/* One place too many is reported before the agent polls, also of one that has moved. */
static void recorded_places(void) {
    uint32_t number;
    begin_at_shelf();
    takes_places(256);
    push("[['inc',['c'],1]]");
    ANSWERS(ASM_DONE, asm_extend(&agents[0], &step, TEXT("[['inc',['c'],1]]"), OUT));
    records_nothing();
    fire(&agents[1], "[]");
    records_nothing();
    REQUIRE(asm_follow(&agents[0], &number) == ASM_DONE && number == 1);
    records_nothing();
    refused(ASM_MANY, NULL);
    for (uint32_t scans = 0; scans < 2; scans++) {
        begins_at(1 + scans);
        takes_places(255 - (int)scans);
        if (scans)
            WRITES(ASM_DONE, "[]", asm_step_scan(&agents[0], &step, TEXT("v"), OUT));
        push("[['inc',['c'],1]]");
        ANSWERS(ASM_DONE, asm_extend(&agents[0], &step, TEXT("[['inc',['c'],1]]"), OUT));
        fired_by(asm_commit_recorded, 2 + scans);
    }
    REQUIRE(asm_give(&storage, &agents[0]) == ASM_DONE);
    REQUIRE(asm_give(&storage, &agents[1]) == ASM_DONE);
    char *journal = journal_of(&storage);
    is_legal(journal, 5, 3);
    free(journal);
    end_at_shelf();
}

int main(void) {
    without_room();
    refusals_without_room();
    records_without_a_state();
    recorded_places();
    puts("passed");
    return 0;
}
