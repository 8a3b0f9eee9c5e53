/* What each code means. The sentences that say where and why a text is refused are in bindings/conformance/journals.jsonl, but
 * for the longest ones, and for the one on nesting, for which packages have their own words. */
#include "tests.h"

/* The call writes this text; with a byte of room less, and without room, it writes nothing and asks for this room. */
#define SAYS(wanted, asked, call)                                                                  \
    do {                                                                                           \
        size_t length = strlen(wanted), room = length, written = 9;                                \
        uint8_t *out = buffer_of(room);                                                            \
        int32_t code = (call);                                                                     \
        answers_with(code, ASM_DONE, (wanted), out, written, __FILE__, __LINE__);                  \
        free(out);                                                                                 \
        for (int without = 0; length && without < 2; without++) {                                  \
            out = buffer_of(room = without ? 0 : length - 1);                                      \
            written = 9;                                                                           \
            REQUIRE((call) == ASM_SMALL && written == (asked) && is_untouched(out, room));         \
            free(out);                                                                             \
        }                                                                                          \
    } while (0)

/* This is the explanation of a text of the form. */
#define EXPLAINS(wanted, form, text) SAYS(wanted, ASM_SENTENCE_LIMIT, asm_explain(form, bytes(text), strlen(text), OUT))

/* What codes mean. */
static const struct meaning {
    int32_t code;
    const char *said;
} meanings[] = {
    {ASM_DONE, "done"},
    {ASM_STALE, "a location that was named, or of a function that was scanned, was written since"},
    {ASM_CLASH, "the updates of the move clash"},
    {ASM_MEMORY, "out of memory"},
    {ASM_FULL, "as many moves were fired as the capacity"},
    {ASM_EMPTY, "a slot holds nothing of this kind, or is passed twice"},
    {ASM_CAPACITY, "the capacity is not 1 to 1,048,576"},
    {ASM_SMALL, "the buffer is too small"},
    {ASM_BUSY, "64 attempts to append were lost to other agents"},
    {ASM_MANY, "more than 256 locations, or locations and scanned functions"},
    {ASM_NO_ANSWER, "no call was answered yet"},
    {ASM_TAKEN, "the slot that was to be filled holds something else"},
    {ASM_NUMBER, "the storage has, or had, another agent with this number"},
    {ASM_MISSING, "a move has no receipt among the agents that were returned"},
    {ASM_OTHER, "the two slots are of two storages"},
    {ASM_ILLEGAL, "the journal is not legal"},
    {ASM_NOT_JSON, "not JSON"},
    {ASM_SHAPE, "JSON of another shape"},
    {ASM_VERSION, "a journal of another version"},
    {ASM_CUT, "the journal is cut off"},
    {ASM_LARGE, "an amount or a sum is too large"},
    {ASM_MOVED, "the state of the agent is at another number of moves than the step"},
    {ASM_DEEP, "64 moves are pushed already"},
    {ASM_APART, "a part opens with another state than the one before it leaves"},
    {ASM_AGENTS, "the number of an agent is not below 256, or more than 256 agents are asked for"},
    {ASM_AHEAD,
     "a location or a function is named at a number of moves that the agent has not seen"},
    {ASM_OPERAND, "the verb, the kind, the number, the bytes and the amount make no instruction"},
    {ASM_NO_FORM, "there is no such form"},
    {ASM_NO_JOURNAL, "no journal was made since an agent was returned or taken"},
    {ASM_NO_PUSH, "no move is pushed"},
    {ASM_NO_AGENT, "no agent with this number was returned"},
    {ASM_NO_PART, "no part has begun"},
    {ASM_NOT_FULL, "the state of the agent is at fewer moves than the storage has room for"},
    {ASM_MANY_CALLS, "more than the 4,294,967,295 calls of a journal"},
    {ASM_LONG_LINE, "a line of more than 1,073,741,824 bytes"},
    {ASM_LONG_MOVE, "a move of more than 4,096 instructions"},
    {ASM_NAME, "not the name of a segment"},
    {ASM_ORDER, "another call comes next"},
    {ASM_NOT_NEXT, "not the number of the next segment"},
    {ASM_OPENING, "segment 0 has events, or something before it"},
    {ASM_PREVIOUS, "not the segment after the one before it"},
    {ASM_DAMAGED, "not the text that was saved"},
    {ASM_COUNTS, "a segment has other counts than its name says"},
    {ASM_LONG_RUN, "100,000,000 segments, or 2^64 moves or more"},
    {ASM_ONE_SEGMENT, "the only segment of a run is not dropped"},
    {ASM_NO_INSTRUCTION, "the move has no instruction at this place"},
    {46, "no code of this library"},
    {-1, "no code of this library"},
};

static void texts_of_codes(void) {
    uint8_t out[128];
    size_t written;
    REQUIRE(asm_version() == FOLUGBEN_VERSION);
    for (int32_t form = -1; form <= 5; form += 6)
        ANSWERS(ASM_NO_FORM, asm_explain(form, bytes("[]"), 2, OUT));
    SAYS("location 1: lists nest at most 8 deep", ASM_SENTENCE_LIMIT,
         asm_explain(ASM_FORM_LOCATIONS,
                     TEXT("[['x',{'list':[{'list':[{'list':[{'list':[{'list':[{'list':[{'list':[{'list':[{'list':[]}"
                          "]}]}]}]}]}]}]}]}]]"),
                     OUT));
    for (size_t i = 0; i < sizeof meanings / sizeof *meanings; i++)
        SAYS(meanings[i].said, strlen(meanings[i].said), asm_error_text(meanings[i].code, OUT));
    for (int32_t code = -2; code < 50; code++) {
        bool known = code >= ASM_DONE && code <= ASM_NO_INSTRUCTION;
        REQUIRE(asm_error_text(code, out, sizeof out, &written) == ASM_DONE && written > 0);
        REQUIRE(known == !(written == 23 && !memcmp(out, "no code of this library", 23)));
    }
}

/* A script whose last agent's last step has 65 blocks, and the last block 4,096 instructions, of which this is the last. */
static const char *script_with(const char *instruction) {
    static char script[1 << 17];
    char *at = stpcpy(script, "{\"agents\":[");
    for (int agent = 0; agent < 255; agent++)
        at = stpcpy(at, "[],");
    at = stpcpy(at, "[");
    for (int step = 0; step < 9999; step++)
        at = stpcpy(at, "[[]],");
    at = stpcpy(at, "[");
    for (int block = 0; block < 64; block++)
        at = stpcpy(at, "[],");
    at = stpcpy(at, "[");
    for (int instr = 0; instr < 4095; instr++)
        at = stpcpy(at, "[\"inc\",[\"x\"],1],");
    stpcpy(stpcpy(at, instruction), "]]]],\"init\":[]}");
    return script;
}

/* None of the longest sentences gives way to the one for sentences above the limit. */
static void longest_sentences(void) {
    static const char letters[] = "abcdefghijklmnopqrstuvwxyzabcdefghijklmnopqrstuvwxyzabcdefghijkl";
    char instruction[128], said[ASM_SENTENCE_LIMIT], lines[1024];
    EXPLAINS("agent 255 step 9999 block 64 instruction 4095: a term is a value, {\"val\":LOC} or {\"sum\":[TERM,TERM]}, and a "
             "value is no object but a list, a set or a bag",
             ASM_FORM_SCRIPT, script_with("[\"put\",[\"x\"],{}]"));
    snprintf(instruction, sizeof instruction, "[\"%s\",[\"x\"],1]", letters);
    snprintf(said, sizeof said, "agent 255 step 9999 block 64 instruction 4095: unknown word \"%s\"", letters);
    EXPLAINS(said, ASM_FORM_SCRIPT, script_with(instruction));
    memset(lines, '\n', sizeof lines - 2);
    memcpy(lines + sizeof lines - 2, "[", 2);
    EXPLAINS("not JSON: cut off after byte 1023, in line 1023", ASM_FORM_SCRIPT, lines);
}

int main(void) {
    texts_of_codes();
    longest_sentences();
    puts("passed");
    return 0;
}
