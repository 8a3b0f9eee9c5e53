/* What would make a line of a journal longer than an audit reads is refused, and nothing changes.
 *
 * A byte that is escaped has six in a line, so that a text of such bytes is long there and short in
 * memory. A location is twice in the line of a fire, if its reply has it too. */
#include "tests.h"

enum { LINE = 1073741824, ROOM = 120, ESCAPE = 6, FOURTH = LINE / 4 / ESCAPE };

/* What a put at ["a"] counts without its value: the instruction, its comma and the location. */
enum { SIGNS = 17 + 5, FITS = (LINE - ROOM - SIGNS) / ESCAPE };

static struct asm_storage storage;
static struct asm_agent agent;
static struct asm_step step;
static asm_numbers numbers;

static char *repeated(char byte, size_t count) {
    char *text = malloc(count);
    REQUIRE(text != NULL);
    memset(text, byte, count);
    return text;
}

static void open_agent(uint32_t capacity) {
    open_with("[]", capacity, &storage);
    REQUIRE(asm_agent(&storage, 0, &agent) == ASM_DONE);
}

/* Pushes a put of a text of so many bytes that are escaped, and of others behind them. */
static void push_text(const char *location, size_t escaped, size_t more) {
    struct asm_location at = {0};
    size_t written;
    uint32_t number;
    char *text = repeated('\1', escaped + more);
    memset(text + escaped, 'x', more);
    REQUIRE(asm_location(TEXT(location), &at) == ASM_DONE);
    REQUIRE(asm_begin(&agent, &step, &number) == ASM_DONE);
    REQUIRE(asm_push_at(&agent, &step, &at, ASM_PUT, ASM_KIND_TEXT, 0, bytes(text), escaped + more,
                        0, NULL, 0, &written) == ASM_DONE);
    free(text);
    asm_free_location(&at);
}

/* An audit reads the journal of the agent's calls, whose longest line has nearly as many bytes as a
 * line may have. */
static void is_audited(void) {
    struct asm_audit audit = {0};
    asm_audit_numbers told;
    uint32_t moves;
    size_t length, taken;
    REQUIRE(asm_give(&storage, &agent) == ASM_DONE && asm_close(&storage, &moves) == ASM_DONE);
    REQUIRE(asm_journal(&storage, NULL, 0, &length) == ASM_SMALL && length > LINE - ROOM);
    uint8_t *journal = malloc(length);
    REQUIRE(journal != NULL && asm_journal(&storage, journal, length, &length) == ASM_DONE);
    REQUIRE(asm_audit(&audit, journal, length, &taken, &told) == ASM_DONE && taken == length);
    REQUIRE(asm_audited(&audit, &told) == ASM_DONE && told.moves == 1);
    asm_free_audit(&audit);
    free(journal);
}

/* The longest value with which a line is short enough, and one more byte. */
static void test_commits(void) {
    REQUIRE(FITS * ESCAPE + SIGNS == LINE - ROOM);
    for (size_t more = 0; more < 2; more++) {
        open_agent(1);
        push_text("['a']", FITS, more);
        REQUIRE(asm_commit(&agent, &step, &numbers) == (more ? ASM_LONG_LINE : ASM_DONE));
        REQUIRE(numbers.fired == !more && numbers.from == 0 && numbers.to == 0);
        REQUIRE(asm_depth(&step) == more && asm_won(&agent) == !more);
        if (!more)
            is_audited();
        asm_free_step(&step);
        asm_free_agent(&agent);
        asm_free_storage(&storage);
    }
}

/* A move by its text, with a location of half a line. */
static void test_fires(void) {
    const char *before = json("{'fire':[['put',['a','"), *behind = json("'],1]],'reads':[]}");
    size_t length = strlen(before) + LINE / 2 + strlen(behind);
    char *call = repeated('x', length);
    memcpy(call, before, strlen(before));
    memcpy(call + length - strlen(behind), behind, strlen(behind));
    open_agent(1);
    uint64_t misses = asm_misses(&agent);
    REQUIRE(asm_try_fire(&agent, bytes(call), length, &numbers) == ASM_LONG_LINE);
    REQUIRE(asm_try_fire_over(&agent, bytes(call), length, TEXT("[]"), &numbers) == ASM_LONG_LINE);
    REQUIRE(numbers.fired == 0 && asm_won(&agent) == 0 && asm_misses(&agent) == misses);
    free(call);
    asm_free_agent(&agent);
    asm_free_storage(&storage);
}

/* A read of a short location, with a long value. */
static void test_reads(void) {
    uint32_t number;
    open_agent(2);
    push_text("['a']", FOURTH, 0);
    REQUIRE(asm_commit(&agent, &step, &numbers) == ASM_DONE);
    REQUIRE(asm_follow(&agent, &number) == ASM_DONE && number == 1);
    uint64_t misses = asm_misses(&agent);
    REQUIRE(asm_read(&agent, TEXT("[['a'],['b'],['a'],['a'],['a']]")) == ASM_LONG_LINE);
    REQUIRE(asm_misses(&agent) == misses);
    REQUIRE(asm_read(&agent, TEXT("[['a']]")) == ASM_DONE);
    asm_free_agent(&agent);
    asm_free_storage(&storage);
}

/* The recorded commit of a step that tracks four such texts. */
static void is_unrecorded(void) {
    static const char *places[] = {"['a',0]", "['a',1]", "['a',2]", "['a',3]"};
    size_t written;
    uint32_t number;
    uint64_t size;
    REQUIRE(asm_begin(&agent, &step, &number) == ASM_DONE);
    for (int i = 0; i < 4; i++) {
        struct asm_location at = {0};
        REQUIRE(asm_location(TEXT(places[i]), &at) == ASM_DONE);
        REQUIRE(asm_size(&agent, &step, &at, &size) == ASM_SHAPE);
        asm_free_location(&at);
    }
    REQUIRE(asm_push(&agent, &step, TEXT("[['put',['b'],1]]"), NULL, 0, &written) == ASM_DONE);
    REQUIRE(asm_commit_recorded(&agent, &step, &numbers) == ASM_LONG_LINE);
    REQUIRE(numbers.fired == 0 && asm_depth(&step) == 1);
    REQUIRE(asm_commit(&agent, &step, &numbers) == ASM_DONE && numbers.fired == 5);
}

/* No journal begins with a state of four such texts. */
static void test_states(void) {
    struct asm_storage next = {0};
    uint32_t number;
    char location[16];
    open_agent(5);
    for (int i = 0; i < 4; i++) {
        snprintf(location, sizeof location, "['a',%d]", i);
        push_text(location, FOURTH, 0);
        REQUIRE(asm_commit(&agent, &step, &numbers) == ASM_DONE);
    }
    is_unrecorded();
    REQUIRE(asm_follow(&agent, &number) == ASM_DONE && number == 5);
    REQUIRE(asm_go_on(&agent, 4, &next) == ASM_LONG_LINE && !next.slot.full);
    REQUIRE(asm_give(&storage, &agent) == ASM_DONE);
    REQUIRE(asm_close(&storage, &number) == ASM_DONE);
    REQUIRE(asm_next(&storage, 4, &next) == ASM_LONG_LINE && !next.slot.full);
    asm_free_storage(&storage);
}

static void test_opening(void) {
    static const char escape[] = "\\u0001";
    char *text = malloc(4 * (FOURTH * ESCAPE + 32)), *at = text;
    REQUIRE(text != NULL);
    for (int i = 0; i < 4; i++) {
        at += sprintf(at, "%c[[\"a\",%d],\"", i ? ',' : '[', i);
        for (int k = 0; k < FOURTH; k++, at += ESCAPE)
            memcpy(at, escape, ESCAPE);
        at += sprintf(at, "\"]");
    }
    *at++ = ']';
    REQUIRE(asm_open(bytes(text), (size_t)(at - text), 4, &storage) == ASM_LONG_LINE);
    REQUIRE(!storage.slot.full);
    free(text);
}

int main(void) {
    test_commits();
    test_fires();
    test_reads();
    test_states();
    test_opening();
    puts("long lines are refused");
    return 0;
}
