/* Runs in parts: storages that continue from an agent's own state, agents that are returned and
 * checked out again, and audits of the parts' journals, whose bytes come in pieces. */
#include "tests.h"

static struct asm_storage storage;
static struct asm_agent agents[3];

static void end_all(void) {
    asm_free_storage(&storage);
    for (size_t i = 0; i < 3; i++)
        asm_free_agent(&agents[i]);
}

static void follows_to(struct asm_agent *agent, uint32_t wanted) {
    uint32_t number = 9;
    REQUIRE(asm_follow(agent, &number) == ASM_DONE && number == wanted);
}

static void refuses_next_from_agent(struct asm_agent *agent, uint32_t capacity,
                                    struct asm_storage *next, int32_t wanted) {
    asm_slot was[2] = {agent->slot, next->slot};
    REQUIRE(asm_go_on(agent, capacity, next) == wanted);
    REQUIRE(is_same(*agent, was[0]) && is_same(*next, was[1]));
}

/* A storage continues once it is full, from an agent that has polled up to the end; the other
 * agents need not, and are closed later. */
static void agents_open_storages(void) {
    struct asm_storage next = {0};
    struct asm_agent agent = {0};
    struct asm_step step = {0};
    uint32_t number;
    open_with("[[['x'],7],[['y'],'why']]", 2, &storage);
    refuses_next_from_agent(&agent, 4, &next, ASM_EMPTY);
    REQUIRE(asm_agents(&storage, agents, 3) == ASM_DONE);
    refuses_next_from_agent(&agents[0], 4, &next, ASM_NOT_FULL);
    fire(&agents[0], "[['inc',['x'],1],['put',['y'],null]]");
    follows_to(&agents[0], 1);
    refuses_next_from_agent(&agents[0], 4, &next, ASM_NOT_FULL);
    fire(&agents[1], "[['put',['z',1],{'set':[2]}]]");
    /* Each has seen one move, and none the end. */
    refuses_next_from_agent(&agents[0], 4, &next, ASM_NOT_FULL);
    refuses_next_from_agent(&agents[1], 0, &next, ASM_NOT_FULL);
    follows_to(&agents[0], 2);
    REQUIRE(asm_learn(&agents[2], &agents[0]) == ASM_DONE && asm_seen(&agents[2]) == 2);
    refuses_next_from_agent(&agents[2], 4, &next, ASM_NOT_FULL);
    refuses_next_from_agent(&agents[0], 0, &next, ASM_CAPACITY);
    refuses_next_from_agent(&agents[0], 1048577, &next, ASM_CAPACITY);
    refuses_next_from_agent(&agents[0], 0, &storage, ASM_TAKEN);
    refuses_next_from_agent(AS(agent, &storage), 4, AS(storage, &agents[0]), ASM_TAKEN);
    refuses_next_from_agent(&agents[0], 4, AS(storage, &agents[0]), ASM_TAKEN);
    refuses_next_from_agent(AS(agent, &storage), 4, &next, ASM_EMPTY);
    REQUIRE(asm_begin(&agents[1], &step, &number) == ASM_DONE && number == 2);
    refuses_next_from_agent(AS(agent, &step), 4, &next, ASM_EMPTY);
    REQUIRE(asm_go_on(&agents[1], 1048576, &next) == ASM_DONE && next.slot.full);
    asm_free_storage(&next);
    REQUIRE(asm_go_on(&agents[0], 3, &next) == ASM_DONE && next.slot.full);
    refuses_next_from_agent(&agents[0], 3, &next, ASM_TAKEN);
    /* It has no agent, no move and no journal, and as much room as was requested. */
    REQUIRE(asm_moves(&next, &number) == ASM_DONE && number == 0);
    ANSWERS(ASM_NO_JOURNAL, asm_journal(&next, OUT));
    REQUIRE(asm_agent(&next, 0, &agent) == ASM_DONE);
    WRITES(ASM_DONE, "[[['x'],8],[['z',1],{'set':[2]}]]", asm_state(&agent, &number, OUT));
    REQUIRE(number == 0);
    for (int i = 0; i < 3; i++)
        fire(&agent, "[['inc',['x'],1]]");
    asm_numbers numbers;
    REQUIRE(asm_try_fire(&agent, TEXT("{'fire':[],'reads':[]}"), &numbers) == ASM_FULL);
    /* The first one is unchanged. */
    follows_to(&agents[2], 2);
    WRITES(ASM_DONE, "{'number':2,'values':[8,null]}",
           asm_peek(&agents[2], TEXT("[['x'],['y']]"), OUT));
    for (size_t i = 0; i < 3; i++)
        REQUIRE(asm_give(&storage, &agents[i]) == ASM_DONE);
    char *journal = journal_of(&storage);
    is_legal(journal, 2, 2);
    free(journal);
    asm_free_step(&step);
    asm_free_agent(&agent);
    asm_free_storage(&next);
    end_all();
}

static void refuses_checkout(uint32_t number, struct asm_agent *agent, int32_t wanted) {
    asm_slot was[2] = {storage.slot, agent->slot};
    REQUIRE(asm_take(&storage, number, agent) == wanted);
    REQUIRE(is_same(storage, was[0]) && is_same(*agent, was[1]));
}

/* An agent that was returned continues at its version, with its receipts, as often as it is
 * checked out. */
static void agents_are_checked_out_again(void) {
    struct asm_agent agent = {0};
    asm_numbers numbers;
    uint32_t missing;
    open_with("[[['x'],0]]", 8, &storage);
    REQUIRE(asm_agents(&storage, agents, 3) == ASM_DONE);
    refuses_checkout(0, &agent, ASM_NO_AGENT);
    fire(&agents[1], "[['inc',['x'],1]]");
    follows_to(&agents[1], 1);
    REQUIRE(asm_give(&storage, &agents[1]) == ASM_DONE);
    REQUIRE(asm_give(&storage, &agents[2]) == ASM_DONE);
    refuses_checkout(0, &agent, ASM_NO_AGENT);
    refuses_checkout(256, &agent, ASM_NO_AGENT);
    refuses_checkout(1, &agents[0], ASM_TAKEN);
    refuses_checkout(1, AS(agent, &storage), ASM_TAKEN);
    REQUIRE(asm_take(AS(storage, &agents[0]), 1, &agent) == ASM_EMPTY && !agent.slot.full);
    REQUIRE(asm_take(AS(storage, &agent), 1, &agent) == ASM_EMPTY && !agent.slot.full);
    REQUIRE(asm_close(&storage, &missing) == ASM_DONE);
    REQUIRE(asm_take(&storage, 1, &agent) == ASM_DONE && agent.slot.full);
    refuses_checkout(1, &agents[1], ASM_NO_AGENT);
    /* The journal is gone, and without the agent a move has no receipt. */
    ANSWERS(ASM_NO_JOURNAL, asm_journal(&storage, OUT));
    REQUIRE(asm_close(&storage, &missing) == ASM_MISSING && missing == 1);
    REQUIRE(asm_seen(&agent) == 1 && asm_won(&agent) == 1 && asm_misses(&agent) == 2);
    WRITES(ASM_DONE, "{'fired':1}", asm_answer(&agent, OUT));
    WRITES(ASM_DONE, "{'number':1,'values':[1]}", asm_peek(&agent, TEXT("[['x']]"), OUT));
    /* Its number stays its own, and it is of the storage. */
    REQUIRE(asm_agent(&storage, 1, &agents[1]) == ASM_NUMBER);
    REQUIRE(asm_learn(&agents[0], &agent) == ASM_DONE && asm_seen(&agents[0]) == 1);
    fire(&agents[0], "[['inc',['x'],1]]");
    REQUIRE(asm_try_fire(&agent, TEXT("{'fire':[],'reads':[[['x'],1]]}"), &numbers) == ASM_STALE);
    for (int i = 0; i < 300; i++) {
        REQUIRE(asm_give(&storage, &agent) == ASM_DONE && !agent.slot.full);
        REQUIRE(asm_take(&storage, 1, &agent) == ASM_DONE && agent.slot.full);
    }
    REQUIRE(asm_take(&storage, 2, &agents[2]) == ASM_DONE);
    REQUIRE(asm_give(&storage, &agents[2]) == ASM_DONE);
    REQUIRE(asm_give(&storage, &agent) == ASM_DONE);
    REQUIRE(asm_give(&storage, &agents[0]) == ASM_DONE);
    char *journal = journal_of(&storage);
    is_legal(journal, 3, 2);
    free(journal);
    end_all();
}

/* What an audit reports. */
typedef struct sentence {
    int32_t code;
    uint64_t parts, calls, moves;
} sentence;

static void reports(int32_t code, asm_audit_numbers audited, sentence wanted, int line) {
    if (code == wanted.code && audited.parts == wanted.parts && audited.calls == wanted.calls &&
        audited.moves == wanted.moves)
        return;
    fprintf(stderr, "%s: line %d: code %" PRId32 ", %" PRIu64 " %" PRIu64 " %" PRIu64 "\n",
            __FILE__, line, code, audited.parts, audited.calls, audited.moves);
    exit(1);
}

#define SAYS(call, ...) reports((call), audited, (sentence){__VA_ARGS__}, __LINE__)

/* Three parts of one run, each with a stale fire, in which x is raised once or twice. */
static char *parts[3];

static void make_parts(void) {
    static const uint32_t capacities[] = {2, 1, 2};
    struct asm_storage next = {0};
    open_with("[[['x'],0]]", capacities[0], &storage);
    for (size_t i = 0; i < 3; i++) {
        asm_numbers numbers;
        REQUIRE(asm_agents(&storage, agents, 2) == ASM_DONE);
        for (uint32_t k = 0; k < capacities[i]; k++)
            fire(&agents[k % 2], "[['inc',['x'],1]]");
        REQUIRE(asm_try_fire(&agents[0], TEXT("{'fire':[],'reads':[[['x'],0]]}"), &numbers) ==
                ASM_STALE);
        REQUIRE(asm_go_on(&agents[0], i < 2 ? capacities[i + 1] : 1, &next) == ASM_DONE);
        for (size_t k = 0; k < 2; k++)
            REQUIRE(asm_give(&storage, &agents[k]) == ASM_DONE);
        parts[i] = journal_of(&storage);
        is_legal(parts[i], capacities[i] + 1, capacities[i]);
        asm_free_storage(&storage);
        storage = next;
        next = (struct asm_storage){0};
    }
    end_all();
}

/* The parts in this order, of which each number is one. */
static char *joined(const char *order) {
    static char text[3 * LONGEST];
    char *at = text;
    *at = 0;
    for (; *order; order++)
        at += sprintf(at, "%s", parts[*order - '0']);
    return text;
}

/* All bytes of the text are accepted, in pieces of this length. */
static void takes(struct asm_audit *audit, const char *text, size_t piece) {
    asm_audit_numbers audited;
    size_t taken = 9, length = strlen(text);
    for (size_t at = 0; at < length; at += piece) {
        size_t len = piece < length - at ? piece : length - at;
        REQUIRE(asm_audit(audit, bytes(text) + at, len, &taken, &audited) == ASM_DONE);
        REQUIRE(taken == len);
    }
}

/* However the bytes come, the numbers are those of the lines that have ended. */
static void in_pieces(void) {
    struct asm_audit audit = {0};
    asm_audit_numbers audited;
    size_t taken = 9, length = strlen(joined("012"));
    for (size_t piece = 1; piece <= length; piece += piece < 20 ? 1 : 97) {
        takes(&audit, joined("012"), piece);
        SAYS(asm_audit(&audit, NULL, 0, &taken, &audited), ASM_DONE, 3, 8, 5);
        REQUIRE(taken == 0);
        SAYS(asm_audited(&audit, &audited), ASM_DONE, 3, 8, 5);
        WRITES(ASM_DONE, "[[['x'],5]]", asm_audit_state(&audit, OUT));
        asm_free_audit(&audit);
    }
    takes(&audit, joined("0"), 1000);
    SAYS(asm_audited(&audit, &audited), ASM_DONE, 1, 3, 2);
    /* The header and one event of the next part. */
    const char *second = strchr(strchr(parts[1], '\n') + 1, '\n') + 1;
    size_t so_far = (size_t)(second - parts[1]);
    SAYS(asm_audit(&audit, bytes(parts[1]), so_far, &taken, &audited), ASM_DONE, 1, 4, 3);
    REQUIRE(taken == so_far);
    SAYS(asm_audited(&audit, &audited), ASM_CUT, 1, 0, 0);
    WRITES(ASM_DONE, "[[['x'],3]]", asm_audit_state(&audit, OUT));
    SAYS(asm_audit(&audit, bytes(second), 7, &taken, &audited), ASM_DONE, 1, 4, 3);
    SAYS(asm_audited(&audit, &audited), ASM_NOT_JSON, 1, 3, 0);
    /* Both report what would be so if nothing more came, and more comes. */
    SAYS(asm_audit(&audit, bytes(second) + 7, strlen(second) - 7, &taken, &audited), ASM_DONE, 2, 5,
         3);
    SAYS(asm_audited(&audit, &audited), ASM_DONE, 2, 5, 3);
    asm_free_audit(&audit);
}

/* The audit of the text, byte by byte and at once, reports this once this many bytes were
 * accepted; and reports it again, however often the next byte is passed. */
static void reports_at(const char *text, size_t at, sentence wanted, int line) {
    for (int once = 0; once < 2; once++) {
        struct asm_audit audit = {0};
        asm_audit_numbers audited = {9, 9, 9};
        size_t taken = 9, length = strlen(text);
        int32_t code = ASM_DONE;
        if (once) {
            code = asm_audit(&audit, bytes(text), length, &taken, &audited);
        } else {
            for (taken = 0; taken < length && code == ASM_DONE;) {
                size_t more = 9;
                code = asm_audit(&audit, bytes(text) + taken, 1, &more, &audited);
                REQUIRE(more == (code == ASM_DONE));
                taken += more;
            }
        }
        reports(code, audited, wanted, line);
        REQUIRE(taken == at && audit.slot.full);
        for (int again = 0; again < 2; again++) {
            size_t more = 9;
            reports(asm_audit(&audit, bytes(text) + taken, length - taken, &more, &audited),
                    audited, wanted, line);
            REQUIRE(more == 0);
        }
        asm_free_audit(&audit);
    }
}

#define REPORTS_AT(text, at, ...) reports_at((text), (at), (sentence){__VA_ARGS__}, __LINE__)

/* The first wrong answer, or the first fault, is reported at the line feed of its line. */
static void first_faults(void) {
    size_t first = strlen(parts[0]), both = first + strlen(parts[1]);
    char *text = joined("02");
    size_t header = (size_t)(strchr(parts[2], '\n') - parts[2]);
    REPORTS_AT(text, first + header, ASM_APART, 1, 0, 0);
    text = joined("012");
    char *fired = strstr(text + both, "\"fired\":2");
    REQUIRE(fired != NULL);
    size_t end = (size_t)(strchr(fired, '\n') - text);
    fired[8] = '1';
    REPORTS_AT(text, end, ASM_ILLEGAL, 2, 1, 0);
    /* A second wrong answer isn't reported. */
    char *stale = strstr(text + end, "{\"stale\":[\"x\"]}");
    REQUIRE(stale != NULL);
    memcpy(stale, "\"full\"         ", 15);
    REPORTS_AT(text, end, ASM_ILLEGAL, 2, 1, 0);
    fired[0] = ' ';
    REPORTS_AT(text, end, ASM_NOT_JSON, 2, 3, 0);
    text = joined("01");
    char *init = strstr(text + first, "\"init\"");
    REQUIRE(init != NULL);
    end = (size_t)(strchr(init, '\n') - text);
    init[1] = 'o';
    REPORTS_AT(text, end, ASM_SHAPE, 1, 1, 0);
    text = joined("01");
    char *version = strstr(text + first, "\"version\":2");
    REQUIRE(version != NULL);
    version[10] = '3';
    REPORTS_AT(text, end, ASM_VERSION, 1, 0, 0);
    REPORTS_AT("\n", 0, ASM_NOT_JSON, 0, 1, 0);
}

/* A line may be longer than the 16,777,216 bytes of a complete journal that is checked. With
 * FOLUGBEN_LONG in the environment: it may have 1,073,741,824 bytes, and no more; that takes 4
 * GiB of memory. */
static void long_lines(void) {
    enum { JOURNAL = 16777216, MOST = 1073741824 };
    const int all = getenv("FOLUGBEN_LONG") != NULL;
    const size_t most = all ? MOST : JOURNAL;
    struct asm_audit audit = {0};
    asm_audit_numbers audited;
    size_t taken = 9;
    char *line = malloc(most + 1);
    REQUIRE(line != NULL);
    memset(line, ' ', most + 1);
    SAYS(asm_audit(&audit, bytes(line), most + 1, &taken, &audited), all ? ASM_LONG_LINE : ASM_DONE,
         0, 0, 0);
    REQUIRE(taken == most + !all);
    line[most] = '\n';
    SAYS(asm_audit(&audit, bytes(line) + most, 1, &taken, &audited), ASM_NOT_JSON, 0, 1, 0);
    REQUIRE(taken == 0);
    asm_free_audit(&audit);
    free(line);
}

/* Slots without an audit, and audits that have read nothing. */
static void refused_audits(void) {
    struct asm_audit audit = {0};
    asm_audit_numbers audited = {9, 9, 9};
    size_t taken = 9;
    open_with("[]", 8, &storage);
    REQUIRE(asm_agents(&storage, agents, 1) == ASM_DONE);
    for (size_t i = 0; i < 2; i++) {
        struct asm_audit *slot = i ? AS(audit, &agents[0]) : AS(audit, &storage);
        asm_slot was = slot->slot;
        taken = 9;
        SAYS(asm_audit(slot, bytes("{"), 1, &taken, &audited), ASM_TAKEN, 0, 0, 0);
        REQUIRE(taken == 0);
        SAYS(asm_audited(slot, &audited), ASM_EMPTY, 0, 0, 0);
        ANSWERS(ASM_EMPTY, asm_audit_state(slot, OUT));
        REQUIRE(is_same(*slot, was));
    }
    audited = (asm_audit_numbers){9, 9, 9};
    SAYS(asm_audited(&audit, &audited), ASM_EMPTY, 0, 0, 0);
    ANSWERS(ASM_EMPTY, asm_audit_state(&audit, OUT));
    REQUIRE(!audit.slot.full);
    SAYS(asm_audit(&audit, NULL, 0, &taken, &audited), ASM_DONE, 0, 0, 0);
    REQUIRE(audit.slot.full && taken == 0);
    SAYS(asm_audited(&audit, &audited), ASM_CUT, 0, 0, 0);
    ANSWERS(ASM_NO_PART, asm_audit_state(&audit, OUT));
    /* It is no agent, storage, step, location or move. */
    uint32_t number = 9;
    REQUIRE(asm_follow(AS(agent, &audit), &number) == ASM_EMPTY && number == 0);
    REQUIRE(asm_seen(AS(agent, &audit)) == 0);
    REQUIRE(asm_moves(AS(storage, &audit), &number) == ASM_EMPTY);
    REQUIRE(asm_depth(AS(step, &audit)) == 0);
    REQUIRE(asm_begin(&agents[0], AS(step, &audit), &number) == ASM_TAKEN);
    REQUIRE(asm_location(TEXT("['x']"), AS(location, &audit)) == ASM_TAKEN);
    REQUIRE(asm_open(TEXT("[]"), 1, AS(storage, &audit)) == ASM_TAKEN);
    WRITES(ASM_DONE, "a part opens with another state than the one before it leaves",
           asm_error_text(ASM_APART, OUT));
    asm_free_audit(&audit);
    end_all();
}

int main(void) {
    agents_open_storages();
    agents_are_checked_out_again();
    make_parts();
    in_pieces();
    first_faults();
    long_lines();
    refused_audits();
    for (size_t i = 0; i < 3; i++)
        free(parts[i]);
    puts("passed");
    return 0;
}
