/* Makes the calls of the tables in bindings/conformance, and compares each answer, byte for byte: twice, the second time with commits
 * that record. A call that writes is made without room and with a byte too few as well, and a refused one has to leave the slots of
 * its agent, of that one's step and of its move unchanged. usage: conformance FOLDER */
#include "conformance_steps.h"

/* Of a journal: an error with the number of a line says what is wrong with that. */
static int32_t of_line(int32_t code, const struct word *it, uint64_t line) {
    if (code == ASM_SHAPE || code == ASM_NOT_JSON) {
        const char *at = it->at, *end = it->at + it->len;
        for (uint64_t i = 1; i < line; i++)
            at = memchr(at, '\n', (size_t)(end - at)) ? (const char *)memchr(at, '\n', (size_t)(end - at)) + 1 : end;
        const char *stop = memchr(at, '\n', (size_t)(end - at));
        sprintf(numbers, "[%" PRIu64, line);
        if (line > 1)
            explain(ASM_FORM_EVENT, (const uint8_t *)at, (size_t)((stop ? stop : end) - at));
    }
    return code;
}

static void begin_case(void) {
    for (size_t i = 0; i < AGENTS; i++) {
        asm_free_agent(agents[i]);
        free(agents[i]);
        agents[i] = NULL;
        read_by[i] = 0;
        asm_free_step(&steps[i]);
        asm_free_move(&moves[i]);
    }
    asm_free_storage(storage);
    free(storage);
    storage = NULL;
}

/* Has the storage, which was opened with this code, be that of the case. */
static int32_t opened(int32_t code, struct asm_storage *made) {
    if (code == ASM_DONE) {
        begin_case();
        storage = made;
        return write_null(code);
    }
    free(made);
    if (code == ASM_SHAPE || code == ASM_NOT_JSON)
        explain(ASM_FORM_STATE, BYTES(words[0]));
    return code;
}

static int32_t agent_by(int32_t (*call)(struct asm_storage *, uint32_t, struct asm_agent *)) {
    struct asm_agent *made = slot(sizeof *made);
    int32_t code = call(storage, number(0), made);
    if (code != ASM_DONE) {
        free(made);
        return code;
    }
    if (agents[number(0)])
        asm_free_agent(agents[number(0)]);
    free(agents[number(0)]);
    agents[number(0)] = made;
    return write_null(code);
}

static int32_t abandoned(void) {
    asm_free_agent(agent(0));
    return write_null(ASM_DONE);
}

/* How many reads of the journal were recorded by commits: those that no agent made by itself. */
static uint64_t recorded_reads(void) {
    static const char event[] = ",\"call\":{\"read\":";
    uint64_t all = 0;
    for (size_t i = 0; i + strlen(event) < journal_len; i++)
        all += !memcmp(journal + i, event, strlen(event));
    for (size_t i = 0; i < AGENTS; i++)
        all -= agents[i] && !agents[i]->slot.full ? read_by[i] : 0;
    return all;
}

static int32_t checked(const struct word *it, uint64_t recorded) {
    uint64_t calls = 0;
    uint32_t fired = 0;
    int32_t code = asm_check(BYTES(*it), &calls, &fired);
    if (code == ASM_ILLEGAL)
        sprintf(numbers, "[%" PRIu64, calls);
    else if (code == ASM_DONE)
        reply("[%" PRIu64 ",%" PRIu32 "]", calls - recorded, fired);
    return of_line(code, it, calls);
}

static int32_t audited(const struct word *it) {
    struct asm_audit audit = {0};
    asm_audit_numbers told = {0};
    size_t taken;
    int32_t code = asm_audit(&audit, BYTES(*it), &taken, &told);
    if (code == ASM_DONE)
        code = asm_audited(&audit, &told);
    code = code == ASM_EMPTY ? ASM_CUT : code; /* it has no byte */
    if (code == ASM_DONE)
        reply("[%" PRIu64 ",%" PRIu64 ",%" PRIu64 "]", told.calls, told.moves, told.parts);
    else if (code == ASM_ILLEGAL || code == ASM_SHAPE || code == ASM_NOT_JSON)
        sprintf(numbers, "[%" PRIu64 ",%" PRIu64, told.calls, told.parts);
    else
        sprintf(numbers, "[%" PRIu64, told.parts);
    asm_free_audit(&audit);
    return code;
}

static int32_t read_locations(void) {
    int32_t code = asm_read(agent(0), BYTES(words[1]));
    read_by[number(0)] += code == ASM_DONE;
    return of_locations(answered(code));
}

static int32_t fire(void) {
    asm_numbers its = {9, 9, 9};
    struct word call = fire_of(words[1], words[2]);
    int32_t code = asm_try_fire_over(agent(0), BYTES(call), BYTES(words[3]), &its);
    if (code == ASM_SHAPE)
        explain(ASM_FORM_MOVE, BYTES(call));
    return numbered(code, its);
}

static int32_t stands(void) {
    int32_t code = WRITES(asm_stands(agent(0), BYTES(words[1]), OUT));
    if (code == ASM_SHAPE) {
        struct word call = fire_of((struct word){"[]", 2}, words[1]);
        explain(ASM_FORM_MOVE, BYTES(call));
    }
    return or_refusal(code);
}

static int32_t of_two(int32_t code, bool is_state) {
    if (code == ASM_SHAPE || code == ASM_NOT_JSON) {
        if (is_state)
            explain(ASM_FORM_STATE, BYTES(words[0]));
        else
            explain_move(words[0]);
        if (!*said)
            explain_move(words[1]);
    }
    return code == ASM_CLASH || code == ASM_LARGE ? ASM_DONE : code;
}

static int32_t at_number(int32_t code, uint32_t found, size_t wanted) {
    if (code == ASM_DONE && found != number(wanted))
        fail("another number");
    return code;
}

static int32_t explained(void) {
    static const char *const forms[] = {"LOCATIONS", "MOVE", "STATE", "EVENT", "SCRIPT"};
    struct word *form = text(0), *it = text(1);
    int32_t number = 0;
    while (strncmp(forms[number], form->at, form->len))
        number++;
    explain(number, BYTES(*it));
    give_room(2 * sizeof said);
    written = quote((char *)out, said, strlen(said));
    return ASM_DONE;
}

static int32_t closed(void) {
    uint32_t missing = 0;
    int32_t code = asm_close(storage, &missing);
    if (code == ASM_MISSING)
        sprintf(numbers, "[%" PRIu32, missing);
    if (code != ASM_DONE)
        return code;
    if (WRITES(asm_journal(storage, OUT)) != ASM_DONE || written >= sizeof journal)
        fail("asm_journal");
    memcpy(journal, out, journal_len = written);
    return write_null(code);
}

/* The state that the journal leaves. */
static int32_t left(void) {
    uint64_t line = 0;
    return WRITES(asm_replay(journal, journal_len, OUT, &line));
}

/* The events of the journal, behind its header. */
static int32_t lines(void) {
    const uint8_t *from = (const uint8_t *)memchr(journal, '\n', journal_len) + 1;
    give_room(journal_len + 2);
    out[0] = '[';
    written = 1;
    for (; from < journal + journal_len; from++)
        out[written++] = *from == '\n' ? ',' : *from;
    written -= written > 1;
    out[written++] = ']';
    return ASM_DONE;
}

/* A call of an agent, or one of its step. */
static int32_t of_agent(const char *call) {
    uint32_t found = 0;
    if (IS("agent")) return agent_by(asm_agent);
    if (IS("take")) return agent_by(asm_take);
    if (IS("give")) return write_null(asm_give(storage, agent(0)));
    if (IS("abandon")) return abandoned();
    if (IS("learn")) return write_null(asm_learn(agent(0), agent(1)));
    if (IS("read")) return read_locations();
    if (IS("answer")) return WRITES(asm_answer(agent(0), OUT));
    if (IS("peek")) return of_locations(WRITES(asm_peek(agent(0), BYTES(words[1]), OUT)));
    if (IS("peek_at")) return at_prepared(false);
    if (IS("fire")) return fire();
    if (IS("follow")) {
        int32_t code = asm_follow(agent(0), &found);
        return code == ASM_DONE ? write_number(found) : code;
    }
    if (IS("stands")) return stands();
    if (IS("state")) {
        int32_t code = WRITES(asm_state(agent(0), &found, OUT));
        return at_number(code, found, 1);
    }
    if (IS("scan")) {
        struct word *name = text(1);
        int32_t code = WRITES(asm_scan(agent(0), BYTES(*name), &found, OUT));
        return at_number(code, found, 2);
    }
    if (IS("seen")) return write_number(asm_seen(agent(0)));
    if (IS("won")) return write_number(asm_won(agent(0)));
    if (IS("misses")) return write_number(asm_misses(agent(0)));
    return of_step(call);
}

/* Makes the call, whose answer is then in `out`; returns the code of an error. */
static int32_t answer(const char *call) {
    uint32_t found = 0;
    uint64_t line = 0;
    if (IS("open") || IS("next") || IS("go_on")) {
        struct asm_storage *made = slot(sizeof *made);
        int32_t code = IS("open")   ? asm_open(BYTES(words[0]), number(1), made)
                       : IS("next") ? asm_next(storage, number(0), made)
                                    : asm_go_on(agent(0), number(1), made);
        return opened(code, made);
    }
    if (IS("moves")) {
        int32_t code = asm_moves(storage, &found);
        return code == ASM_DONE ? write_number(found) : code;
    }
    if (IS("close")) return closed();
    if (IS("journal")) return checked(&(struct word){(char *)journal, journal_len}, recorded_reads());
    if (IS("lines") || IS("recorded")) return lines();
    if (IS("left")) return left();
    if (IS("check")) return checked(text(0), 0);
    if (IS("replay")) {
        struct word *it = text(0);
        int32_t code = WRITES(asm_replay(BYTES(*it), OUT, &line));
        return of_line(code, it, line);
    }
    if (IS("audit")) return audited(text(0));
    if (IS("aggregate")) return of_two(WRITES(asm_aggregate(BYTES(words[0]), BYTES(words[1]), OUT)), true);
    if (IS("compose")) return of_two(WRITES(asm_compose(BYTES(words[0]), BYTES(words[1]), OUT)), false);
    if (IS("explain")) return explained();
    return of_agent(call);
}

/* Returns whether the error is the wanted one, as far as that says. */
static bool is_refused_as(int32_t code, const char *wanted) {
    char begin[64], quoted[8192] = "\"said\":";
    snprintf(begin, sizeof begin, "{\"error\":\"%s\"", name_of(code));
    quote(quoted + strlen(quoted), said, strlen(said));
    const char *listed = strstr(wanted, "\"numbers\":");
    return !strncmp(wanted, begin, strlen(begin)) && (!strstr(wanted, "\"said\":") || strstr(wanted, quoted)) &&
           (!listed || (*numbers && !strncmp(listed + 10, numbers, strlen(numbers))));
}

/* The slots of the agent and the step of a call, and of its move. */
typedef struct {
    asm_slot agent, step, move;
} slots;

static slots slots_now(const char *call) {
    bool is_number = words[0].len && words[0].len < 4 && words[0].at[0] >= '0' && words[0].at[0] <= '9';
    bool is_second = IS("push_move") || IS("extend_move") || IS("pop_move");
    slots none = {0};
    if (!is_number || number(0) >= AGENTS)
        return none;
    asm_slot of_agent = agent(0) ? agent(0)->slot : none.agent;
    return (slots){of_agent, step(0)->slot, move_at(is_second)->slot};
}

/* Returns whether the call may have changed the slot of its agent or its step. */
static bool may_change(const char *call) {
    static const char *const changes[] = {"open", "next", "go_on", "agent", "take", "give", "abandon", "begin"};
    if (IS("commit"))
        return last == ASM_DONE && !strncmp((const char *)out, "{\"fired\":", strlen("{\"fired\":"));
    for (size_t i = 0; i < sizeof changes / sizeof *changes; i++)
        if (IS(changes[i]))
            return last == ASM_DONE;
    return false;
}

static bool may_change_move(const char *call) {
    return last == ASM_DONE && (IS("pop_move") || IS("gather") || IS("unite") || IS("drop"));
}

static bool are_same(asm_slot now, asm_slot was) { return now.full == was.full && now.at == was.at; }

/* Returns whether the slots of the call are as they were, or as it may have left them. */
static bool are_kept(const char *call, slots was) {
    slots now = slots_now(call);
    return may_change(call) || (are_same(now.agent, was.agent) && are_same(now.step, was.step) &&
                                (may_change_move(call) || are_same(now.move, was.move)));
}

/* Makes the call of the line. Returns whether it was answered as the line has it. */
static bool is_answered(char *line, size_t len) {
    struct word all[WORDS + 2];
    size_t n = split(line, len, all);
    char call[32];
    static char wanted[LINE];
    snprintf(call, sizeof call, "%.*s", (int)all[0].len - 2, all[0].at + 1);
    *said = *numbers = 0;
    if (IS("case"))
        return begin_case(), true;
    bool is_end = IS("end"), is_text = IS("text");
    memset(words, 0, sizeof words);
    memcpy(words, all + 1 + is_text, (n - 1 - is_text - !is_end) * sizeof *words);
    if (is_text) {
        snprintf(call, sizeof call, "%.*s", (int)all[1].len - 2, all[1].at + 1);
        for (size_t i = 0; i < WORDS; i++)
            if (words[i].len && words[i].at[0] == '"')
                unquoted(&words[i]);
    }
    if (is_end)
        return asm_free_step(step(0)), true;
    if (all[n - 1].len >= sizeof wanted)
        fail("a long answer");
    sprintf(wanted, "%.*s", (int)all[n - 1].len, all[n - 1].at);
    slots was = slots_now(call);
    int32_t code = answer(call);
    bool is_error = !strncmp(wanted, "{\"error\":", 9);
    bool is_right = is_error ? is_refused_as(code, wanted) : code == ASM_DONE && written == strlen(wanted) && !memcmp(out, wanted, written);
    last = code;
    if (!is_right)
        fprintf(stderr, "%s: code %s, %.*s, said %s, numbers %s; wanted %s\n", call, name_of(code), (int)written, (char *)out, said, numbers,
            wanted);
    if (!are_kept(call, was)) {
        fprintf(stderr, "%s: a slot has changed\n", call);
        return false;
    }
    return is_right;
}

/* The journal of agents that record has their reads too. */
static bool is_left_out(const char *line) {
    const char *other = is_recording ? "[\"lines\"" : "[\"recorded\"";
    return !strncmp(line, other, strlen(other));
}

/* Makes the calls of a table; returns how many lines it has. */
static size_t replay(const char *path) {
    static char line[LINE], copy[LINE];
    size_t count = 0;
    unsigned long times = 1;
    FILE *file = fopen(path, "r");
    if (!file)
        fail(path);
    while (fgets(line, sizeof line, file)) {
        line[strcspn(line, "\n")] = 0;
        count++;
        if (sscanf(line, "[\"repeat\",%lu]", &times) == 1 || is_left_out(line))
            continue;
        for (; times > 0; times--) {
            expand(line, copy);
            if (!is_answered(copy, strlen(copy))) {
                fprintf(stderr, "%s:%zu\n", path, count);
                exit(1);
            }
        }
        times = 1;
    }
    fclose(file);
    return count;
}

int main(int argc, char **argv) {
    static const char *const files[] = {"moves", "calls", "polls", "steps", "gathered", "commits", "journals"};
    static char path[4096];
    size_t calls = 0;
    for (size_t i = 0; i < sizeof files / sizeof *files; i++) {
        snprintf(path, sizeof path, "%s/%s.jsonl", argc > 1 ? argv[1] : ".", files[i]);
        for (int times = 0; times < 2; times++) {
            is_recording = times == 1;
            begin_case();
            calls += replay(path);
        }
    }
    begin_case();
    free(out);
    if (calls < 500)
        fail("few calls");
    printf("%zu calls answered as in the table\n", calls);
    return 0;
}
