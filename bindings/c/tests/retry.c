/* One run of all calls on one thread, in which each call that has no memory is repeated. It prints
 * the journals, so that runs with an allocation refused can be compared with one without:
 *
 *     tools/refuse/run retry
 *
 * With an argument it also reports how many calls had no memory. */
#include "tests.h"

enum { ROOM = 4096 };

static unsigned refused;

/* The code of the call, which is repeated if there was no memory. */
#define AGAIN(call) (again((call)) ? (call) : last_code)

/* The same with a call on the step, which is unchanged if there was no memory. */
#define ON_STEP(call) (again((call)) && is_unchanged() ? (call) : last_code)

static int32_t last_code;
static struct asm_storage storage;
static struct asm_agent agents[3];
static struct asm_step step;
static struct asm_location at[2];
static struct asm_move move;

/* The depth of the step and what is seen through it, at the beginning of its call. */
static uint32_t depth;
static const char *seen;

static bool again(int32_t code) {
    last_code = code;
    if (code == ASM_MEMORY)
        refused++;
    return code == ASM_MEMORY;
}

/* Returns whether the buffer has this text. */
static bool has(const uint8_t *out, size_t written, const char *wanted) {
    return written == strlen(wanted) && !memcmp(out, json(wanted), written);
}

static bool answers(struct asm_agent *agent, const char *wanted) {
    uint8_t out[ROOM];
    size_t written;
    return AGAIN(asm_answer(agent, out, sizeof out, &written)) == ASM_DONE &&
           has(out, written, wanted);
}

/* The locations were read at the step's beginning. */
static bool is_unchanged(void) {
    uint8_t out[ROOM];
    size_t written;
    REQUIRE(step.slot.full && asm_depth(&step) == depth);
    REQUIRE(AGAIN(asm_get(&agents[0], &step, TEXT("[['x'],['s']]"), out, sizeof out, &written)) ==
            ASM_DONE);
    REQUIRE(has(out, written, seen));
    return true;
}

static void open_all(void) {
    const char *init = "[[['x'],7],[['s'],{'set':[1,'two']}]]";
    REQUIRE(AGAIN(asm_open(TEXT(init), 8, &storage)) == ASM_DONE);
    REQUIRE(AGAIN(asm_agents(&storage, agents, 3)) == ASM_DONE);
}

static void play(void) {
    const char *locations = "[['x'],['s']]";
    const char *move = "{'fire':[['put',['x'],8],['add',['s'],3]],'reads':[[['x'],0]]}";
    asm_numbers numbers;
    REQUIRE(AGAIN(asm_read(&agents[0], TEXT(locations))) == ASM_DONE);
    REQUIRE(answers(&agents[0], "{'number':0,'values':[7,{'set':[1,'two']}]}"));
    REQUIRE(AGAIN(asm_try_fire(&agents[0], TEXT(move), &numbers)) == ASM_DONE);
    REQUIRE(numbers.fired == 1 && asm_won(&agents[0]) == 1);
    REQUIRE(answers(&agents[0], "{'fired':1}"));
    REQUIRE(AGAIN(asm_try_fire_over(&agents[1], TEXT(move), TEXT("[['s',0]]"), &numbers)) ==
            ASM_STALE);
    REQUIRE(answers(&agents[1], "{'stale':['s']}"));
    REQUIRE(AGAIN(asm_try_fire(&agents[1], TEXT(move), &numbers)) == ASM_STALE);
    REQUIRE(numbers.fired == 0 && asm_won(&agents[1]) == 0);
    REQUIRE(answers(&agents[1], "{'stale':['x']}"));
    /* Neither asks for memory. */
    REQUIRE(asm_learn(&agents[2], &agents[0]) == ASM_DONE);
    REQUIRE(asm_take_state(&agents[2], &agents[1]) == ASM_DONE);
    REQUIRE(AGAIN(asm_read(&agents[2], TEXT(locations))) == ASM_DONE);
    REQUIRE(answers(&agents[2], "{'number':1,'values':[8,{'set':[1,3,'two']}]}"));
}

/* Polls the agent's own state, which follows the one move, and makes no receipt. */
static void read_agent(struct asm_agent *agent) {
    uint8_t out[ROOM];
    size_t written;
    uint32_t number;
    REQUIRE(AGAIN(asm_follow(agent, &number)) == ASM_DONE && number == 1);
    REQUIRE(AGAIN(asm_peek(agent, TEXT("[['x']]"), out, sizeof out, &written)) == ASM_DONE);
    REQUIRE(has(out, written, "{'number':1,'values':[8]}"));
    REQUIRE(AGAIN(asm_state(agent, &number, out, sizeof out, &written)) == ASM_DONE);
    REQUIRE(number == 1 && has(out, written, "[[['s'],{'set':[1,3,'two']}],[['x'],8]]"));
    REQUIRE(AGAIN(asm_scan(agent, TEXT("x"), &number, out, sizeof out, &written)) == ASM_DONE);
    REQUIRE(number == 1 && has(out, written, "[[['x'],8]]"));
    REQUIRE(AGAIN(asm_stands(agent, TEXT("[[['s'],1]]"), out, sizeof out, &written)) == ASM_DONE);
    REQUIRE(AGAIN(asm_stands(agent, TEXT("[[['x'],0],[['s'],0]]"), out, sizeof out, &written)) ==
            ASM_STALE);
    REQUIRE(has(out, written, "{'stale':['s']}"));
}

static void begin(void) {
    uint8_t out[ROOM];
    size_t written;
    uint32_t number;
    REQUIRE(AGAIN(asm_begin(&agents[0], &step, &number)) == ASM_DONE && number == 1);
    depth = 0;
    seen = "{'number':1,'values':[8,{'set':[1,3,'two']}]}";
    REQUIRE(AGAIN(asm_get(&agents[0], &step, TEXT("[['x'],['s']]"), out, sizeof out, &written)) ==
            ASM_DONE);
    REQUIRE(has(out, written, seen) && asm_depth(&step) == 0);
}

static void push(const char *move, const char *left) {
    uint8_t out[ROOM];
    size_t written;
    REQUIRE(ON_STEP(asm_push(&agents[0], &step, TEXT(move), out, sizeof out, &written)) ==
            ASM_DONE);
    depth++;
    seen = left;
    is_unchanged();
}

/* A function is asked for a value, and counted. */
static void functions(void) {
    uint32_t any;
    uint64_t count;
    REQUIRE(ON_STEP(asm_any(&agents[0], &step, TEXT("y"), &any)) == ASM_DONE && any == 1);
    REQUIRE(ON_STEP(asm_any(&agents[0], &step, TEXT("none"), &any)) == ASM_DONE && any == 0);
    REQUIRE(ON_STEP(asm_count(&agents[0], &step, TEXT("x"), &count)) == ASM_DONE && count == 1);
    REQUIRE(ON_STEP(asm_count(&agents[0], &step, TEXT("no name"), &count)) == ASM_DONE && count == 0);
}

static void run_step(void) {
    const char *bad = "[['add',['x'],1]]", *more = "[['inc',['x'],2],['put',['y'],'why']]";
    uint8_t out[ROOM];
    size_t written;
    asm_numbers numbers;
    begin();
    push("[['put',['x'],20]]", "{'number':1,'values':[20,{'set':[1,3,'two']}]}");
    push("[['remove',['s'],'two']]", "{'number':1,'values':[20,{'set':[1,3]}]}");
    REQUIRE(ON_STEP(asm_extend(&agents[0], &step, TEXT(more), out, sizeof out, &written)) ==
            ASM_DONE);
    seen = "{'number':1,'values':[22,{'set':[1,3]}]}";
    is_unchanged();
    REQUIRE(ON_STEP(asm_push(&agents[0], &step, TEXT(bad), out, sizeof out, &written)) ==
            ASM_CLASH);
    REQUIRE(has(out, written, "{'clash':[['x'],'Kind']}"));
    REQUIRE(ON_STEP(asm_extend(&agents[0], &step, TEXT(bad), out, sizeof out, &written)) ==
            ASM_CLASH);
    REQUIRE(ON_STEP(asm_step_scan(&agents[0], &step, TEXT("y"), out, sizeof out, &written)) ==
            ASM_DONE);
    REQUIRE(has(out, written, "[[['y'],'why']]"));
    functions();
    REQUIRE(ON_STEP(asm_see(&agents[0], &step, TEXT("[['y']]"), out, sizeof out, &written)) ==
            ASM_DONE);
    REQUIRE(has(out, written, "{'number':1,'values':['why']}"));
    REQUIRE(ON_STEP(asm_offer(&step, out, sizeof out, &written)) == ASM_DONE);
    REQUIRE(has(out, written,
                "{'fire':[['remove',['s'],'two'],['put',['x'],22],['put',['y'],'why']],"
                "'reads':[[['s'],1],[['x'],1]]}"));
    push("[['inc',['x'],1]]", "{'number':1,'values':[23,{'set':[1,3]}]}");
    REQUIRE(AGAIN(asm_pop(&step)) == ASM_DONE);
    depth--;
    seen = "{'number':1,'values':[22,{'set':[1,3]}]}";
    REQUIRE(ON_STEP(asm_commit(&agents[0], &step, &numbers)) == ASM_DONE);
    REQUIRE(numbers.fired == 2 && !step.slot.full && asm_won(&agents[0]) == 2);
}

/* What the step sees at the location: this number, or the text. */
static void get_at(struct asm_location *place, int32_t kind, int64_t number, const char *text) {
    uint8_t out[ROOM];
    size_t written;
    asm_value value;
    REQUIRE(ON_STEP(asm_get_at(&agents[0], &step, place, &value, out, sizeof out, &written)) ==
            ASM_DONE);
    REQUIRE(value.kind == kind && value.number == number && has(out, written, text));
}

/* How often the step sees the element there, and how many elements. */
static void count_at(struct asm_location *place, int32_t kind, const char *element,
                     uint32_t count_wanted, uint64_t size_wanted) {
    uint32_t count;
    uint64_t size;
    REQUIRE(ON_STEP(asm_count_of(&agents[0], &step, place, kind, 0, bytes(element),
                                 strlen(element), &count)) == ASM_DONE);
    REQUIRE(ON_STEP(asm_size(&agents[0], &step, place, &size)) == ASM_DONE);
    REQUIRE(count == count_wanted && size == size_wanted);
}

/* Puts an instruction into the move, which is unchanged if there was no memory. */
static void instruct(struct asm_location *place, int32_t verb, int32_t kind, int64_t number,
                     const char *text) {
    asm_slot was = move.slot;
    if (again(asm_instruct(&move, place, verb, kind, number, bytes(text), strlen(text), 0))) {
        REQUIRE(is_same(move, was));
        last_code = asm_instruct(&move, place, verb, kind, number, bytes(text), strlen(text), 0);
    }
    REQUIRE(last_code == ASM_DONE && move.slot.full);
}

/* Appends the move to another, which is unchanged if there was no memory, and has both then. */
static void unite(struct asm_move *of) {
    asm_slot was = of->slot;
    if (again(asm_unite(of, &move))) {
        REQUIRE(is_same(*of, was));
        last_code = asm_unite(of, &move);
    }
    REQUIRE(last_code == ASM_DONE && of->slot.full);
}

/* A move is united with itself by a copy, and with one that has grown; and none with none. */
static void run_united(void) {
    uint8_t out[ROOM];
    size_t written;
    struct asm_move both = {0}, none = {0};
    instruct(&at[0], ASM_INC, ASM_KIND_NUM, 2, "");
    unite(&both);
    unite(&both);
    instruct(&at[1], ASM_PUT, ASM_KIND_TEXT, 0, "text");
    unite(&both);
    REQUIRE(ON_STEP(asm_push_move(&agents[0], &step, &both, out, sizeof out, &written)) ==
            ASM_DONE);
    depth = 1;
    seen = "{'number':1,'values':[14,{'set':[1,3,'two']}]}";
    is_unchanged();
    REQUIRE(AGAIN(asm_pop(&step)) == ASM_DONE);
    depth = 0;
    seen = "{'number':1,'values':[8,{'set':[1,3,'two']}]}";
    asm_free_move(&move);
    unite(&none);
    asm_free_move(&none);
    asm_free_move(&both);
}

/* Pops what was pushed last into the move; both are unchanged if there was no memory. */
static void pop_move(const char *left) {
    asm_slot was = move.slot;
    if (again(asm_pop_move(&step, &move)) && is_unchanged()) {
        REQUIRE(is_same(move, was));
        last_code = asm_pop_move(&step, &move);
    }
    REQUIRE(last_code == ASM_DONE && move.slot.full);
    depth--;
    seen = left;
    is_unchanged();
}

/* Reads an instruction of the move, which is unchanged. */
static void read_at(uint32_t place, int32_t kind, const char *text) {
    uint8_t out[ROOM];
    size_t written;
    asm_slot was = move.slot;
    asm_instruction its;
    REQUIRE(AGAIN(asm_move_at(&move, place, &its, out, sizeof out, &written)) == ASM_DONE);
    REQUIRE(its.verb == ASM_PUT && its.kind == kind && has(out, written, text));
    REQUIRE(is_same(move, was) && asm_move_length(&move) == 2);
}

/* Pushes this one instruction; a refusal has this text. */
static void push_at(struct asm_location *place, int32_t verb, int32_t kind, int64_t number,
                    const char *text, int32_t code, const char *left) {
    uint8_t out[ROOM];
    size_t written;
    REQUIRE(ON_STEP(asm_push_at(&agents[0], &step, place, verb, kind, number, bytes(text), strlen(text),
                                0, out, sizeof out, &written)) == code);
    REQUIRE(has(out, written, code == ASM_DONE ? "" : left));
    if (code == ASM_DONE) {
        depth++;
        seen = left;
        is_unchanged();
    }
}

/* Pushes without a slot for the move. */
static void run_pushed_at(void) {
    push_at(&at[0], ASM_INC, ASM_KIND_NUM, 2, "", ASM_DONE,
            "{'number':1,'values':[10,{'set':[1,3,'two']}]}");
    push_at(&at[1], ASM_ADD, ASM_KIND_LIST, 0, "{\"list\":[2]}", ASM_CLASH,
            "{'clash':[['u','why'],'Kind']}");
    push_at(&at[1], ASM_PUT, ASM_KIND_TEXT, 0, "text", ASM_DONE,
            "{'number':1,'values':[10,{'set':[1,3,'two']}]}");
    push_at(&at[0], ASM_PUT, ASM_KIND_SET, 0, "{\"set\":[1,{\"list\":[2]}]}", ASM_DONE,
            "{'number':1,'values':[{'set':[1,{'list':[2]}]},{'set':[1,3,'two']}]}");
    get_at(&at[1], ASM_KIND_TEXT, 0, "text");
    while (depth) {
        REQUIRE(AGAIN(asm_pop(&step)) == ASM_DONE);
        depth--;
    }
    seen = "{'number':1,'values':[8,{'set':[1,3,'two']}]}";
    is_unchanged();
}

/* A step without text, which is abandoned. */
static void run_plain(void) {
    uint8_t out[ROOM];
    size_t written;
    uint32_t number;
    asm_value value;
    REQUIRE(AGAIN(asm_location(TEXT("['x']"), &at[0])) == ASM_DONE);
    REQUIRE(AGAIN(asm_location(TEXT("['u','why']"), &at[1])) == ASM_DONE);
    begin();
    instruct(&at[0], ASM_INC, ASM_KIND_NUM, 2, "");
    instruct(&at[1], ASM_PUT, ASM_KIND_TEXT, 0, "text");
    count_at(&at[1], ASM_KIND_BOOL, "", 0, 0);
    get_at(&at[1], ASM_KIND_UNDEF, 0, "");
    REQUIRE(ON_STEP(asm_push_move(&agents[0], &step, &move, out, sizeof out, &written)) ==
            ASM_DONE);
    depth = 1;
    seen = "{'number':1,'values':[10,{'set':[1,3,'two']}]}";
    is_unchanged();
    REQUIRE(ON_STEP(asm_extend_move(&agents[0], &step, &move, out, sizeof out, &written)) ==
            ASM_DONE);
    seen = "{'number':1,'values':[12,{'set':[1,3,'two']}]}";
    get_at(&at[0], ASM_KIND_NUM, 12, "");
    get_at(&at[1], ASM_KIND_TEXT, 0, "text");
    instruct(&at[1], ASM_ADD, ASM_KIND_NUM, 1, "");
    REQUIRE(ON_STEP(asm_push_move(&agents[0], &step, &move, out, sizeof out, &written)) ==
            ASM_CLASH);
    REQUIRE(has(out, written, "{'clash':[['u','why'],'Kind']}"));
    pop_move("{'number':1,'values':[8,{'set':[1,3,'two']}]}");
    asm_free_move(&move);
    instruct(&at[0], ASM_PUT, ASM_KIND_SET, 0, "{\"set\":[1,{\"list\":[2]}]}");
    instruct(&at[1], ASM_PUT, ASM_KIND_BAG, 0, "{\"bag\":[[1,2]]}");
    REQUIRE(ON_STEP(asm_push_move(&agents[0], &step, &move, out, sizeof out, &written)) ==
            ASM_DONE);
    depth = 1;
    seen = "{'number':1,'values':[{'set':[1,{'list':[2]}]},{'set':[1,3,'two']}]}";
    count_at(&at[0], ASM_KIND_LIST, "{\"list\":[2]}", 1, 2);
    count_at(&at[1], ASM_KIND_TEXT, "why", 0, 2);
    read_at(0, ASM_KIND_SET, "['x']{'set':[1,{'list':[2]}]}");
    read_at(1, ASM_KIND_BAG, "['u','why']{'bag':[[1,2]]}");
    asm_free_move(&move);
    pop_move("{'number':1,'values':[8,{'set':[1,3,'two']}]}");
    REQUIRE(AGAIN(asm_peek_at(&agents[0], &at[0], &number, &value, out, sizeof out, &written)) ==
            ASM_DONE);
    REQUIRE(number == 1 && value.kind == ASM_KIND_NUM && value.number == 8);
    asm_free_move(&move);
    run_united();
    run_pushed_at();
    asm_free_step(&step);
    asm_free_location(&at[0]);
    asm_free_location(&at[1]);
}

static void compute(void) {
    const char *put = "[['put',['x'],1]]", *raise = "[['inc',['x'],2]]";
    uint8_t out[ROOM];
    size_t written;
    REQUIRE(AGAIN(asm_aggregate(TEXT("[[['x'],1]]"), TEXT(raise), out, sizeof out, &written)) ==
            ASM_DONE);
    REQUIRE(has(out, written, "[[['x'],3]]"));
    REQUIRE(AGAIN(asm_aggregate(TEXT("[]"), TEXT(raise), out, sizeof out, &written)) == ASM_CLASH);
    REQUIRE(has(out, written, "{'clash':[['x'],'Kind']}"));
    REQUIRE(AGAIN(asm_compose(TEXT(put), TEXT(raise), out, sizeof out, &written)) == ASM_DONE);
    REQUIRE(has(out, written, "[['put',['x'],3]]"));
    REQUIRE(AGAIN(asm_compose(TEXT("[['bagremove',['b'],1,4294967295]]"),
                              TEXT("[['bagremove',['b'],1,1]]"), out, sizeof out, &written)) ==
            ASM_LARGE);
    REQUIRE(has(out, written, "{'large':['b']}"));
    REQUIRE(AGAIN(asm_explain(ASM_FORM_LOCATIONS, TEXT("[7]"), out, sizeof out, &written)) ==
            ASM_DONE);
    REQUIRE(
        has(out, written, "location 1: a location is an array of a name and at most 8 arguments"));
}

/* An agent that was returned is checked out again, as often as there was no memory, and
 * returned. */
static void check_out_again(void) {
    struct asm_agent agent = {0};
    asm_slot was = storage.slot;
    if (again(asm_take(&storage, 1, &agent))) {
        REQUIRE(!agent.slot.full && is_same(storage, was));
        last_code = asm_take(&storage, 1, &agent);
    }
    REQUIRE(last_code == ASM_DONE && answers(&agent, "{'stale':['x']}"));
    REQUIRE(AGAIN(asm_give(&storage, &agent)) == ASM_DONE);
}

/* The journal is audited; bytes that had no memory are passed again. */
static void audit(const uint8_t *journal, size_t len, uint64_t calls, uint64_t moves,
                  const char *left) {
    uint8_t out[ROOM];
    struct asm_audit slot = {0};
    asm_audit_numbers audited;
    size_t written, taken = 0;
    for (size_t at = 0; at < len; at += taken)
        REQUIRE(!again(asm_audit(&slot, journal + at, len - at, &taken, &audited)) ||
                taken < len - at);
    REQUIRE(last_code == ASM_DONE && audited.parts == 1);
    REQUIRE(AGAIN(asm_audited(&slot, &audited)) == ASM_DONE);
    REQUIRE(audited.parts == 1 && audited.calls == calls && audited.moves == moves);
    REQUIRE(AGAIN(asm_audit_state(&slot, out, sizeof out, &written)) == ASM_DONE);
    REQUIRE(has(out, written, left));
    asm_free_audit(&slot);
}

/* Closes the storage of this many agents, checks its journal and prints it. */
static void close_all(struct asm_storage *of, size_t count, uint64_t calls, uint32_t moves,
                      const char *wanted) {
    static uint8_t journal[ROOM], state[ROOM];
    size_t len, written;
    uint64_t found, line;
    uint32_t number;
    for (size_t i = count; i > 0; i--)
        REQUIRE(AGAIN(asm_give(of, &agents[i - 1])) == ASM_DONE);
    if (of == &storage)
        check_out_again();
    REQUIRE(AGAIN(asm_moves(of, &number)) == ASM_DONE && number == moves);
    REQUIRE(AGAIN(asm_close(of, &number)) == ASM_DONE && number == 0);
    REQUIRE(AGAIN(asm_journal(of, journal, sizeof journal, &len)) == ASM_DONE);
    REQUIRE(AGAIN(asm_check(journal, len, &found, &number)) == ASM_DONE);
    REQUIRE(found == calls && number == moves);
    REQUIRE(AGAIN(asm_replay(journal, len, state, sizeof state, &written, &line)) == ASM_DONE);
    REQUIRE(has(state, written, wanted));
    REQUIRE(AGAIN(asm_trace(journal, len, state, 0, &written, &line)) == ASM_SMALL && written > len);
    audit(journal, len, calls, moves, wanted);
    REQUIRE(fwrite(journal, 1, len, stdout) == len && !fflush(stdout));
}

/* A full storage continues with its agent's own state. */
static void continue_after_full(void) {
    struct asm_storage full = {0}, next = {0};
    struct asm_agent agent = {0};
    asm_numbers numbers;
    uint32_t number;
    REQUIRE(AGAIN(asm_open(TEXT("[[['x'],1]]"), 1, &full)) == ASM_DONE);
    REQUIRE(AGAIN(asm_agent(&full, 0, &agent)) == ASM_DONE);
    REQUIRE(AGAIN(asm_try_fire(&agent, TEXT("{'fire':[['inc',['x'],1]],'reads':[]}"), &numbers)) ==
            ASM_DONE);
    REQUIRE(AGAIN(asm_follow(&agent, &number)) == ASM_DONE && number == 1);
    if (again(asm_go_on(&agent, 1, &next))) {
        REQUIRE(agent.slot.full && !next.slot.full);
        last_code = asm_go_on(&agent, 1, &next);
    }
    REQUIRE(last_code == ASM_DONE);
    asm_free_agent(&agent);
    asm_free_storage(&full);
    REQUIRE(AGAIN(asm_agent(&next, 0, &agent)) == ASM_DONE);
    REQUIRE(AGAIN(asm_read(&agent, TEXT("[['x']]"))) == ASM_DONE);
    REQUIRE(answers(&agent, "{'number':0,'values':[2]}"));
    asm_free_agent(&agent);
    asm_free_storage(&next);
}

/* A step stands until a function that it scanned is written; it is unchanged. */
static void stand(void) {
    struct asm_storage own = {0};
    struct asm_agent one = {0}, other = {0};
    struct asm_step on = {0};
    asm_numbers numbers;
    uint32_t number;
    uint8_t out[ROOM];
    size_t written;
    REQUIRE(AGAIN(asm_open(TEXT("[[['x'],1]]"), 2, &own)) == ASM_DONE);
    REQUIRE(AGAIN(asm_agent(&own, 0, &one)) == ASM_DONE);
    REQUIRE(AGAIN(asm_agent(&own, 1, &other)) == ASM_DONE);
    REQUIRE(AGAIN(asm_begin(&one, &on, &number)) == ASM_DONE && number == 0);
    REQUIRE(AGAIN(asm_get(&one, &on, TEXT("[['x']]"), out, sizeof out, &written)) == ASM_DONE);
    REQUIRE(AGAIN(asm_count(&one, &on, (const uint8_t *)"f", 1, &(uint64_t){0})) == ASM_DONE);
    asm_slot was = on.slot;
    REQUIRE(AGAIN(asm_step_stands(&one, &on, out, sizeof out, &written)) == ASM_DONE);
    REQUIRE(written == 0 && is_same(on, was));
    REQUIRE(AGAIN(asm_try_fire(&other, TEXT("{'fire':[['put',['f',1],1]],'reads':[]}"),
                               &numbers)) == ASM_DONE);
    REQUIRE(AGAIN(asm_step_stands(&one, &on, out, sizeof out, &written)) == ASM_STALE);
    REQUIRE(has(out, written, "{'stale':['f',1]}") && is_same(on, was));
    asm_free_step(&on);
    asm_free_agent(&other);
    asm_free_agent(&one);
    asm_free_storage(&own);
}

/* The run continues in a storage that opens with the state at the end of the first. */
static void continue_from_agent(const char *left) {
    struct asm_storage next = {0};
    asm_slot was = storage.slot;
    if (again(asm_next(&storage, 4, &next))) {
        REQUIRE(!next.slot.full && is_same(storage, was));
        last_code = asm_next(&storage, 4, &next);
    }
    REQUIRE(last_code == ASM_DONE);
    asm_free_storage(&storage);
    REQUIRE(AGAIN(asm_agent(&next, 0, &agents[0])) == ASM_DONE);
    REQUIRE(AGAIN(asm_read(&agents[0], TEXT("[['x'],['y']]"))) == ASM_DONE);
    REQUIRE(answers(&agents[0], "{'number':0,'values':[22,'why']}"));
    close_all(&next, 1, 1, 0, left);
    asm_free_storage(&next);
}

/* A journal is saved as a segment and read again: another run reads a text for which there was no
 * memory. */
static void save_and_read(void) {
    uint8_t journal[ROOM], name[ROOM], out[ROOM];
    struct asm_storage of = {0};
    struct asm_run run = {0};
    asm_segment found;
    asm_audit_numbers read;
    size_t len, size, written;
    uint32_t number;
    int32_t request = ASM_REST;
    REQUIRE(AGAIN(asm_open(TEXT("[[['x'],7]]"), 8, &of)) == ASM_DONE);
    REQUIRE(AGAIN(asm_close(&of, &number)) == ASM_DONE);
    REQUIRE(AGAIN(asm_journal(&of, journal, sizeof journal, &len)) == ASM_DONE);
    REQUIRE(AGAIN(asm_run_open(&run)) == ASM_DONE && AGAIN(asm_run_read(&run)) == ASM_DONE);
    if (again(asm_run_hand(&run, 0, 0, journal, len, name, sizeof name, &size))) {
        REQUIRE(asm_run_request(&run, &request) == ASM_DONE && request == ASM_REST);
        last_code = asm_run_hand(&run, 0, 0, journal, len, name, sizeof name, &size);
    }
    REQUIRE(last_code == ASM_DONE);
    for (int i = 0; i < 6; i++)
        REQUIRE(asm_run_done(&run) == ASM_DONE);
    REQUIRE(asm_run_request(&run, &request) == ASM_DONE && request == ASM_REST);
    do {
        asm_free_run(&run);
        REQUIRE(AGAIN(asm_run_open(&run)) == ASM_DONE);
        REQUIRE(AGAIN(asm_run_name(&run, name, size, len, &found)) == ASM_DONE);
        REQUIRE(asm_run_text(&run, journal, len) == ASM_DONE);
    } while (again(asm_run_end(&run, &read)));
    REQUIRE(last_code == ASM_DONE && read.parts == 1);
    REQUIRE(AGAIN(asm_run_state(&run, out, sizeof out, &written)) == ASM_DONE);
    REQUIRE(has(out, written, "[[['x'],7]]"));
    asm_free_run(&run);
    asm_free_storage(&of);
}

/* A commit that records and had no memory fired nothing: it is repeated. The read's receipt may
 * be there from before, so the journal isn't printed; it has the read once or twice, and the
 * fire once. */
static void record(void) {
    const char *read = "{'agent':0,'call':{'read':[['x']]},'reply':{'number':0,'values':[7]}}\n";
    const char *fire = "{'agent':0,'call':{'fire':[['inc',['x'],2]],'reads':[[['x'],0]]},"
                       "'reply':{'fired':1}}\n";
    uint8_t out[ROOM];
    struct asm_storage of = {0};
    size_t len, written;
    uint32_t number, missing;
    asm_numbers numbers = {9, 9, 9};
    REQUIRE(AGAIN(asm_open(TEXT("[[['x'],7]]"), 8, &of)) == ASM_DONE);
    REQUIRE(AGAIN(asm_agent(&of, 0, &agents[0])) == ASM_DONE);
    REQUIRE(AGAIN(asm_begin(&agents[0], &step, &number)) == ASM_DONE && number == 0);
    REQUIRE(AGAIN(asm_get(&agents[0], &step, TEXT("[['x']]"), out, ROOM, &written)) == ASM_DONE);
    REQUIRE(AGAIN(asm_push(&agents[0], &step, TEXT("[['inc',['x'],2]]"), out, ROOM, &written)) ==
            ASM_DONE);
    bool had_none = again(asm_commit_recorded(&agents[0], &step, &numbers));
    if (had_none) {
        REQUIRE(step.slot.full && asm_depth(&step) == 1 && asm_won(&agents[0]) == 0);
        REQUIRE(numbers.fired == 0 && numbers.from == 0 && numbers.to == 0);
        last_code = asm_commit_recorded(&agents[0], &step, &numbers);
    }
    REQUIRE(last_code == ASM_DONE && numbers.fired == 1 && !step.slot.full);
    REQUIRE(AGAIN(asm_give(&of, &agents[0])) == ASM_DONE);
    REQUIRE(AGAIN(asm_close(&of, &missing)) == ASM_DONE && missing == 0);
    REQUIRE(AGAIN(asm_journal(&of, out, ROOM, &len)) == ASM_DONE);
    const char *end = (const char *)out + len, *event = memchr(out, '\n', len);
    size_t reads = 0, length = strlen(read);
    for (event++; (size_t)(end - event) > length && !memcmp(event, json(read), length); reads++)
        event += length;
    REQUIRE(reads == 1 || (reads == 2 && had_none));
    REQUIRE((size_t)(end - event) == strlen(fire) && !memcmp(event, json(fire), strlen(fire)));
    asm_free_storage(&of);
}

int main(int argc, char **argv) {
    const char *left = "[[['s'],{'set':[1,3]}],[['x'],22],[['y'],'why']]";
    open_all();
    play();
    read_agent(&agents[1]);
    run_plain();
    run_step();
    compute();
    close_all(&storage, 3, 6, 2, left);
    continue_from_agent(left);
    continue_after_full();
    stand();
    record();
    save_and_read();
    if (argc > 1)
        printf("%s %u\n", argv[1], refused);
    return 0;
}
