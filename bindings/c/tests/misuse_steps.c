/* The calls of misuse on steps and of an agent's polls. */
#include "misuse.h"

buffer any_buffer(void) { return (buffer){.room = below(3) ? ROOM : below(12), .written = 9}; }

bool is_written(int32_t code, outcome wanted, const buffer *b) {
    size_t length = wanted.text ? strlen(wanted.text) : 0;
    REQUIRE(b->written == length);
    REQUIRE(code == (length > b->room ? ASM_SMALL : wanted.code));
    REQUIRE(code == ASM_SMALL || !length || !memcmp(b->out, wanted.text, length));
    return code != ASM_SMALL;
}

/* The text of the two values. */
static const char *values(unsigned number, const text *locations, world w) {
    static char out[ROOM];
    char x[16] = "null", y[16] = "null";
    if (w.x >= 0)
        snprintf(x, sizeof x, "%d", w.x);
    if (w.y >= 0)
        snprintf(y, sizeof y, "%d", w.y);
    if (!locations->asks)
        x[0] = y[0] = 0;
    snprintf(out, sizeof out, "{\"number\":%u,\"values\":[%s%s%s]}", number, x,
             locations->asks ? "," : "", y);
    return out;
}

const char *pairs(world w, bool has_both, bool has_x, bool has_y) {
    static char out[ROOM];
    char parts[PLACES][64] = {"", "", "", ""};
    size_t length = 1;
    if (has_both && w.s >= 0)
        snprintf(parts[0], sizeof *parts, "[[\"s\"],%s]", text_of_s(w));
    if (has_both && w.v > 0)
        snprintf(parts[1], sizeof *parts, "[[\"v\"],%s]", text_of_v(w));
    if (has_x && w.x >= 0)
        snprintf(parts[2], sizeof *parts, "[[\"x\"],%d]", w.x);
    if (has_y && w.y >= 0)
        snprintf(parts[3], sizeof *parts, "[[\"y\",1],%d]", w.y);
    strcpy(out, "[");
    for (unsigned i = 0; i < PLACES; i++)
        if (*parts[i])
            length += (size_t)snprintf(out + length, sizeof out - length, "%s%s",
                                       length > 1 ? "," : "", parts[i]);
    strcpy(out + length, "]");
    return out;
}

static const char *const names[] = {"x", "y", "", "xy", "z\xff", "\"x\""};
enum { NAMES = sizeof names / sizeof *names, BAD_NAME = 4 };

world own_world(const account *agent) { return stories[agent->storage].worlds[agent->version]; }

static void follows(unsigned at) {
    account *a = &accounts[at];
    uint32_t number = 9, moves = a->kind == AGENT ? stories[a->storage].moves : 0;
    REQUIRE(asm_follow(ANY(at), &number) == (a->kind == AGENT ? ASM_DONE : ASM_EMPTY));
    REQUIRE(number == moves);
    if (a->kind == AGENT)
        a->version = moves;
}

static void peeks(unsigned at) {
    const text *t = any_text();
    const account *a = &accounts[at];
    buffer b = any_buffer();
    outcome wanted = {a->kind != AGENT ? ASM_EMPTY : t->locations, NULL};
    if (wanted.code == ASM_DONE)
        wanted.text = values(a->version, t, own_world(a));
    is_written(asm_peek(ANY(at), bytes(t), strlen(t->bytes), OUT(b)), wanted, &b);
}

static void reads_state(unsigned at) {
    const account *a = &accounts[at];
    buffer b = any_buffer();
    uint32_t number = 9;
    outcome wanted = {a->kind != AGENT ? ASM_EMPTY : ASM_DONE, NULL};
    if (wanted.code == ASM_DONE)
        wanted.text = pairs(own_world(a), true, true, true);
    is_written(asm_state(ANY(at), &number, OUT(b)), wanted, &b);
    REQUIRE(number == (wanted.text ? a->version : 0));
}

static void scans(unsigned at) {
    const account *a = &accounts[at];
    unsigned name = below(NAMES);
    buffer b = any_buffer();
    uint32_t number = 9;
    outcome wanted = {a->kind != AGENT ? ASM_EMPTY : name == BAD_NAME ? ASM_SHAPE : ASM_DONE, NULL};
    if (wanted.code == ASM_DONE)
        wanted.text = pairs(own_world(a), false, name == 0, name == 1);
    is_written(asm_scan(ANY(at), *names[name] ? (const uint8_t *)names[name] : NULL,
                        strlen(names[name]), &number, OUT(b)),
               wanted, &b);
    REQUIRE(number == (wanted.text ? a->version : 0));
}

static void validates(unsigned at) {
    const text *t = any_text();
    account *a = &accounts[at];
    buffer b = any_buffer();
    bool is_read = a->kind == AGENT && t->reads == ASM_DONE;
    bool is_seen = is_read && (t->x < 0 || (unsigned)t->x <= asm_seen(ANY(at)));
    outcome wanted = {a->kind != AGENT        ? ASM_EMPTY
                      : is_read && !is_seen ? ASM_AHEAD
                                              : t->reads,
                      NULL};
    if (is_seen)
        a->version = stories[a->storage].moves;
    if (is_seen && t->x >= 0 && own_world(a).x_at > (unsigned)t->x)
        wanted = (outcome){ASM_STALE, "{\"stale\":[\"x\"]}"};
    is_written(asm_stands(ANY(at), bytes(t), strlen(t->bytes), OUT(b)), wanted, &b);
}

static void begins(unsigned at, unsigned of_step) {
    account *a = &accounts[at], *s = &accounts[of_step];
    uint32_t number = 9;
    int32_t wanted = s->kind != NOTHING && s->kind != STEP ? ASM_TAKEN
                     : a->kind != AGENT                    ? ASM_EMPTY
                                                           : ASM_DONE;
    REQUIRE(asm_begin(ANY(at), ANY(of_step), &number) == wanted);
    REQUIRE(number == (wanted == ASM_DONE ? stories[a->storage].moves : 0));
    if (wanted != ASM_DONE)
        return;
    a->version = number;
    refilled = of_step;
    *s = (account){.kind = STEP, .storage = a->storage, .version = number};
}

/* The code that reports whether the slots have an agent and a step. */
static int32_t both(const account *a, const account *s) {
    return a->kind != AGENT || s->kind != STEP ? ASM_EMPTY : ASM_DONE;
}

layer top_of(const account *s) {
    if (s->depth > 0)
        return s->layers[s->depth - 1];
    return (layer){.seen = stories[s->storage].worlds[s->version]};
}

int32_t step_code(const account *a, const account *s, int32_t read) {
    int32_t code = both(a, s);
    return code ? code : read ? read : a->version != s->version ? ASM_MOVED : ASM_DONE;
}

static void gets(unsigned at, unsigned of_step) {
    const text *t = any_text();
    const account *a = &accounts[at];
    account *s = &accounts[of_step];
    buffer b = any_buffer();
    outcome wanted = {step_code(a, s, t->locations), NULL};
    if (wanted.code == ASM_DONE)
        wanted.text = values(s->version, t, top_of(s).seen);
    bool gets_value = below(3);
    int32_t code =
        (gets_value ? asm_get : asm_see)(ANY(at), ANY(of_step), bytes(t), strlen(t->bytes), OUT(b));
    if (is_written(code, wanted, &b) && wanted.text && gets_value) {
        s->has_read[X_PLACE] |= t->asks;
        s->has_read[Y_PLACE] |= t->asks && !top_of(s).puts;
    }
}

static void gets_all(unsigned at, unsigned of_step) {
    const account *a = &accounts[at];
    account *s = &accounts[of_step];
    unsigned name = below(NAMES);
    buffer b = any_buffer();
    outcome wanted = {step_code(a, s, name == BAD_NAME ? ASM_SHAPE : ASM_DONE), NULL};
    if (wanted.code == ASM_DONE)
        wanted.text = pairs(top_of(s).seen, false, name == 0, name == 1);
    int32_t code =
        asm_step_scan(ANY(at), ANY(of_step), *names[name] ? (const uint8_t *)names[name] : NULL,
                    strlen(names[name]), OUT(b));
    if (is_written(code, wanted, &b) && wanted.text) {
        /* A scan covers its function's locations, present or not. */
        s->has_read[X_PLACE] |= name == 0;
        s->has_read[Y_PLACE] |= name == 1;
    }
}

static void grows(unsigned at, unsigned of_step, bool is_push) {
    const text *t = any_text();
    const account *a = &accounts[at];
    account *s = &accounts[of_step];
    buffer b = any_buffer();
    outcome wanted = {step_code(a, s, t->move), NULL};
    layer next = {0};
    if (wanted.code == ASM_DONE) {
        next = top_of(s);
        if (is_push || s->depth == 0)
            next.own = (gathered){0};
        next.own.raises += t->does == RAISE_X;
        next.own.puts |= t->does == PUT_Y;
        next.own.size += t->does != NO_CHANGE;
        next.raises += t->does == RAISE_X;
        next.raising += t->does == RAISE_X;
        next.puts |= t->does == PUT_Y;
        if (is_push && s->depth == DEEPEST)
            wanted.code = ASM_DEEP;
        else if (!applies_to(t, &next.seen))
            wanted = (outcome){ASM_CLASH, "{\"clash\":[[\"x\"],\"Kind\"]}"};
    }
    int32_t code = (is_push ? asm_push : asm_extend)(ANY(at), ANY(of_step), bytes(t),
                                                     strlen(t->bytes), OUT(b));
    if (is_written(code, wanted, &b) && wanted.code == ASM_DONE) {
        s->depth += is_push || s->depth == 0;
        s->layers[s->depth - 1] = next;
    }
}

static void pops(unsigned at) {
    account *s = &accounts[at];
    int32_t wanted = s->kind != STEP ? ASM_EMPTY : s->depth == 0 ? ASM_NO_PUSH : ASM_DONE;
    REQUIRE(asm_pop(ANY(at)) == wanted);
    if (wanted != ASM_DONE)
        return;
    /* That the popped moves were accepted revealed something about the locations that they
     * update in part. */
    const gathered own = top_of(s).own;
    s->has_read[X_PLACE] |= own.raises > 0;
    s->has_read[S_PLACE] |= own.adds || own.removes;
    s->depth--;
}

/* An offer reports what the step would fire, and changes nothing. */
static void offers(unsigned at) {
    const account *s = &accounts[at];
    buffer b = any_buffer();
    int32_t code = asm_offer(ANY(at), OUT(b));
    REQUIRE(code == (s->kind != STEP ? ASM_EMPTY : b.written > b.room ? ASM_SMALL : ASM_DONE));
    REQUIRE((b.written >= strlen("{\"fire\":[],\"reads\":[]}")) == (s->kind == STEP));
    REQUIRE(code != ASM_DONE || !memcmp(b.out, "{\"fire\":[", 9));
    REQUIRE(s->kind == STEP || b.written == 0);
}

/* The answer to the commit on the latest world, which is changed to the one after it. */
static int32_t commit_answer(const account *s, const story *of, world *w) {
    layer top = top_of(s);
    if ((s->has_read[X_PLACE] || top.raising > 1) && w->x_at > s->version)
        return ASM_STALE;
    if (s->has_read[Y_PLACE] && w->y_at > s->version)
        return ASM_STALE;
    if ((s->has_read[S_PLACE] || top.changing > 1) && w->s_at > s->version)
        return ASM_STALE;
    if (s->has_read[V_PLACE] && w->v_at > s->version)
        return ASM_STALE;
    if (of->moves == of->capacity)
        return ASM_FULL;
    w->s = top.changing ? (w->s | (top.adds ? 1 : 0)) & ~(top.removes ? 2 : 0) : w->s;
    w->s_at = top.changing ? of->moves + 1 : w->s_at;
    w->v = top.puts_v ? top.seen.v : w->v;
    w->v_at = top.puts_v ? of->moves + 1 : w->v_at;
    w->x += (int)top.raises;
    w->x_at = top.raises ? of->moves + 1 : w->x_at;
    w->y = top.puts ? 2 : w->y;
    w->y_at = top.puts ? of->moves + 1 : w->y_at;
    return ASM_DONE;
}

void commits(unsigned at, unsigned of_step) {
    account *a = &accounts[at], *s = &accounts[of_step];
    story *of = &stories[a->storage];
    asm_numbers numbers = {9, 9, 9};
    world w = *latest(of);
    int32_t wanted = both(a, s);
    if (wanted == ASM_DONE)
        wanted = commit_answer(s, of, &w);
    REQUIRE((below(2) ? asm_commit_recorded : asm_commit)(ANY(at), ANY(of_step), &numbers) == wanted);
    REQUIRE(numbers.fired == (wanted == ASM_DONE ? of->moves + 1 : 0));
    REQUIRE(numbers.from == 0 && numbers.to == 0);
    if (wanted == ASM_EMPTY)
        return;
    a->is_answered = true;
    if (wanted == ASM_DONE) {
        was_fired(a, w);
        *s = (account){.kind = NOTHING};
    }
    opens_at(at, a->version);
}

static void opens_next(unsigned at, unsigned next) {
    uint32_t capacity = any_capacity();
    const account *a = &accounts[at];
    const story *s = &stories[a->storage];
    int32_t wanted = accounts[next].kind      ? ASM_TAKEN
                     : a->kind != STORAGE     ? ASM_EMPTY
                     : !s->is_closed          ? ASM_NO_JOURNAL
                     : !is_capacity(capacity) ? ASM_CAPACITY
                                              : ASM_DONE;
    if (wanted == ASM_DONE && opened == STORAGES)
        return;
    REQUIRE(asm_next(ANY(at), capacity, ANY(next)) == wanted);
    if (wanted == ASM_DONE)
        makes_storage_at(next, capacity, s->worlds[s->closed]);
}

/* The same from an agent's own state. */
static void opens_next_from_agent(unsigned at, unsigned next) {
    uint32_t capacity = any_capacity();
    const account *a = &accounts[at];
    int32_t wanted = accounts[next].kind                          ? ASM_TAKEN
                     : a->kind != AGENT                           ? ASM_EMPTY
                     : a->version != stories[a->storage].capacity ? ASM_NOT_FULL
                     : !is_capacity(capacity)                     ? ASM_CAPACITY
                                                                  : ASM_DONE;
    if (wanted == ASM_DONE && opened == STORAGES)
        return;
    REQUIRE(asm_go_on(ANY(at), capacity, ANY(next)) == wanted);
    if (wanted == ASM_DONE)
        makes_storage_at(next, capacity, own_world(a));
}

bool have_meaning(unsigned at, unsigned of_step) {
    const account *a = &accounts[at], *s = &accounts[of_step];
    return both(a, s) == ASM_EMPTY || a->storage == s->storage;
}

unsigned fitting(unsigned at, unsigned of_step) {
    for (unsigned i = below(4) ? 0 : SLOTS; i < SLOTS; i++)
        if (accounts[i].kind == STEP && accounts[i].storage == accounts[at].storage)
            return i;
    return of_step;
}

/* A call of an agent and a step, which another agent of its storage may have begun. */
static void calls_any_of_both(unsigned at, unsigned other) {
    at = below(4) ? some(AGENT, at) : at;
    unsigned call = below(16), of_step = fitting(at, other);
    if (!have_meaning(at, of_step))
        return;
    if (call < 4)
        gets(at, of_step);
    else if (call < 6)
        gets_all(at, of_step);
    else if (call < 14)
        /* At times more often than a step is deep. */
        for (unsigned i = below(16) ? 1 : 300; i > 0; i--)
            grows(at, of_step, call < 10 ? below(8) : !below(8));
    else
        commits(at, of_step);
}

void calls_any_step(unsigned at, unsigned other) {
    switch (below(16)) {
    case 0:
        follows(at);
        break;
    case 1:
        peeks(at);
        reads_state(at);
        scans(at);
        break;
    case 2:
        validates(at);
        break;
    case 3:
    case 4:
        begins(at, other);
        break;
    case 5:
        pops(at);
        offers(below(2) ? at : fitting(at, other));
        break;
    case 6:
        opens_next(at, other);
        opens_next_from_agent(at, other);
        if (below(4) == 0)
            audits(at);
        ends_audit(at);
        break;
    case 7:
        aggregates();
        composes();
        break;
    default:
        calls_any_of_both(at, other);
    }
}
