/* The calls of misuse without text. */
#include "misuse.h"

/* The values of v, by their numbers: the first is none. */
static const struct {
    int32_t kind;
    int64_t number;
    const char *bytes, *json;
} values[] = {
    {ASM_KIND_UNDEF, 0, "", "null"},
    {ASM_KIND_BOOL, 1, "", "true"},
    {ASM_KIND_NUM, -5, "", "-5"},
    {ASM_KIND_TEXT, 0, "t\xc3\xbc", "\"t\xc3\xbc\""},
    {ASM_KIND_LIST, 0, "{\"list\":[1]}", "{\"list\":[1]}"},
    {ASM_KIND_SET, 0, "{\"set\":[1,2]}", "{\"set\":[1,2]}"},
    {ASM_KIND_BAG, 0, "{\"bag\":[[1,2]]}", "{\"bag\":[[1,2]]}"},
};
enum { VALUES = sizeof values / sizeof *values };

const char *text_of_v(world w) { return values[w.v].json; }

const char *text_of_s(world w) {
    static const char *const sets[] = {"{\"set\":[]}", "{\"set\":[1]}", "{\"set\":[2]}",
                                       "{\"set\":[1,2]}"};
    return sets[w.s];
}

static const struct {
    const char *bytes;
    int32_t code;
    unsigned place;
} locations[] = {
    {"[\"s\"]", ASM_DONE, S_PLACE},  {"[\"v\"]", ASM_DONE, V_PLACE},
    {" [\"x\"]", ASM_DONE, X_PLACE}, {"[\"y\",1]", ASM_DONE, Y_PLACE},
    {"[[\"x\"]]", ASM_SHAPE, 0},     {"[\"x\"", ASM_NOT_JSON, 0},
    {"", ASM_NOT_JSON, 0},
};

static void locates(unsigned at) {
    unsigned i = below(sizeof locations / sizeof *locations);
    const char *text = locations[i].bytes;
    int32_t wanted = accounts[at].kind != NOTHING ? ASM_TAKEN : locations[i].code;
    REQUIRE(asm_location(*text ? (const uint8_t *)text : NULL, strlen(text), ANY(at)) == wanted);
    if (wanted == ASM_DONE)
        accounts[at] = (account){.kind = LOCATION, .place = locations[i].place};
}

/* What is reported of the value at the place: its kind, its number and its bytes. */
static const char *parts_of(world w, unsigned place, asm_value *value) {
    int number = place == X_PLACE ? w.x : w.y;
    switch (place) {
    case S_PLACE:
        *value = (asm_value){w.s < 0 ? ASM_KIND_UNDEF : ASM_KIND_SET, 0};
        return w.s < 0 ? "" : text_of_s(w);
    case V_PLACE:
        *value = (asm_value){values[w.v].kind, values[w.v].number};
        return values[w.v].bytes;
    default:
        *value = (asm_value){number < 0 ? ASM_KIND_UNDEF : ASM_KIND_NUM, number < 0 ? 0 : number};
        return "";
    }
}

/* Requires the predicted code, bytes and value. Returns false if the bytes didn't fit. */
static bool is_value(int32_t code, outcome wanted, const buffer *b, asm_value value,
                     asm_value from) {
    bool fits = is_written(code, wanted, b);
    if (!fits || wanted.code != ASM_DONE)
        from = (asm_value){0, 0};
    REQUIRE(value.kind == from.kind && value.number == from.number);
    return fits;
}

static void peeks_at(unsigned at, unsigned of_place) {
    const account *a = &accounts[at], *l = &accounts[of_place];
    buffer b = any_buffer();
    asm_value value = {9, 9}, expected_value = {0, 0};
    uint32_t number = 9;
    outcome wanted = {a->kind != AGENT || l->kind != LOCATION ? ASM_EMPTY : ASM_DONE, NULL};
    if (wanted.code == ASM_DONE)
        wanted.text = parts_of(own_world(a), l->place, &expected_value);
    int32_t code = asm_peek_at(ANY(at), ANY(of_place), &number, &value, OUT(b));
    bool fits = is_value(code, wanted, &b, value, expected_value);
    REQUIRE(number == (fits && wanted.code == ASM_DONE ? a->version : 0));
}

static void gets_at(unsigned at, unsigned of_step, unsigned of_place) {
    const account *a = &accounts[at], *l = &accounts[of_place];
    account *s = &accounts[of_step];
    buffer b = any_buffer();
    asm_value value = {9, 9}, expected_value = {0, 0};
    outcome wanted = {l->kind != LOCATION ? ASM_EMPTY : step_code(a, s, ASM_DONE), NULL};
    if (wanted.code == ASM_DONE)
        wanted.text = parts_of(top_of(s).seen, l->place, &expected_value);
    int32_t code = asm_get_at(ANY(at), ANY(of_step), ANY(of_place), &value, OUT(b));
    layer top = wanted.code == ASM_DONE ? top_of(s) : (layer){0};
    bool is_put = l->place == Y_PLACE ? top.puts : l->place == V_PLACE && top.puts_v;
    if (is_value(code, wanted, &b, value, expected_value) && wanted.code == ASM_DONE)
        s->has_read[l->place] |= !is_put;
}

/* How often the number 1 is at the place, and how many elements: false for a value without any. */
static bool has_members(world w, unsigned place, uint32_t *count, uint64_t *size) {
    bool is_set = place == V_PLACE && values[w.v].kind == ASM_KIND_SET;
    bool is_bag = place == V_PLACE && values[w.v].kind == ASM_KIND_BAG;
    unsigned bits = place == S_PLACE && w.s >= 0 ? (unsigned)w.s : is_set ? 3 : 0;
    *count = is_bag ? 2 : bits & 1;
    *size = is_bag ? 2 : (bits & 1) + (bits >> 1);
    return place == S_PLACE || is_set || is_bag ||
           (place == V_PLACE ? w.v == 0 : (place == X_PLACE ? w.x : w.y) < 0);
}

/* Counts one element, or all. */
static void counts_at(unsigned at, unsigned of_step, unsigned of_place) {
    const account *a = &accounts[at], *l = &accounts[of_place];
    account *s = &accounts[of_step];
    uint32_t count = 9, wanted_count = 0;
    uint64_t size = 9, wanted_size = 0;
    int32_t wanted = l->kind != LOCATION ? ASM_EMPTY : step_code(a, s, ASM_DONE);
    if (wanted == ASM_DONE) {
        layer top = top_of(s);
        bool is_put = l->place == Y_PLACE ? top.puts : l->place == V_PLACE && top.puts_v;
        if (!has_members(top.seen, l->place, &wanted_count, &wanted_size))
            wanted = ASM_SHAPE;
        s->has_read[l->place] |= !is_put;
    }
    if (below(2)) {
        bool has = wanted_count == 0;
        REQUIRE(asm_count_of(ANY(at), ANY(of_step), ANY(of_place), ASM_KIND_NUM, 1, NULL, 0,
                             &count) == wanted);
        REQUIRE(asm_has(ANY(at), ANY(of_step), ANY(of_place), ASM_KIND_NUM, 1, NULL, 0, &has) ==
                wanted);
        REQUIRE(count == wanted_count && has == (count > 0));
    } else {
        REQUIRE(asm_size(ANY(at), ANY(of_step), ANY(of_place), &size) == wanted);
        REQUIRE(size == wanted_size);
    }
}

/* Asks whether a function has a value, or counts its values. */
static void counts_function(unsigned at, unsigned of_step) {
    static const char *const names[] = {"x", "y", "none", "x\xff"};
    unsigned name = below(sizeof names / sizeof *names);
    const uint8_t *bytes = (const uint8_t *)names[name];
    account *s = &accounts[of_step];
    bool is_there = false;
    uint32_t any = 9;
    uint64_t count = 9;
    int32_t wanted = step_code(&accounts[at], s, name == 3 ? ASM_SHAPE : ASM_DONE);
    if (wanted == ASM_DONE) {
        is_there = (name == 0 && top_of(s).seen.x >= 0) || (name == 1 && top_of(s).seen.y >= 0);
        s->has_read[X_PLACE] |= name == 0;
        s->has_read[Y_PLACE] |= name == 1;
    }
    if (below(2)) {
        REQUIRE(asm_any(ANY(at), ANY(of_step), bytes, strlen(names[name]), &any) == wanted);
        REQUIRE(any == is_there);
    } else {
        REQUIRE(asm_count(ANY(at), ANY(of_step), bytes, strlen(names[name]), &count) == wanted);
        REQUIRE(count == is_there);
    }
}

/* Instructions: those that are done use one place alone, and a put of v one of its values. */
static const struct {
    int32_t verb, kind;
    int64_t number;
    const char *bytes;
    uint32_t amount;
    int32_t code;
    unsigned place, value;
} instructions[] = {
    {ASM_INC, ASM_KIND_NUM, 1, "", 0, ASM_DONE, X_PLACE, 0},
    {ASM_PUT, ASM_KIND_NUM, 2, "", 0, ASM_DONE, Y_PLACE, 0},
    {ASM_PUT, ASM_KIND_UNDEF, 0, "", 0, ASM_DONE, V_PLACE, 0},
    {ASM_PUT, ASM_KIND_BOOL, 1, "", 0, ASM_DONE, V_PLACE, 1},
    {ASM_PUT, ASM_KIND_NUM, -5, "", 0, ASM_DONE, V_PLACE, 2},
    {ASM_PUT, ASM_KIND_TEXT, 0, "t\xc3\xbc", 0, ASM_DONE, V_PLACE, 3},
    {ASM_ADD, ASM_KIND_NUM, 1, "", 0, ASM_DONE, S_PLACE, 0},
    {ASM_REMOVE, ASM_KIND_NUM, 2, "", 0, ASM_DONE, S_PLACE, 0},
    {ASM_PUT, ASM_KIND_TEXT, 0, "t\xc3", 0, ASM_SHAPE, PLACES, 0},
    {ASM_PUT, ASM_KIND_LIST, 0, "{\"list\": [1]}", 0, ASM_DONE, V_PLACE, 4},
    {ASM_PUT, ASM_KIND_SET, 0, "{\"set\":[2,1]}", 0, ASM_DONE, V_PLACE, 5},
    {ASM_PUT, ASM_KIND_BAG, 0, "{\"bag\":[[1,2]]}", 0, ASM_DONE, V_PLACE, 6},
    {ASM_PUT, ASM_KIND_LIST, 0, "", 0, ASM_NOT_JSON, PLACES, 0},
    {ASM_PUT, ASM_KIND_SET, 0, "{\"bag\":[]}", 0, ASM_SHAPE, PLACES, 0},
    {ASM_PUT, ASM_KIND_BAG, 1, "{\"bag\":[]}", 0, ASM_OPERAND, PLACES, 0},
    {ASM_ADD, ASM_KIND_SET, 0, "{\"set\":[]}", 0, ASM_OPERAND, PLACES, 0},
    {ASM_PUT, ASM_KIND_BOOL, 2, "", 0, ASM_OPERAND, PLACES, 0},
    {ASM_PUT, ASM_KIND_UNDEF, 0, "u", 0, ASM_OPERAND, PLACES, 0},
    {ASM_ADD, ASM_KIND_NUM, 1, "", 1, ASM_OPERAND, PLACES, 0},
    {ASM_BAGADD, ASM_KIND_NUM, 1, "", 0, ASM_OPERAND, PLACES, 0},
    {ASM_INC, ASM_KIND_UNDEF, 0, "", 0, ASM_OPERAND, PLACES, 0},
    {9, ASM_KIND_NUM, 1, "", 0, ASM_OPERAND, PLACES, 0},
};

#define PARTS(i)                                                                                   \
    (i).verb, (i).kind, (i).number, *(i).bytes ? (const uint8_t *)(i).bytes : NULL,                \
        strlen((i).bytes), (i).amount

/* The move has the instruction too. */
static void gathers(gathered *move, unsigned i) {
    unsigned place = instructions[i].place;
    move->size++;
    move->raises += place == X_PLACE;
    move->puts |= place == Y_PLACE;
    move->values |= (place == V_PLACE) << instructions[i].value;
    move->adds |= instructions[i].verb == ASM_ADD;
    move->removes |= instructions[i].verb == ASM_REMOVE;
}

static void instructs(unsigned at, unsigned of_place) {
    unsigned i = below(sizeof instructions / sizeof *instructions);
    account *m = &accounts[at];
    const account *l = &accounts[of_place];
    int32_t wanted = m->kind != NOTHING && m->kind != MOVE ? ASM_TAKEN
                     : l->kind != LOCATION                 ? ASM_EMPTY
                                                           : instructions[i].code;
    if (wanted == ASM_DONE && instructions[i].place != l->place)
        return;
    REQUIRE(asm_instruct(ANY(at), ANY(of_place), PARTS(instructions[i])) == wanted);
    if (wanted != ASM_DONE)
        return;
    m->kind = MOVE;
    gathers(&m->move, i);
}

/* Reads an instruction, or a place behind the last one. */
static void reads_instruction(unsigned at) {
    uint32_t length = asm_move_length(ANY(at)), place = below(length + 2);
    asm_instruction its = {9, 9, 9, 9, 9};
    bool is_move = accounts[at].kind == MOVE;
    uint8_t out[256];
    size_t written = 7;
    int32_t wanted = !is_move ? ASM_EMPTY : place < length ? ASM_DONE : ASM_NO_INSTRUCTION;
    REQUIRE(length > 0 ? is_move : !is_move || accounts[at].move.size == 0);
    REQUIRE(asm_move_at(ANY(at), place, &its, out, sizeof out, &written) == wanted);
    if (wanted == ASM_DONE)
        REQUIRE(its.verb <= ASM_INC && its.place > 0 && its.place <= written);
    else
        REQUIRE(!its.verb && !its.amount && !its.kind && !its.number && !its.place && !written);
}

/* Appends the other move, unless the two are large. */
static void unites(unsigned at, unsigned from) {
    account *m = &accounts[at];
    const account *other = &accounts[from];
    bool has_room = m->kind == NOTHING || m->kind == MOVE;
    bool has_move = other->kind == NOTHING || other->kind == MOVE;
    int32_t wanted = !has_room ? ASM_TAKEN : !has_move || at == from ? ASM_EMPTY : ASM_DONE;
    if (wanted == ASM_DONE && m->move.size + other->move.size > 64)
        return;
    REQUIRE(asm_unite(ANY(at), ANY(from)) == wanted);
    if (wanted != ASM_DONE)
        return;
    m->kind = MOVE;
    m->move.size += other->move.size;
    m->move.raises += other->move.raises;
    m->move.values |= other->move.values;
    m->move.puts |= other->move.puts;
    m->move.adds |= other->move.adds;
    m->move.removes |= other->move.removes;
}

int32_t code_of_two(unsigned at, unsigned from) {
    const account *a = &accounts[at], *b = &accounts[from];
    return at == from || a->kind != AGENT || b->kind != AGENT ? ASM_EMPTY
           : a->storage != b->storage                        ? ASM_OTHER
                                                              : ASM_DONE;
}

/* The one agent takes the other's state if that is at a higher version. */
static void takes_state(unsigned at, unsigned from) {
    account *a = &accounts[at], *b = &accounts[from];
    int32_t wanted = code_of_two(at, from);
    unsigned version = a->version;
    uint32_t seen[2] = {asm_seen(ANY(at)), asm_seen(ANY(from))}, won = asm_won(ANY(at));
    uint64_t misses[2] = {asm_misses(ANY(at)), asm_misses(ANY(from))};
    REQUIRE(asm_take_state(ANY(at), ANY(from)) == wanted);
    REQUIRE(asm_misses(ANY(at)) == misses[0] && asm_misses(ANY(from)) == misses[1]);
    REQUIRE(asm_seen(ANY(from)) == seen[1] && asm_won(ANY(at)) == won);
    REQUIRE(asm_seen(ANY(at)) == (wanted == ASM_DONE && seen[1] > seen[0] ? seen[1] : seen[0]));
    if (wanted != ASM_DONE || b->version <= version)
        return;
    a->version = b->version;
    b->version = version;
}

/* Does the move on what is seen: the text of a clash, if there is one. */
static const char *is_done(const gathered *move, layer *on) {
    world *w = &on->seen;
    bool changes = move->adds || move->removes;
    if (changes && w->s < 0)
        return "{\"clash\":[[\"s\"],\"Kind\"]}";
    if (move->values & (move->values - 1))
        return "{\"clash\":[[\"v\"],\"Two\"]}";
    if (move->raises && w->x < 0)
        return "{\"clash\":[[\"x\"],\"Kind\"]}";
    w->s = changes ? (w->s | (move->adds ? 1 : 0)) & ~(move->removes ? 2 : 0) : w->s;
    for (int i = 0; i < VALUES; i++)
        w->v = move->values >> i & 1 ? i : w->v;
    w->x += (int)move->raises;
    w->y = move->puts ? 2 : w->y;
    on->raises += move->raises;
    on->raising += move->raises > 0;
    on->puts |= move->puts;
    on->puts_v |= move->values > 0;
    on->changing += changes;
    on->adds |= move->adds;
    on->removes |= move->removes;
    on->own.size += move->size;
    on->own.raises += move->raises;
    on->own.puts |= move->puts;
    on->own.values = move->values ? move->values : on->own.values;
    on->own.adds |= move->adds;
    on->own.removes |= move->removes;
    return NULL;
}

/* The answer to a push of the move, or to an extension by it, and the layer that it leaves. */
static outcome grown(const account *a, account *s, const gathered *move, bool is_push, layer *next) {
    outcome wanted = {step_code(a, s, ASM_DONE), NULL};
    if (wanted.code != ASM_DONE)
        return wanted;
    *next = top_of(s);
    if (is_push || s->depth == 0)
        next->own = (gathered){0};
    if (is_push && s->depth == DEEPEST)
        wanted.code = ASM_DEEP;
    else if ((wanted.text = is_done(move, next)))
        wanted.code = ASM_CLASH;
    return wanted;
}

/* Pushes an instruction without a slot for its move. */
static void pushes_at(unsigned at, unsigned of_step, unsigned of_place) {
    unsigned i = below(sizeof instructions / sizeof *instructions);
    const account *a = &accounts[at], *l = &accounts[of_place];
    account *s = &accounts[of_step];
    buffer b = any_buffer();
    gathered move = {0};
    layer next = {0};
    outcome wanted = {l->kind != LOCATION ? ASM_EMPTY : instructions[i].code, NULL};
    if (wanted.code == ASM_DONE && instructions[i].place != l->place)
        return;
    if (wanted.code == ASM_DONE) {
        gathers(&move, i);
        wanted = grown(a, s, &move, true, &next);
    }
    int32_t code = asm_push_at(ANY(at), ANY(of_step), ANY(of_place), PARTS(instructions[i]), OUT(b));
    if (is_written(code, wanted, &b) && wanted.code == ASM_DONE)
        s->layers[s->depth++] = next;
}

static void grows_by(unsigned at, unsigned of_step, unsigned of_move, bool is_push) {
    const account *a = &accounts[at], *m = &accounts[of_move];
    account *s = &accounts[of_step];
    buffer b = any_buffer();
    layer next = {0};
    outcome wanted = {ASM_EMPTY, NULL};
    if (m->kind == MOVE)
        wanted = grown(a, s, &m->move, is_push, &next);
    int32_t code = (is_push ? asm_push_move : asm_extend_move)(ANY(at), ANY(of_step),
                                                               ANY(of_move), OUT(b));
    if (is_written(code, wanted, &b) && wanted.code == ASM_DONE) {
        s->depth += is_push || s->depth == 0;
        s->layers[s->depth - 1] = next;
    }
}

/* Pops what was pushed last into a slot, which has a move of what that did then. */
static void pops_into(unsigned of_step, unsigned of_move) {
    account *s = &accounts[of_step], *m = &accounts[of_move];
    int32_t wanted = m->kind != NOTHING && m->kind != MOVE ? ASM_TAKEN
                     : s->kind != STEP                     ? ASM_EMPTY
                     : s->depth == 0                       ? ASM_NO_PUSH
                                                           : ASM_DONE;
    REQUIRE(asm_pop_move(ANY(of_step), ANY(of_move)) == wanted);
    if (wanted != ASM_DONE)
        return;
    /* What two of its moves change is named, as the two may amount to nothing. */
    const layer before = s->depth > 1 ? s->layers[s->depth - 2] : (layer){0};
    s->has_read[X_PLACE] |= top_of(s).raising > before.raising + 1;
    s->has_read[S_PLACE] |= top_of(s).changing > before.changing + 1;
    *m = (account){.kind = MOVE, .move = top_of(s).own};
    refilled = of_move;
    s->depth--;
}

unsigned some(unsigned kind, unsigned other) {
    unsigned from = below(SLOTS), tries = below(8) ? SLOTS : 0;
    for (unsigned i = from; i < from + tries; i++)
        if (accounts[i % SLOTS].kind == kind)
            return i % SLOTS;
    return other;
}

/* Grows a step, at times more often than it is deep; and at times ends its move, or the step. */
static void grows_any(unsigned at, unsigned of_step, unsigned of_move) {
    if (!have_meaning(at, of_step))
        return;
    for (unsigned i = below(16) ? 1 : 200; i > 0; i--)
        grows_by(at, of_step, of_move, below(8));
    if (accounts[of_move].kind == MOVE && !below(3))
        frees(of_move);
    if (!below(16))
        commits(at, of_step);
}

void calls_any_plain(unsigned at, unsigned other) {
    unsigned of_step = fitting(at, other);
    at = below(4) ? some(AGENT, at) : at;
    of_step = below(4) ? fitting(at, of_step) : of_step;
    switch (below(14)) {
    case 13:
        reads_instruction(some(MOVE, other));
        break;
    case 12:
        if (have_meaning(at, of_step))
            pushes_at(at, of_step, some(LOCATION, other));
        break;
    case 11:
        if (have_meaning(at, of_step))
            below(3) ? counts_at(at, of_step, some(LOCATION, other)) : counts_function(at, of_step);
        break;
    case 10:
        unites(some(MOVE, other), below(2) ? other : some(MOVE, at));
        break;
    case 9:
        takes_state(at, some(AGENT, other));
        break;
    case 8:
        pops_into(of_step, below(2) ? other : some(MOVE, other));
        break;
    case 0:
        locates(other);
        break;
    case 1:
        peeks_at(some(AGENT, at), some(LOCATION, other));
        break;
    case 2:
    case 3:
        instructs(some(MOVE, other), some(LOCATION, at));
        break;
    case 4:
    case 5:
        if (have_meaning(at, of_step))
            gets_at(at, of_step, some(LOCATION, other));
        break;
    default:
        grows_any(at, of_step, some(MOVE, other));
    }
}
