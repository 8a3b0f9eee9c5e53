/* Random calls, on any slots and with any bytes, as no caller must make them. Each must return the
 * one code that a second model of the slots predicts, and must change no slot that it isn't
 * supposed to change.
 *
 *     misuse [SEED [CALLS]] */
#include "misuse.h"

/* In the table of texts. */
enum { D = ASM_DONE, S = ASM_SHAPE, N = ASM_NOT_JSON };

static const text texts[] = {
    {"[]", D, D, S, D, D, -1, false, NO_CHANGE, -1},
    {"[[[\"x\"],7]]", D, S, S, D, S, 7, false, NO_CHANGE, -1},
    {"[[[\"x\"],0]]", D, S, S, D, S, 0, false, NO_CHANGE, -1},
    {"[[[\"s\"],{\"set\":[2]}],[[\"x\"],7]]", D, S, S, S, S, 7, false, NO_CHANGE, 2},
    {"[[\"x\"],[\"y\",1]]", S, D, S, S, S, -1, true, NO_CHANGE, -1},
    {"{\"fire\":[[\"inc\",[\"x\"],1]],\"reads\":[]}", S, S, D, S, S, -1, false, RAISE_X, -1},
    {"{\"fire\":[[\"put\",[\"y\",1],2]],\"reads\":[[[\"x\"],0]]}", S, S, D, S, S, 0, false, PUT_Y,
     -1},
    {"[[\"inc\",[\"x\"],1]]", S, S, S, S, D, -1, false, RAISE_X, -1},
    {"[[\"put\",[\"y\",1],2]]", S, S, S, S, D, -1, false, PUT_Y, -1},
    {"{\"read\":[]}", S, S, S, S, S, -1, false, NO_CHANGE, -1},
    {"\"x\"", S, S, S, S, S, -1, false, NO_CHANGE, -1},
    {"[[", N, N, N, N, N, -1, false, NO_CHANGE, -1},
    {"", N, N, N, N, N, -1, false, NO_CHANGE, -1},
    {"\xc3\x28", N, N, N, N, N, -1, false, NO_CHANGE, -1},
    {"{\"fire\":[],", N, N, N, N, N, -1, false, NO_CHANGE, -1},
};

asm_slot slots[SLOTS];
account accounts[SLOTS];
story stories[STORAGES];
unsigned opened;
unsigned refilled;

static unsigned last_seed;
static unsigned long call_number;

void require(bool holds, const char *what, const char *file, int line) {
    if (!holds) {
        fprintf(stderr, "%s: line %d, seed %u, call %lu: %s\n", file, line, last_seed, call_number,
                what);
        exit(1);
    }
}

unsigned below(unsigned bound) {
    static uint64_t state;
    if (state == 0)
        state = last_seed * UINT64_C(0x9E3779B97F4A7C15) + 1;
    state ^= state << 13;
    state ^= state >> 7;
    state ^= state << 17;
    return (unsigned)((state >> 20) % bound);
}

const text *any_text(void) { return &texts[below(sizeof texts / sizeof *texts)]; }

const uint8_t *bytes(const text *t) { return *t->bytes ? (const uint8_t *)t->bytes : NULL; }

world *latest(story *s) { return &s->worlds[s->moves]; }

bool applies_to(const text *move, world *w) {
    if (move->does == RAISE_X && w->x < 0)
        return false;
    w->x += move->does == RAISE_X;
    w->y = move->does == PUT_Y ? 2 : w->y;
    return true;
}

void was_fired(account *agent, world after) {
    story *s = &stories[agent->storage];
    agent->fired |= 1u << s->moves++;
    *latest(s) = after;
}

uint32_t any_capacity(void) { return below(4) ? 1 + below(MOVES) : below(2) * 1048577; }

bool is_capacity(uint32_t capacity) { return 1 <= capacity && capacity <= 1048576; }

void makes_storage_at(unsigned at, unsigned capacity, world opening) {
    opening.x_at = opening.y_at = opening.s_at = opening.v_at = 0;
    accounts[at] = (account){.kind = STORAGE, .storage = opened};
    stories[opened] = (story){.capacity = capacity, .worlds = {opening}};
    opened++;
}

void opens_at(unsigned at, unsigned least) {
    uint8_t out[ROOM];
    unsigned number = 0;
    size_t written;
    REQUIRE(asm_peek(ANY(at), (const uint8_t *)"[]", 2, out, sizeof out - 1, &written) ==
            ASM_DONE);
    out[written] = 0;
    REQUIRE(sscanf((const char *)out, "{\"number\":%u,\"values\":[]}", &number) == 1);
    REQUIRE(least <= number && number <= stories[accounts[at].storage].moves);
    accounts[at].version = number;
}

world opening_world(const text *state) { return (world){.x = state->x, .y = -1, .s = state->s}; }

static void opens(unsigned at) {
    const text *t = any_text();
    uint32_t capacity = any_capacity();
    int32_t wanted = accounts[at].kind        ? ASM_TAKEN
                     : t->state               ? t->state
                     : !is_capacity(capacity) ? ASM_CAPACITY
                                              : ASM_DONE;
    if (wanted == ASM_DONE && opened == STORAGES)
        return;
    REQUIRE(asm_open(bytes(t), strlen(t->bytes), capacity, ANY(at)) == wanted);
    if (wanted == ASM_DONE)
        makes_storage_at(at, capacity, opening_world(t));
}

/* ASM_NUMBER if an agent with one of this many numbers, from this one up, was made. */
static int32_t code_of_making(unsigned storage, unsigned number, unsigned count) {
    for (unsigned i = number; i < number + count; i++)
        if (stories[storage].made[i])
            return ASM_NUMBER;
    return ASM_DONE;
}

static void makes_agent_at(unsigned at, unsigned storage, unsigned number) {
    stories[storage].made[number] = true;
    accounts[at] = (account){.kind = AGENT, .storage = storage, .number = number};
}

static void makes_agent(unsigned of, unsigned at) {
    unsigned number = below(8) ? below(NUMBERS) : 256;
    int32_t wanted = number >= 256       ? ASM_AGENTS
                     : accounts[at].kind ? ASM_TAKEN
                     : accounts[of].kind != STORAGE
                         ? ASM_EMPTY
                         : code_of_making(accounts[of].storage, number, 1);
    REQUIRE(asm_agent(ANY(of), number, ANY(at)) == wanted);
    if (wanted == ASM_DONE)
        makes_agent_at(at, accounts[of].storage, number);
}

static void makes_agents(unsigned of, unsigned at) {
    unsigned count = below(4);
    bool is_any_full = false;
    if (at + count > SLOTS)
        return;
    for (unsigned i = 0; i < count; i++)
        is_any_full |= accounts[at + i].kind != NOTHING;
    int32_t wanted = is_any_full ? ASM_TAKEN
                     : accounts[of].kind != STORAGE
                         ? ASM_EMPTY
                         : code_of_making(accounts[of].storage, 0, count);
    REQUIRE(asm_agents(ANY(of), count ? ANY(at) : NULL, count) == wanted);
    for (unsigned i = 0; wanted == ASM_DONE && i < count; i++)
        makes_agent_at(at + i, accounts[of].storage, i);
}

static void reads(unsigned at) {
    const text *t = any_text();
    account *a = &accounts[at];
    int32_t wanted = a->kind != AGENT ? ASM_EMPTY : t->locations;
    REQUIRE(asm_read(ANY(at), bytes(t), strlen(t->bytes)) == wanted);
    a->is_answered |= wanted == ASM_DONE;
    if (wanted == ASM_DONE)
        a->version = stories[a->storage].moves;
}

/* Scans on which a fire depends: none, of x, and of y and another function, as both began. */
static const char *const scans[] = {"[]", "[[\"x\",0]]", "[[\"y\",0],[\"z\",0]]"};

/* The answer to a fire of the move on the latest world, which is changed to the one after it. */
static int32_t fire_answer(const text *t, const story *s, unsigned over, world *w) {
    if ((t->x >= 0 && w->x_at > (unsigned)t->x) || (over == 1 && w->x_at) || (over == 2 && w->y_at))
        return ASM_STALE;
    if (!applies_to(t, w))
        return ASM_CLASH;
    if (s->moves == s->capacity)
        return ASM_FULL;
    w->x_at = t->does == RAISE_X ? s->moves + 1 : w->x_at;
    w->y_at = t->does == PUT_Y ? s->moves + 1 : w->y_at;
    return ASM_DONE;
}

static void fires(unsigned at) {
    const text *t = any_text();
    account *a = &accounts[at];
    story *s = &stories[a->storage];
    asm_numbers numbers = {9, 9, 9};
    world w = *latest(s);
    bool is_answer = a->kind == AGENT && t->fire == ASM_DONE;
    unsigned over = below(3);
    int32_t wanted = a->kind != AGENT ? ASM_EMPTY : is_answer ? fire_answer(t, s, over, &w) : t->fire;
    size_t len = strlen(t->bytes), scans_len = strlen(scans[over]);
    int32_t code = over || below(2)
                       ? asm_try_fire_over(ANY(at), bytes(t), len, (const uint8_t *)scans[over],
                                           scans_len, &numbers)
                       : asm_try_fire(ANY(at), bytes(t), len, &numbers);
    REQUIRE(code == wanted);
    REQUIRE(numbers.fired == (wanted == ASM_DONE ? s->moves + 1 : 0));
    REQUIRE(numbers.from == 0 && numbers.to == 0);
    if (!is_answer)
        return;
    a->is_answered = true;
    if (wanted == ASM_DONE)
        was_fired(a, w);
    opens_at(at, a->version);
}

static void answers(unsigned at) {
    uint8_t out[ROOM];
    size_t written = 9, room = below(2) ? sizeof out : 0;
    int32_t wanted = accounts[at].kind != AGENT  ? ASM_EMPTY
                     : !accounts[at].is_answered ? ASM_NO_ANSWER
                     : room                      ? ASM_DONE
                                                 : ASM_SMALL;
    REQUIRE(asm_answer(ANY(at), room ? out : NULL, room, &written) == wanted);
    REQUIRE((written > 0) == (wanted == ASM_DONE || wanted == ASM_SMALL));
}

static void learns(unsigned at, unsigned from) {
    int32_t wanted = code_of_two(at, from);
    REQUIRE(asm_learn(ANY(at), ANY(from)) == wanted);
    REQUIRE(wanted != ASM_DONE || asm_seen(ANY(at)) >= asm_seen(ANY(from)));
}

static void counts(unsigned at) {
    uint32_t seen = asm_seen(ANY(at)), won = asm_won(ANY(at));
    uint64_t misses = asm_misses(ANY(at));
    REQUIRE(won <= seen);
    REQUIRE(accounts[at].kind == AGENT || (seen == 0 && won == 0 && misses == 0));
}

static void gives(unsigned to, unsigned at) {
    const account *a = &accounts[at], *of = &accounts[to];
    int32_t wanted = of->kind != STORAGE || a->kind != AGENT ? ASM_EMPTY
                     : of->storage != a->storage             ? ASM_OTHER
                                                             : ASM_DONE;
    REQUIRE(asm_give(ANY(to), ANY(at)) == wanted);
    if (wanted == ASM_DONE) {
        stories[a->storage].given[a->number] = (given){true, a->is_answered, a->fired, a->version};
        stories[a->storage].is_closed = false;
        accounts[at] = (account){.kind = NOTHING};
    }
}

static void takes(unsigned of, unsigned at) {
    unsigned number = below(8) ? below(NUMBERS) : 256;
    story *s = &stories[accounts[of].storage];
    bool was_returned = number < NUMBERS && s->given[number].was_returned;
    int32_t wanted = accounts[at].kind              ? ASM_TAKEN
                     : accounts[of].kind != STORAGE ? ASM_EMPTY
                     : was_returned                 ? ASM_DONE
                                                    : ASM_NO_AGENT;
    REQUIRE(asm_take(ANY(of), number, ANY(at)) == wanted);
    if (wanted == ASM_DONE) {
        given was = s->given[number];
        accounts[at] = (account){.kind = AGENT,
                                 .storage = accounts[of].storage,
                                 .number = number,
                                 .fired = was.fired,
                                 .version = was.version,
                                 .is_answered = was.is_answered};
        s->given[number].was_returned = false;
        s->is_closed = false;
    }
}

static void closes(unsigned at) {
    story *s = &stories[accounts[at].storage];
    uint32_t number = 9, missing = 0;
    unsigned returned = 0;
    for (unsigned i = 0; i < NUMBERS; i++)
        returned |= s->given[i].was_returned ? s->given[i].fired : 0;
    for (unsigned i = s->moves; i > 0; i--)
        if (!(returned >> (i - 1) & 1))
            missing = i;
    int32_t wanted = accounts[at].kind != STORAGE ? ASM_EMPTY : missing ? ASM_MISSING : ASM_DONE;
    REQUIRE(asm_close(ANY(at), &number) == wanted);
    REQUIRE(number == (wanted == ASM_MISSING ? missing : 0));
    if (wanted == ASM_DONE) {
        s->is_closed = true;
        s->closed = s->moves;
    }
}

static void counts_moves(unsigned at) {
    uint32_t moves = 9;
    bool is_storage = accounts[at].kind == STORAGE;
    REQUIRE(asm_moves(ANY(at), &moves) == (is_storage ? ASM_DONE : ASM_EMPTY));
    REQUIRE(moves == (is_storage ? stories[accounts[at].storage].moves : 0));
}

void frees(unsigned at) {
    asm_free(ANY(at));
    REQUIRE(slots[at].at == NULL);
    accounts[at] = (account){.kind = NOTHING};
}

/* One call on any slots, the same one for two of them at times. */
static void calls_any(void) {
    unsigned at = below(SLOTS), other = below(6) ? below(SLOTS) : at;
    if (below(3)) {
        (below(3) ? calls_any_step : calls_any_plain)(at, other);
        return;
    }
    switch (below(13)) {
    case 0:
        opens(at);
        break;
    case 1:
        makes_agent(other, at);
        break;
    case 2:
        makes_agents(other, at);
        break;
    case 3:
    case 4:
        reads(at);
        break;
    case 5:
    case 6:
        fires(at);
        break;
    case 7:
        answers(at);
        break;
    case 8:
        learns(at, other);
        break;
    case 9:
        counts(at);
        counts_moves(at);
        explains();
        break;
    case 10:
        below(3) ? gives(other, at) : takes(other, at);
        break;
    case 11:
        closes(at);
        writes(at);
        break;
    default:
        below(3) ? writes(at) : frees(at);
    }
}

/* One call, after which each slot that holds what it held has it at the same place. */
static void calls_one(void) {
    asm_slot was[SLOTS];
    unsigned kinds[SLOTS];
    memcpy(was, slots, sizeof was);
    for (unsigned i = 0; i < SLOTS; i++)
        kinds[i] = accounts[i].kind;
    refilled = SLOTS;
    calls_any();
    for (unsigned i = 0; i < SLOTS; i++)
        REQUIRE(i == refilled || accounts[i].kind != kinds[i] || slots[i].at == was[i].at);
}

int main(int argc, char **argv) {
    last_seed = argc > 1 ? (unsigned)strtoul(argv[1], NULL, 10) : 1;
    unsigned long calls = argc > 2 ? strtoul(argv[2], NULL, 10) : 200000;
    for (call_number = 0; call_number < calls; call_number++) {
        calls_one();
        for (unsigned i = 0; i < SLOTS; i++) {
            REQUIRE(slots[i].full == (accounts[i].kind != NOTHING));
            REQUIRE(asm_depth(ANY(i)) == accounts[i].depth);
            if (accounts[i].kind == AGENT) {
                unsigned version = accounts[i].version;
                opens_at(i, version);
                REQUIRE(accounts[i].version == version);
            }
        }
    }
    for (unsigned i = 0; i < SLOTS; i++)
        frees(i);
    printf("passed %lu\n", calls);
    return 0;
}
