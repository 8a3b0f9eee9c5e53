/* A second model of the slots, which predicts the code and the text of each call of misuse. */
#ifndef MISUSE_H
#define MISUSE_H

#include "folugben.h"

#include <inttypes.h>
#include <stdio.h>
#include <stdlib.h>
#include <string.h>

enum { SLOTS = 12, STORAGES = 4096, NUMBERS = 12, MOVES = 8, ROOM = 4096, DEEPEST = 64 };

#define REQUIRE(holds) require((holds), #holds, __FILE__, __LINE__)

/* The locations that are written: ["s"], ["v"], ["x"] and ["y",1]. */
enum { S_PLACE, V_PLACE, X_PLACE, Y_PLACE, PLACES };

/* Their values, with the number of the move that last wrote each. That of s is a set of 1 and 2,
 * by its bits; that of v is one of a table of values, of which the first is none; and each may
 * be none by a value below 0. */
typedef struct world {
    int x, y, s, v;
    unsigned x_at, y_at, s_at, v_at;
} world;

/* The effect of a move that collects: how often it raises x, whether it puts y, which values it
 * puts at v, by their bits, and whether it adds 1 to s and removes 2 from it. It has at most
 * this many instructions. */
typedef struct gathered {
    unsigned raises, values, size;
    bool puts, adds, removes;
} gathered;

/* What is seen through a pushed move with those before it: how often they raise x, how many of
 * them do, whether they put y and v, and how many of them change s, by adding 1 and removing 2;
 * and what it does itself, with those that extend it. Of a step's locations those are named that
 * two of its moves raise or change. */
typedef struct layer {
    world seen;
    unsigned raises, raising, changing;
    bool puts, puts_v, adds, removes;
    gathered own;
} layer;

/* What a slot must hold: nothing, a storage, an agent with its number and a bit for each move
 * that it fired, a step, a location, a move or an audit, that was fed the first byte of a header
 * or none; of which storage. `version` is the version of the agent's own state, or the version at
 * which the step began. A location is a tracked read if no pushed move had put what was seen. */
typedef struct account {
    enum { NOTHING, STORAGE, AGENT, STEP, LOCATION, MOVE, AUDIT } kind;
    unsigned storage, number, fired, version, depth;
    bool is_answered, has_read[PLACES];
    layer layers[DEEPEST];
    unsigned place;
    gathered move;
    bool has_begun;
} account;

/* An agent that was returned, if it was, with a bit for each move of which it has the receipt. */
typedef struct given {
    bool was_returned, is_answered;
    unsigned fired, version;
} given;

/* Of a storage: which agents were made, and the accounts of those that were returned; how many
 * moves were fired, whether there is a journal and how many moves were closed into the last one,
 * and the world after each move. */
typedef struct story {
    bool made[NUMBERS], is_closed;
    given given[NUMBERS];
    unsigned capacity, moves, closed;
    world worlds[MOVES + 1];
} story;

/* A text, its codes in each form, and its meaning there: the value of x in a state, or the
 * number under which x is named, either of which is below 0 if there is none; whether it asks
 * for both locations; what its move does; and the value of s in a state. */
typedef struct text {
    const char *bytes;
    int32_t state, locations, fire, reads, move;
    int x;
    bool asks;
    enum { NO_CHANGE, RAISE_X, PUT_Y } does;
    int s;
} text;

/* A code, and the text that is written with it if there is room for it, if one is. */
typedef struct outcome {
    int32_t code;
    const char *text;
} outcome;

typedef struct buffer {
    uint8_t out[ROOM];
    size_t room, written;
} buffer;

/* The slot as whichever handle a call takes: what it holds may be of another kind. */
#define ANY(i) ((void *)&slots[i])

#define OUT(buffer) (buffer).room ? (buffer).out : NULL, (buffer).room, &(buffer).written

extern asm_slot slots[SLOTS];
extern account accounts[SLOTS];
extern story stories[STORAGES];
extern unsigned opened;
/* The slot in which the last call began a step, or into which it popped a move, if it did: that may be at another place. */
extern unsigned refilled;

void require(bool holds, const char *what, const char *file, int line);
unsigned below(unsigned bound);
const text *any_text(void);

/* The bytes of the text; null if there are none. */
const uint8_t *bytes(const text *t);

/* The world after all moves that were fired. */
world *latest(story *s);

/* Computes the world after this move. Returns false if x has no number to be raised. */
bool applies_to(const text *move, world *w);

/* Records a fired move, after which the world is this one. */
void was_fired(account *agent, world after);

/* A storage with this opening world, of which nothing was written, is in the slot now. */
void makes_storage_at(unsigned at, unsigned capacity, world opening);

/* Any capacity, of which some are refused. */
uint32_t any_capacity(void);
bool is_capacity(uint32_t capacity);

/* Records the version of an agent's own state, which is at least this one: a fire may advance
 * it, but needn't. */
void opens_at(unsigned at, unsigned least);

/* A state of these values, of which nothing was written. */
world opening_world(const text *state);

/* The text of the set of s, or of the value of v. */
const char *text_of_s(world w);
const char *text_of_v(world w);

/* The text of the state, or of the part of it with one of the names. */
const char *pairs(world w, bool has_both, bool has_x, bool has_y);

/* Any room. */
buffer any_buffer(void);

/* Requires of a call the predicted code and text. Returns false if the text didn't fit. */
bool is_written(int32_t code, outcome wanted, const buffer *b);

/* The version of the agent's own state. */
world own_world(const account *agent);

/* The last layer of the step; of one without moves, what is below it. */
layer top_of(const account *s);

/* The code of a call with an agent and a step, as far as it doesn't depend on what is seen. */
int32_t step_code(const account *a, const account *s, int32_t read);

/* Returns whether the slots are no agent and step of two storages: such a call has no meaning. */
bool have_meaning(unsigned at, unsigned of_step);

/* A slot with a step of the agent's storage, if there is one; at times the slot itself. */
unsigned fitting(unsigned at, unsigned of_step);

/* A slot of this kind, if there is one; at times the other slot. */
unsigned some(unsigned kind, unsigned other);

/* The code of a call with two agents of one storage. */
int32_t code_of_two(unsigned at, unsigned from);

/* Frees what the slot holds. */
void frees(unsigned at);

/* Commits the step with the agent. */
void commits(unsigned at, unsigned of_step);

/* One call without text. */
void calls_any_plain(unsigned at, unsigned other);

/* Feeds an audit, and ends it. */
void audits(unsigned at);
void ends_audit(unsigned at);

/* Calls on moves without an agent. */
void aggregates(void);
void composes(void);

/* Explains a text, and writes a storage's journal, which is then altered and judged. */
void explains(void);
void writes(unsigned at);

/* One call on a step or of an agent's polls, or on moves without an agent. */
void calls_any_step(unsigned at, unsigned other);

#endif
