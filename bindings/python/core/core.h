/* The types of folugben that are written in C: storages, agents, steps, locations, moves, audits and runs in a folder.
 *
 * THE RULE. Each method has four parts, in this order: it makes C values of its arguments, which may run Python code; it checks
 * whether it may call; it calls the library; it makes Python values of the answer. From the second part to the end of the third
 * no Python code runs. So no signal handler, finalizer or other thread comes between two calls of the library, and no slot is in
 * two calls at once.
 *
 * A call that may take long releases the interpreter's lock. Its slot is busy meanwhile, and a thread that needs a busy slot
 * waits. A thread that waits, or is in such a call, runs no Python code either. */
#ifndef FOLUGBEN_CORE_H
#define FOLUGBEN_CORE_H

#define PY_SSIZE_T_CLEAN
#ifndef Py_LIMITED_API
#define Py_LIMITED_API 0x030b0000
#endif
#include <Python.h>
#include <structmember.h>

#include "folugben.h"

#define ODD(it) __builtin_expect(!!(it), 0)
/* The slot as a handle of any kind, which all have the layout of a slot. */
#define SLOT(it) ((void *)&(it)->holder.slot)
#define IS_FULL(it) ((it)->holder.slot.full)
#define METHOD(call) ((PyCFunction)(void (*)(void))(call))
/* An agent that is this many moves behind, and a text of this many bytes, release the interpreter's lock. */
enum { FAR = 1024, LONG_TEXT = 16384 };
/* How many agents a storage makes, and how many moves it has room for; how long a line of a journal may be. */
enum { AGENTS = 256, CAPACITY = 1048576 };

typedef struct {
    PyTypeObject *storage, *agent, *step, *location, *move, *audit, *run;
    PyObject *refusals; /* the module of Python whose functions raise errors */
    PyObject *counter;  /* collections.Counter */
    PyObject *no_rules; /* the types of what a function returns that is no rule: coroutines and generators */
    PyTypeObject *played;
} Core;

/* What holds a slot. */
typedef struct {
    PyObject_HEAD
    asm_slot slot;
    Core *core;
    PyObject *weak;
    unsigned born; /* the number of forks when it was made */
    int is_busy, waiters;
    PyThread_type_lock lock; /* held while the slot is busy; made when it first is */
} Holder;

typedef struct Agent Agent;
typedef struct Step Step;

/* A thread, and the agent of a storage whose call was its last one that polled; without a reference. */
typedef struct {
    unsigned long thread;
    Agent *agent;
} Turn;
enum { TURNS = 16 };

typedef struct {
    Holder holder;
    uint32_t last;      /* the greatest number of a move that is known to be fired */
    int64_t closed;     /* how many moves the last journal has, -1 without one */
    int is_abandoned;   /* an agent was freed that wasn't returned */
    char is_made, records; /* whether commits record the tracked reads of their steps */
    Agent *first;       /* its agents, without references */
    asm_slot reader;    /* the agent that reads its state for itself, if there is one, and its number */
    uint32_t reader_own;
    char behind[AGENTS]; /* for each number, also of a returned agent, whether another agent took its state */
    PyObject *journal;  /* the path of its journal, or null */
    Turn turns[TURNS];
} Storage;

struct Agent {
    Holder holder;
    Storage *storage;
    uint32_t own, seen, returned_seen, returned_won; /* the last two: of an agent whose slot is empty */
    uint64_t base;                           /* how many moves of a run came before its storage */
    char is_withdrawn;                           /* another thread has returned it */
    unsigned steps;                          /* how many of its steps are open */
    unsigned long thread;                    /* of its last call that polled */
    Step *last, *adding;                     /* the step that it began last, and one whose additions wait, without references */
    Agent *next, **before;
};
/* Whether another agent has taken its state, so that it polls before that is shown. */
#define IS_BEHIND(agent) ((agent)->storage->behind[(agent)->own])

struct Step {
    Holder holder;
    Agent *agent;
    uint32_t number, fired;
    unsigned long thread; /* that began it */
    char is_fired, is_tried, is_pushed, is_open;
    char is_refusing; /* the error of additions that wait is being made */
    struct asm_move waiting; /* additions in a row that have yet to join the move that was pushed last */
    int waiting_verb;
    PyObject *waiting_at, *accepted; /* the text of their location; where an addition was accepted */
};

typedef struct {
    Holder holder;
    PyObject *text;
} Location;

typedef struct {
    Holder holder;
    char is_freed;
} Move;

/* held.c: who may call, and what all types have. */
extern unsigned forks;
void watch_forks(void);
PyObject *refuse(Core *core, int32_t code, const char *how, const char *format, ...);
int unready(Holder *holder);
PyThreadState *begin_long_call(Holder *holder);
void end_long_call(Holder *holder, PyThreadState *was);
Core *core_of(PyTypeObject *type);
void *holder_new(PyTypeObject *type, Core *core);
void holder_dealloc(void *it);
PyObject *holder_self(PyObject *self, PyObject *none);
PyObject *holder_reduce(PyObject *self, PyObject *none);
PyObject *holder_free(Holder *self, PyObject *none);
PyObject *holder_exit(Holder *self, PyObject *const *words, Py_ssize_t count);
int number_of(Core *core, PyObject *value, const char *what, uint32_t least, uint32_t most, uint32_t *number);
extern PyGetSetDef holder_getters[];
extern PyMemberDef holder_members[];

#define HOLDER_METHODS                                             \
    {"__enter__", holder_self, METH_NOARGS, NULL},                 \
    {"__reduce__", holder_reduce, METH_NOARGS, NULL}

/* Checks whether a call on a slot may be made now. Returns non-zero with an exception. */
#define UNREADY(holder_) (ODD((holder_)->is_busy | ((holder_)->born != forks)) && unready(holder_))

/* Makes calls on a slot, without the interpreter's lock if they are long. */
#define RUN(holder_, is_long, calls)                                    \
    do {                                                              \
        PyThreadState *was_ = ODD(is_long) ? begin_long_call(holder_) : NULL;    \
        calls;                                                        \
        if (was_)                                                     \
            end_long_call(holder_, was_);                                   \
    } while (0)
#define CALL(code, holder_, is_long, call) RUN(holder_, is_long, (code) = (call))

/* Room for what the library writes. */
typedef struct {
    uint8_t own[512], *at;
    size_t room, written;
} Room;
void room_begin(Room *room);
void room_end(Room *room);
int room_grow(Room *room, int32_t *code);
#define ROOM(its) (its)->at, (its)->room, &(its)->written
/* Makes a call that writes, and repeats it if the room is too small; RUN takes it. */
#define WITH_ROOM(code, its, call)                        \
    do                                               \
        (code) = (call);                             \
    while (ODD((code) == ASM_SMALL) && room_grow(its, &(code)))

/* write.c: texts of values. */
typedef struct {
    char own[512], *at;
    size_t len, room;
    PyObject *odd, *path; /* what is refused, and where it is */
} Text;
void text_begin(Text *text);
void text_end(Text *text);
int text_put(Text *text, const char *what, size_t len);
int write_more(Core *core, Text *text, PyObject *value, const char *name);
int write_named(Core *core, Text *text, PyObject *value, const char *name);
const uint8_t *name_of(Core *core, PyObject *name, int is_guard, Py_ssize_t *len);
#define BYTES(text) (const uint8_t *)(text)->at, (text)->len
#define IS_LONG(text) ((text)->len > LONG_TEXT)

/* read.c: values of texts. */
PyObject *read_text(const void *text, size_t len);
PyObject *read_own_text(Core *core, const void *text, size_t len, int is_place);
PyObject *read_values(Core *core, Room *room, uint32_t *number);
PyObject *value_of(Core *core, const asm_value *value, const Room *room);

/* move.c: a location, prepared or not; and a change of it, which an instruction makes. */
typedef struct {
    struct asm_location own;
    Location *prepared; /* null if it is only in this call */
    Text text;
} Place;
#define AT(its) ((its)->prepared ? (struct asm_location *)SLOT((its)->prepared) : &(its)->own)
#define PLACE_UNREADY(its) ((its)->prepared && UNREADY(&(its)->prepared->holder))
int place_begin(Core *core, Place *its, PyObject *place);
int32_t prepare_place(Place *its);
PyObject *refuse_place(Core *core, Place *its, int32_t code);
const char *text_of_place(Place *its, size_t *len);
void place_end(Place *its);

typedef struct {
    Place place;
    int verb, kind, is_placed;
    int32_t code;
    uint32_t amount;
    int64_t number;
    const uint8_t *at;
    size_t len;
    Text text;
} Change;
int change_begin(Core *core, Change *its, PyObject *const *words, Py_ssize_t count, int verb);
int32_t change_put(Change *its, struct asm_move *move);
int32_t change_push(Change *its, Step *step, Room *room);
PyObject *refuse_change(Core *core, Change *its);
void change_end(Change *its);

/* The methods of a type that make such changes. */
#define CHANGE_OF(scope, Type, type, name, verb, work)                                          \
    scope PyObject *type##_##name(Type *self, PyObject *const *words, Py_ssize_t count)        \
    {                                                                                           \
        return work(self, words, count, verb);                                                  \
    }
#define CHANGES(scope, Type, type, work)                                                        \
    CHANGE_OF(scope, Type, type, put, ASM_PUT, work)                                                   \
    CHANGE_OF(scope, Type, type, add, ASM_ADD, work)                                                   \
    CHANGE_OF(scope, Type, type, remove, ASM_REMOVE, work)                                             \
    CHANGE_OF(scope, Type, type, bag_add, ASM_BAGADD, work)                                            \
    CHANGE_OF(scope, Type, type, bag_remove, ASM_BAGREMOVE, work)                                      \
    CHANGE_OF(scope, Type, type, inc, ASM_INC, work)
#define CHANGE_METHODS(type)                                                                                     \
    {"put", METHOD(type##_put), METH_FASTCALL, "put($self, at, value, /)\n--\n\nPut a value; None leaves the location empty."}, \
    {"add", METHOD(type##_add), METH_FASTCALL, "add($self, at, element, /)\n--\n\nAdd an element to a set."},    \
    {"remove", METHOD(type##_remove), METH_FASTCALL, "remove($self, at, element, /)\n--\n\nRemove an element from a set."}, \
    {"bag_add", METHOD(type##_bag_add), METH_FASTCALL,                                                           \
        "bag_add($self, at, element, amount=1, /)\n--\n\nAdd an element to a bag, 1 to 4,294,967,295 times."},   \
    {"bag_remove", METHOD(type##_bag_remove), METH_FASTCALL,                                                     \
        "bag_remove($self, at, element, amount=1, /)\n--\n\nRemove an element from a bag, 1 to 4,294,967,295 times."}, \
    {"inc", METHOD(type##_inc), METH_FASTCALL, "inc($self, at, by, /)\n--\n\nRaise a number, by 0 or less too."}

/* storage.c, and move.c */
Storage *storage_next_of(const Storage *behind, PyObject *words, PyObject *named, uint32_t *capacity);
PyObject *refuse_storage(Storage *self, int32_t code);

/* additions.c */
int add_to(Step *self, Change *its);
int settle(Step *self);
void settle_agent(Agent *agent);
void drop_waiting(Step *self);
void forget_accepted(Step *self, const char *at, size_t len);

/* reader.c */
#define READER(storage) ((struct asm_agent *)&(storage)->reader)
PyObject *storage_state(Storage *self, PyObject *none);
PyObject *storage_at(Storage *self, PyObject *place);
PyObject *storage_run(Storage *self, PyObject *words, PyObject *named);

PyObject *refuse_location(Location *self, int32_t code);

/* agent.c, agent_texts.c and play.c */
PyObject *new_agent(Storage *storage, PyObject *number, int is_take);
int32_t agent_give(Agent *self);
int agent_is_far(const Agent *self);
PyObject *agent_play(Agent *self, PyObject *words, PyObject *named);
void take_newest_state(Agent *self);
void update_seen(Agent *self, int32_t code);
int32_t catch_up(Agent *self);
PyObject *refuse_agent(Agent *self, int32_t code);
PyObject *agent_read(Agent *self, PyObject *places);
PyObject *agent_fire(Agent *self, PyObject *words, PyObject *named);
PyObject *agent_fire_texts(Agent *self, PyObject *words);
PyObject *agent_answer(Agent *self, PyObject *none);
PyObject *agent_learn(Agent *self, PyObject *other);
PyObject *agent_follow(Agent *self, PyObject *none);
PyObject *agent_peek(Agent *self, PyObject *places);
PyObject *agent_state(Agent *self, PyObject *none);
PyObject *agent_state_text(Agent *self, PyObject *none);
PyObject *agent_scan(Agent *self, PyObject *name);
PyObject *agent_stands(Agent *self, PyObject *reads);
PyObject *agent_go_on(Agent *self, PyObject *words, PyObject *named);

/* step.c, step_values.c and waiting.c */
PyObject *refuse_push(Step *self, int32_t code, const char *move, size_t len, Room *room);
PyObject *refuse_step(Step *self, int32_t code);
PyObject *step_get(Step *self, PyObject *it);
PyObject *step_at(Step *self, PyObject *it);
PyObject *step_see(Step *self, PyObject *it);
PyObject *step_scan(Step *self, PyObject *it);
PyObject *step_has(Step *self, PyObject *const *words, Py_ssize_t given);
PyObject *step_count_of(Step *self, PyObject *const *words, Py_ssize_t given);
PyObject *step_size(Step *self, PyObject *place);
PyObject *step_any(Step *self, PyObject *name);
PyObject *step_count(Step *self, PyObject *name);
PyObject *step_push(Step *self, PyObject *it);
PyObject *step_extend(Step *self, PyObject *it);
PyObject *step_pop(Step *self, PyObject *it);
PyObject *step_pop_move(Step *self, PyObject *it);
PyObject *step_stands(Step *self, PyObject *none);
PyObject *step_wait(Step *self, PyObject *words, PyObject *named);
#define DECLARE_CHANGE(name) PyObject *step_##name(Step *self, PyObject *const *words, Py_ssize_t count)
DECLARE_CHANGE(put);
DECLARE_CHANGE(add);
DECLARE_CHANGE(remove);
DECLARE_CHANGE(bag_add);
DECLARE_CHANGE(bag_remove);
DECLARE_CHANGE(inc);
Step *begin_step(Agent *agent, PyTypeObject *type);
int64_t fire_step(Step *self, int is_try);
void step_drop(Step *self);

extern PyType_Spec storage_spec, agent_spec, step_spec, location_spec, move_spec, audit_spec, run_spec;

static inline int is_location(const Core *core, PyObject *it)
{
    return Py_TYPE(it) == core->location;
}

#endif
