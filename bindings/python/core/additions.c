/* Additions in a row to one set, bag or number, which become one move's instructions. So the step doesn't depend on the value
 * there, as it would if each were a move that extends the one before. They wait until the step makes another call, or its agent
 * polls. */
#include <string.h>

#include "core.h"

#define WAITING(step) (&(step)->waiting)

void drop_waiting(Step *self)
{
    asm_free(&self->waiting.slot);
    Py_CLEAR(self->waiting_at);
    if (self->agent && self->agent->adding == self)
        self->agent->adding = NULL;
}

/* Has what waits join the move that was pushed last, in the course of calls. If that is refused, it waits on. */
static int32_t join(Step *self, Room *room)
{
    int32_t code = ASM_DONE;
    if (self->waiting.slot.full)
        WITH_ROOM(code, room, asm_extend_move(SLOT(self->agent), SLOT(self), WAITING(self), ROOM(room)));
    if (code == ASM_DONE && self->waiting.slot.full) {
        drop_waiting(self);
        self->is_pushed = 1;
    }
    return code;
}

/* Before another call of the step, which is ready. Returns non-zero with an exception. */
int settle(Step *self)
{
    Room room;
    if (!ODD(self->waiting.slot.full && !self->is_refusing))
        return 0;
    room_begin(&room);
    int32_t code = join(self, &room);
    /* The error may read what is there. */
    self->is_refusing = 1;
    if (code != ASM_DONE)
        refuse_push(self, code, "", 0, &room);
    self->is_refusing = 0;
    room_end(&room);
    return code == ASM_DONE ? 0 : -1;
}

/* Before a poll, after which nothing could join any more. */
void settle_agent(Agent *agent)
{
    Room room;
    if (agent->adding && IS_FULL(agent)) {
        room_begin(&room);
        join(agent->adding, &room);
        room_end(&room);
    }
}

static PyObject *key_of(int verb, const char *at, size_t len)
{
    PyObject *key = PyBytes_FromStringAndSize(NULL, (Py_ssize_t)len + 1);
    if (key) {
        char *text = PyBytes_AsString(key);
        text[0] = (char)('0' + verb);
        memcpy(text + 1, at, len);
    }
    return key;
}

/* Returns whether a set or a bag has accepted an addition of this verb there: then another one is of the right kind. */
static int is_accepted(Step *self, int verb, const char *at, size_t len)
{
    PyObject *key = verb != ASM_INC && self->accepted ? key_of(verb, at, len) : NULL;
    int is_in = key ? PySet_Contains(self->accepted, key) : 0;
    Py_XDECREF(key);
    PyErr_Clear();
    return is_in > 0;
}

static void accept_all_at(Step *self, int verb, const char *at, size_t len)
{
    PyObject *key = NULL;
    if (verb != ASM_INC && (self->accepted || (self->accepted = PySet_New(NULL))) && (key = key_of(verb, at, len)))
        PySet_Add(self->accepted, key);
    Py_XDECREF(key);
    PyErr_Clear();
}

/* Tries the addition as a move of its own. What nothing has joined is popped unchanged, and leaves no trace. If there is no room
 * for such a move, or it can't be popped, it is pushed for good. */
static int32_t try_alone(Step *self, Room *room, int *is_pushed)
{
    struct asm_move popped = {0};
    int32_t code;
    WITH_ROOM(code, room, asm_push_move(SLOT(self->agent), SLOT(self), WAITING(self), ROOM(room)));
    *is_pushed = code == ASM_DONE && asm_pop_move(SLOT(self), &popped) != ASM_DONE;
    asm_free(&popped.slot);
    if (code == ASM_DEEP) {
        WITH_ROOM(code, room, asm_extend_move(SLOT(self->agent), SLOT(self), WAITING(self), ROOM(room)));
        *is_pushed = code == ASM_DONE;
    }
    return code;
}

/* Begins to wait with the addition. Returns non-zero with an exception. */
static int begin_waiting(Step *self, Change *its, const char *at, size_t len)
{
    int is_pushed = 0;
    Room room;
    room_begin(&room);
    int32_t code = change_put(its, WAITING(self));
    int is_put = code == ASM_DONE;
    if (is_put && !is_accepted(self, its->verb, at, len))
        code = try_alone(self, &room, &is_pushed);
    if (code == ASM_DONE && !is_pushed && (self->waiting_at = PyBytes_FromStringAndSize(at, (Py_ssize_t)len))) {
        accept_all_at(self, its->verb, at, len);
        self->waiting_verb = its->verb;
        self->is_pushed = 1;
        self->agent->adding = self;
    } else {
        drop_waiting(self);
        if (is_pushed)
            self->is_pushed = 1;
        else if (!is_put)
            refuse_change(self->holder.core, its);
        else if (code != ASM_DONE)
            refuse_push(self, code, "", 0, &room);
    }
    room_end(&room);
    return PyErr_Occurred() ? -1 : 0;
}

/* Adds to a set, a bag or a number, for a step that is ready. Returns non-zero with an exception. */
int add_to(Step *self, Change *its)
{
    size_t len;
    const char *at = text_of_place(&its->place, &len);
    PyObject *was = self->waiting_at;
    int is_next = was && self->waiting_verb == its->verb && (size_t)PyBytes_Size(was) == len && !memcmp(PyBytes_AsString(was), at, len);
    if (is_next && change_put(its, WAITING(self)) == ASM_DONE)
        return 0;
    if (is_next) {
        refuse_change(self->holder.core, its);
        return -1;
    }
    if (settle(self))
        return -1;
    settle_agent(self->agent);
    return begin_waiting(self, its, at, len);
}

/* What is pushed otherwise may put values of other kinds; a null text stands for all locations. */
void forget_accepted(Step *self, const char *at, size_t len)
{
    static const int verbs[] = {ASM_ADD, ASM_BAGADD};
    for (size_t k = 0; at && self->accepted && k < sizeof verbs / sizeof *verbs; k++) {
        PyObject *key = key_of(verbs[k], at, len);
        if (key)
            PySet_Discard(self->accepted, key);
        Py_XDECREF(key);
        PyErr_Clear();
    }
    if (!at)
        Py_CLEAR(self->accepted);
}
