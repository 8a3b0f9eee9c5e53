/* Steps of agents. */
#include "core.h"

/* Raises the error of the code of a call on it, and on the location or the move that was passed. */
PyObject *refuse_step(Step *self, int32_t code)
{
    return refuse(self->holder.core, code, code == ASM_EMPTY ? "step_over" : "step", "(iO)", (int)code, (PyObject *)self);
}

/* A step is over if its slot is empty. */
static void count_closed(Step *self)
{
    self->agent->steps -= self->is_open && !IS_FULL(self);
    self->is_open &= IS_FULL(self);
}

void step_drop(Step *self)
{
    drop_waiting(self);
    asm_free(SLOT(self));
    count_closed(self);
}

/* Makes a step of a type, and begins it. */
Step *begin_step(Agent *agent, PyTypeObject *type)
{
    Step *self = holder_new(type, agent->holder.core);
    if (!self)
        return NULL;
    self->agent = (Agent *)Py_NewRef((PyObject *)agent);
    int32_t code;
    /* Last, as making it may run Python code. */
    if (UNREADY(&agent->holder)) {
        Py_DECREF((PyObject *)self);
        return NULL;
    }
    settle_agent(agent);
    take_newest_state(agent);
    CALL(code, &agent->holder, agent_is_far(agent), asm_begin(SLOT(agent), SLOT(self), &self->number));
    if (ODD(code != ASM_DONE)) {
        Py_DECREF((PyObject *)self);
        return (Step *)refuse_agent(agent, code);
    }
    agent->seen = self->number;
    IS_BEHIND(agent) = 0;
    agent->last = self;
    self->thread = agent->thread;
    agent->steps++;
    self->is_open = 1;
    return self;
}

static PyObject *step_new(PyTypeObject *type, PyObject *words, PyObject *named)
{
    static char *names[] = {"agent", NULL};
    Agent *agent;
    int is_right = PyArg_ParseTupleAndKeywords(words, named, "O!", names, core_of(type)->agent, &agent);
    return is_right ? (PyObject *)begin_step(agent, type) : NULL;
}

static void step_dealloc(Step *self)
{
    Agent *agent = self->agent;
    PyObject_GC_UnTrack(self);
    if (agent) {
        agent->steps -= self->is_open;
        agent->last = agent->last == self ? NULL : agent->last;
        agent->adding = agent->adding == self ? NULL : agent->adding;
    }
    if (self->holder.born == forks)
        asm_free(&self->waiting.slot);
    Py_XDECREF(self->waiting_at);
    Py_XDECREF(self->accepted);
    holder_dealloc(self);
    Py_XDECREF((PyObject *)agent);
}

static int step_traverse(Step *self, visitproc visit, void *arg)
{
    Py_VISIT(Py_TYPE((PyObject *)self));
    Py_VISIT((PyObject *)self->agent);
    return 0;
}

static PyObject *offer(Step *self, int is_text)
{
    Room room;
    int32_t code;
    if (UNREADY(&self->agent->holder) || settle(self))
        return NULL;
    room_begin(&room);
    WITH_ROOM(code, &room, asm_offer(SLOT(self), ROOM(&room)));
    PyObject *its;
    if (code != ASM_DONE)
        its = refuse_step(self, code);
    else
        its = is_text ? PyBytes_FromStringAndSize((char *)room.at, (Py_ssize_t)room.written)
                      : read_own_text(self->holder.core, room.at, room.written, 0);
    room_end(&room);
    return its;
}

static PyObject *step_offer(Step *self, PyObject *Py_UNUSED(none))
{
    return offer(self, 0);
}

static PyObject *step_offer_text(Step *self, PyObject *Py_UNUSED(none))
{
    return offer(self, 1);
}

/* Commits, and writes the answer of a refusal. */
static int32_t commit_and_answer(Step *self, asm_numbers *numbers, Room *room)
{
    Agent *agent = self->agent;
    int32_t answer_code, code = agent->storage->records ? asm_commit_recorded(SLOT(agent), SLOT(self), numbers)
                                                     : asm_commit(SLOT(agent), SLOT(self), numbers);
    if (ODD(room && (code == ASM_STALE || code == ASM_CLASH))) {
        WITH_ROOM(answer_code, room, asm_answer(SLOT(agent), ROOM(room)));
        code = answer_code == ASM_DONE ? code : answer_code;
    }
    return code;
}

/* Fires. Returns the number of the move, 0 if an attempt must be begun again, -1 with an exception. */
int64_t fire_step(Step *self, int is_try)
{
    Agent *agent = self->agent;
    asm_numbers numbers;
    Room room;
    int32_t code;
    if (UNREADY(&agent->holder) || settle(self))
        return -1;
    settle_agent(agent);
    room_begin(&room);
    CALL(code, &agent->holder, agent_is_far(agent), commit_and_answer(self, &numbers, is_try ? NULL : &room));
    agent->seen = asm_seen(SLOT(agent));
    if (code == ASM_DONE) {
        self->fired = numbers.fired;
        self->is_fired = 1;
        count_closed(self);
        if (numbers.fired > agent->storage->last)
            agent->storage->last = numbers.fired;
        return (int64_t)(agent->base + numbers.fired);
    }
    self->is_tried |= code != ASM_EMPTY;
    int is_vain = is_try && (code == ASM_STALE || code == ASM_CLASH || code == ASM_BUSY);
    if (!is_vain && code == ASM_EMPTY)
        refuse_step(self, code);
    else if (!is_vain)
        refuse(self->holder.core, code, "commit", "(iy#II)", (int)code, room.at, (Py_ssize_t)room.written, (unsigned)numbers.from,
            (unsigned)numbers.to);
    room_end(&room);
    return is_vain ? 0 : -1;
}

static PyObject *step_commit(Step *self, PyObject *Py_UNUSED(none))
{
    int64_t number = fire_step(self, 0);
    return number < 0 ? NULL : PyLong_FromLongLong(number);
}

static PyObject *step_try_commit(Step *self, PyObject *Py_UNUSED(none))
{
    int64_t number = fire_step(self, 1);
    return number < 0 ? NULL : PyLong_FromLongLong(number);
}

static PyObject *step_free(Step *self, PyObject *Py_UNUSED(none))
{
    if (UNREADY(&self->agent->holder))
        return NULL;
    step_drop(self);
    return Py_NewRef(Py_None);
}

/* Of a shared run: the step is over, as the run has fired its move. */
static PyObject *step_end(Step *self, PyObject *fired)
{
    if (number_of(self->holder.core, fired, "move", 0, UINT32_MAX, &self->fired))
        return NULL;
    self->is_fired = 1;
    return step_free(self, NULL);
}

/* How many moves are pushed, with one of additions that wait. */
static uint32_t pushed(Step *self)
{
    uint32_t depth = asm_depth(SLOT(self));
    return depth ? depth : self->waiting.slot.full;
}

static PyObject *step_exit(Step *self, PyObject *const *words, Py_ssize_t count)
{
    if (self->is_fired)
        return Py_NewRef(Py_None);
    if (UNREADY(&self->agent->holder))
        return NULL;
    int is_forgotten = count > 0 && words[0] == Py_None && !self->is_tried && self->is_pushed && pushed(self) > 0;
    step_drop(self);
    if (is_forgotten && PyErr_WarnEx(PyExc_ResourceWarning, "a step ended with moves that were pushed and not fired", 1))
        return NULL;
    return Py_NewRef(Py_None);
}

/* step[at] = value; del step[at] leaves the location empty. */
static int step_assign(Step *self, PyObject *at, PyObject *value)
{
    PyObject *const words[] = {at, value ? value : Py_None};
    PyObject *none = step_put(self, words, 2);
    Py_XDECREF(none);
    return none ? 0 : -1;
}

static PyObject *step_repr(Step *self)
{
    Agent *agent = self->agent;
    if (UNREADY(&agent->holder))
        return NULL;
    if (self->is_fired || !IS_FULL(self))
        return PyUnicode_FromString("<Step, over>");
    return PyUnicode_FromFormat(
        "<Step at %u of agent %u, %u pushed>", (unsigned)self->number, (unsigned)agent->own, (unsigned)pushed(self));
}

static PyObject *step_number(Step *self, void *Py_UNUSED(none))
{
    return PyLong_FromUnsignedLongLong(self->agent->base + self->number);
}

static PyObject *step_fired_number(Step *self, void *Py_UNUSED(none))
{
    return PyLong_FromUnsignedLongLong(self->fired ? self->agent->base + self->fired : 0);
}

static PyObject *step_depth(Step *self, void *Py_UNUSED(none))
{
    return UNREADY(&self->agent->holder) ? NULL : PyLong_FromUnsignedLong(pushed(self));
}

static PyObject *step_agent(Step *self, void *Py_UNUSED(none))
{
    return Py_NewRef((PyObject *)self->agent);
}

static PyObject *step_is_full(Step *self, void *Py_UNUSED(none))
{
    return UNREADY(&self->agent->holder) ? NULL : PyBool_FromLong(IS_FULL(self));
}

static PyMethodDef methods[] = {
    HOLDER_METHODS,
    CHANGE_METHODS(step),
    {"get", (PyCFunction)step_get, METH_O,
        "get($self, places, /)\n--\n\nReturn the values of the locations, as seen through the pushed moves; of a `Location` its value.\n\n"
        "A get is tracked, so the fire depends on it, if the value depends on that of the state below. What a pushed move put there isn't\n"
        "tracked.\n\n"
        "Raises:\n"
        "    ManyError: the step would depend on more than 256 locations and functions."},
    {"see", (PyCFunction)step_see, METH_O,
        "see($self, places, /)\n--\n\n"
        "Return what `get` returns, of any number of locations, but track nothing: the step doesn't depend on it."},
    {"has", METHOD(step_has), METH_FASTCALL,
        "has($self, at, element, /)\n--\n\nReturn whether the set or the bag has the element, without making a value of it.\n\n"
        "It is tracked as `get` is. Where nothing is, there is no element.\n\n"
        "Raises:\n"
        "    Error: the value is no set and no bag; the code is SHAPE, and the step depends on that.\n"
        "    ManyError: as of `get`."},
    {"count_of", METHOD(step_count_of), METH_FASTCALL,
        "count_of($self, at, element, /)\n--\n\nReturn how often the set or the bag has the element, as `has` does: 0 or 1 of a set."},
    {"size", (PyCFunction)step_size, METH_O,
        "size($self, at, /)\n--\n\nReturn how many elements the set or the bag has, each of a bag as often as it is there, as `has` does."},
    {"scan", (PyCFunction)step_scan, METH_O,
        "scan($self, name, /)\n--\n\nReturn each location with this function name and its value, as a list of pairs, ascending.\n\n"
        "The step then depends on the complete function: a write to any location of it makes the fire `StaleError`."},
    {"any", (PyCFunction)step_any, METH_O,
        "any($self, name, /)\n--\n\nReturn whether `scan` would list a location, at the cost of one. The step depends on the complete function."},
    {"count", (PyCFunction)step_count, METH_O,
        "count($self, name, /)\n--\n\nReturn how many locations `scan` would list, without a list. The step depends on the complete function."},
    {"push", (PyCFunction)step_push, METH_O,
        "push($self, instructions, /)\n--\n\n"
        "Push a move, which is fired with the others. A push that is refused, or popped, is a dry run.\n\n"
        "Raises:\n"
        "    ClashError: its updates clash on what is seen; the error has the location and the cause.\n"
        "    ManyError: the moves have more than 4,096 instructions together.\n"
        "    DeepError: 64 moves are pushed."},
    {"extend", (PyCFunction)step_extend, METH_O,
        "extend($self, instructions, /)\n--\n\nDo the same, but add the move to the one that was pushed last; both are popped together."},
    {"pop", (PyCFunction)step_pop, METH_NOARGS,
        "pop($self, /)\n--\n\nRemove the move that was pushed last, with those that extend it.\n\n"
        "Raises:\n"
        "    Error: no move is pushed; the code is NO_PUSH."},
    {"pop_move", (PyCFunction)step_pop_move, METH_NOARGS,
        "pop_move($self, /)\n--\n\nDo the same, and return the one move that does what the popped moves do in turn.\n\n"
        "Raises:\n"
        "    ManyError: that move has more than 4,096 instructions; nothing is popped."},
    {"offer", (PyCFunction)step_offer, METH_NOARGS,
        "offer($self, /)\n--\n\n"
        "Return what `commit` would attempt to append: {\"fire\": [..], \"reads\": [..]}, as `Agent.fire` takes it, without scans."},
    {"commit", (PyCFunction)step_commit, METH_NOARGS,
        "commit($self, /)\n--\n\n"
        "Fire one move that does what the pushed moves do in turn, and return its number. The step is over then.\n\n"
        "Raises:\n"
        "    ConflictError: begin the step again. It is a `StaleError`, a `BusyError`, or a `CommitClashError` if the present values\n"
        "        don't accept an update.\n"
        "    FullError: the number of fired moves has reached the capacity.\n"
        "    ManyError: the fire would name more than 256 locations and functions."},
    {"try_commit", (PyCFunction)step_try_commit, METH_NOARGS,
        "try_commit($self, /)\n--\n\nCommit the same way, but return 0 if the step must be begun again."},
    {"stands", (PyCFunction)step_stands, METH_NOARGS,
        "stands($self, /)\n--\n\n"
        "Poll; return a location that was written since the step began, so that a commit is `StaleError`, or None.\n\n"
        "It is one on which the step depends, or one of a function that it scanned. The agent's own state follows, so the step may read\n"
        "no more (`MovedError`); a commit still fires what was pushed."},
    {"wait", METHOD(step_wait), METH_VARARGS | METH_KEYWORDS,
        "wait($self, /, timeout=None)\n--\n\n"
        "Wait until `stands` would return a location, and return True; after `timeout` seconds return False.\n\n"
        "Then begin another step. Other threads run meanwhile, and a signal's handler may end the wait."},
    {"free", (PyCFunction)step_free, METH_NOARGS, "free($self, /)\n--\n\nRelease it; releasing again has no effect."},
    {"_offer_text", (PyCFunction)step_offer_text, METH_NOARGS, NULL},
    {"_end", (PyCFunction)step_end, METH_O, NULL},
    {"__exit__", METHOD(step_exit), METH_FASTCALL, NULL},
    {0},
};
static PyGetSetDef gets[] = {
    {"_is_full", (getter)step_is_full, NULL, NULL, NULL},
    {"_agent", (getter)step_agent, NULL, NULL, NULL},
    {"number", (getter)step_number, NULL, "The version of the state that it sees: how many moves had been fired.", NULL},
    {"fired", (getter)step_fired_number, NULL, "The number of the move that it fired; 0 if it fired none.", NULL},
    {"depth", (getter)step_depth, NULL, "How many moves are pushed, at most 64; 0 for a step that is over.", NULL},
    {0},
};
static PyMemberDef members[] = {
    {"__weaklistoffset__", T_PYSSIZET, offsetof(Holder, weak), READONLY, NULL},
    {"_thread", T_ULONG, offsetof(Step, thread), READONLY, NULL},
    {"_own_number", T_UINT, offsetof(Step, number), READONLY, NULL},
    {"_is_tried", T_BOOL, offsetof(Step, is_tried), 0, NULL},
    {"_is_pushed", T_BOOL, offsetof(Step, is_pushed), READONLY, NULL},
    {0},
};
static PyType_Slot slots[] = {
    {Py_tp_doc, "Step(agent)\n--\n\n"
                "A step of an agent: a transaction on the snapshot at version `number`.\n\n"
                "`push` adds a move, which later gets and pushes see. `commit` fires one move that does what the pushed moves do in turn, unless\n"
                "something that the step depends on was written since. A refused call leaves the step unchanged. The step is over once it is\n"
                "fired, and at the end of its `with`; calls then raise `OverError`. A step that isn't fired leaves no trace. If its agent has\n"
                "moved past `number`, a get, a scan or a push raises `MovedError`.\n\n"
                "Calls of `add` at one location with no other call between them are instructions of one move, and so are those of `bag_add`\n"
                "and of `inc`: the step doesn't depend on the value there. They join at the next other call. If they don't fit together,\n"
                "that call and each further one raises `ClashError`."},
    {Py_mp_subscript, step_at}, {Py_mp_ass_subscript, step_assign}, {Py_tp_new, step_new}, {Py_tp_dealloc, step_dealloc}, {Py_tp_traverse, step_traverse}, {Py_tp_methods, methods},
    {Py_tp_members, members}, {Py_tp_getset, gets}, {Py_tp_repr, step_repr}, {0}};
PyType_Spec step_spec = {"folugben.Step", sizeof(Step), 0, Py_TPFLAGS_DEFAULT | Py_TPFLAGS_BASETYPE | Py_TPFLAGS_HAVE_GC, slots};
