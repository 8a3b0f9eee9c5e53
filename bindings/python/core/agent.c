/* Agents: creation, release, and their steps. */
#include "core.h"

/* Raises the error of the code of a call on it. */
PyObject *refuse_agent(Agent *self, int32_t code)
{
    if (code == ASM_EMPTY && !IS_FULL(self))
        return refuse(self->holder.core, code, "returned_agent", "(O)", self);
    return refuse(self->holder.core, code, "expect", "(i)", (int)code);
}

/* Waits until neither its slot nor its storage's slot is busy. Returns non-zero with an exception. */
static int wait_for_both(Agent *self)
{
    do
        if (UNREADY(&self->holder) || UNREADY(&self->storage->holder))
            return -1;
    while (ODD(self->holder.is_busy | self->storage->holder.is_busy));
    return 0;
}

/* Fills its slot: checks it out of its storage, or makes it. */
static int32_t check_out(Agent *self, int is_take, int is_made)
{
    Storage *storage = self->storage;
    int is_reader = is_made && storage->reader.full && storage->reader_own == self->own;
    int32_t code = is_reader ? asm_give(SLOT(storage), READER(storage)) : ASM_DONE;
    if (code == ASM_DONE)
        code = is_take || is_reader ? asm_take(SLOT(storage), self->own, SLOT(self)) : ASM_NO_AGENT;
    if (code == ASM_NO_AGENT && is_made)
        code = asm_agent(SLOT(storage), self->own, SLOT(self));
    if (code != ASM_DONE)
        return code;
    self->seen = asm_seen(SLOT(self));
    self->next = storage->first;
    self->before = &storage->first;
    if (self->next)
        self->next->before = &self->next;
    storage->first = self;
    return code;
}

/* Removes it from its storage's list and turns. */
static void unlink_agent(Agent *self)
{
    for (int k = 0; self->storage && k < TURNS; k++)
        if (self->storage->turns[k].agent == self)
            self->storage->turns[k].agent = NULL;
    if (!self->before)
        return;
    *self->before = self->next;
    if (self->next)
        self->next->before = self->before;
    self->before = NULL;
    self->next = NULL;
}

/* Stores how many moves it has seen and fired, for when its slot is empty. */
static void store_counts(Agent *self)
{
    if (IS_FULL(self)) {
        self->returned_seen = asm_seen(SLOT(self));
        self->returned_won = asm_won(SLOT(self));
    }
}

int32_t agent_give(Agent *self)
{
    store_counts(self);
    int32_t code = asm_give(SLOT(self->storage), SLOT(self));
    if (code == ASM_DONE)
        unlink_agent(self);
    return code;
}

static PyObject *refuse_entry(Agent *self, int32_t code)
{
    if (code == ASM_NUMBER || code == ASM_NO_AGENT)
        return refuse(self->holder.core, code, "no_such_agent", "(iI)", (int)code, (unsigned)self->own);
    return refuse_storage(self->storage, code);
}

/* Makes an agent of a type, whose slot is empty. */
static Agent *new_empty_agent(PyTypeObject *type, Storage *storage, PyObject *number)
{
    Core *core = storage->holder.core;
    uint32_t own;
    if (number_of(core, number, "agent", 0, AGENTS - 1, &own))
        return NULL;
    Agent *self = holder_new(type, core);
    if (self) {
        self->storage = (Storage *)Py_NewRef((PyObject *)storage);
        self->own = own;
    }
    return self;
}

static PyObject *fill_slot(Agent *self, int is_take)
{
    if (!self || UNREADY(&self->storage->holder)) {
        Py_XDECREF((PyObject *)self);
        return NULL;
    }
    int32_t code = check_out(self, is_take, !is_take);
    if (code == ASM_DONE)
        return (PyObject *)self;
    refuse_entry(self, code);
    Py_DECREF((PyObject *)self);
    return NULL;
}

PyObject *new_agent(Storage *storage, PyObject *number, int is_take)
{
    return fill_slot(new_empty_agent(storage->holder.core->agent, storage, number), is_take);
}

/* For an agent of a run: its slot stays empty if a third argument says so. */
static PyObject *agent_new(PyTypeObject *type, PyObject *words, PyObject *named)
{
    static char *names[] = {"storage", "number", "_is_empty", NULL};
    Storage *storage;
    PyObject *number;
    int is_empty = 0;
    if (!PyArg_ParseTupleAndKeywords(words, named, "O!O|p", names, core_of(type)->storage, &storage, &number, &is_empty))
        return NULL;
    Agent *self = new_empty_agent(type, storage, number);
    return is_empty ? (PyObject *)self : fill_slot(self, 0);
}

/* Of a run: enters its storage; it is made there if it wasn't before. */
static PyObject *agent_check_out(Agent *self, PyObject *Py_UNUSED(none))
{
    if (wait_for_both(self))
        return NULL;
    int32_t code = IS_FULL(self) ? ASM_DONE : check_out(self, 1, 1);
    self->is_withdrawn = 0;
    return code == ASM_DONE ? Py_NewRef(Py_None) : refuse_entry(self, code);
}

static PyObject *agent_return(Agent *self, PyObject *Py_UNUSED(none))
{
    if (wait_for_both(self))
        return NULL;
    int32_t code = agent_give(self);
    if (code == ASM_DONE)
        return Py_NewRef(Py_None);
    return IS_FULL(self->storage) ? refuse_agent(self, code) : refuse_storage(self->storage, code);
}

static PyObject *agent_exit(Agent *self, PyObject *const *Py_UNUSED(words), Py_ssize_t Py_UNUSED(count))
{
    if (UNREADY(&self->holder))
        return NULL;
    return IS_FULL(self) ? agent_return(self, NULL) : Py_NewRef(Py_None);
}

/* Of a run: another thread than its own returns it to its storage, if it is in no step or must be returned. Returns whether it
 * isn't held. */
static PyObject *agent_try_return(Agent *self, PyObject *forced)
{
    int is_forced = PyObject_IsTrue(forced);
    if (is_forced < 0 || wait_for_both(self))
        return NULL;
    if (IS_FULL(self) && (is_forced || !self->last || !IS_FULL(self->last))) {
        int32_t code = agent_give(self);
        if (code != ASM_DONE)
            return refuse_agent(self, code);
        self->is_withdrawn = 1;
    }
    return PyBool_FromLong(!IS_FULL(self));
}

static PyObject *agent_free(Agent *self, PyObject *Py_UNUSED(none))
{
    if (UNREADY(&self->holder))
        return NULL;
    store_counts(self);
    self->storage->is_abandoned |= IS_FULL(self);
    asm_free(SLOT(self));
    unlink_agent(self);
    return Py_NewRef(Py_None);
}

/* If it were released, the moves that it fired would be missing for good, so it is returned to its storage. Its storage is at
 * most in a call that ends by itself, and whose thread runs no Python code meanwhile. */
static void agent_dealloc(Agent *self)
{
    Storage *storage = self->storage;
    PyObject_GC_UnTrack(self);
    if (self->holder.weak)
        PyObject_ClearWeakRefs((PyObject *)self);
    if (storage && IS_FULL(self) && self->holder.born == forks) {
        if (storage->holder.is_busy)
            unready(&storage->holder);
        if (IS_FULL(storage) && agent_give(self) != ASM_DONE)
            storage->is_abandoned = 1;
    }
    unlink_agent(self);
    holder_dealloc(self);
    Py_XDECREF((PyObject *)storage);
}

static int agent_traverse(Agent *self, visitproc visit, void *arg)
{
    Py_VISIT(Py_TYPE((PyObject *)self));
    Py_VISIT((PyObject *)self->storage);
    return 0;
}

int agent_is_far(const Agent *self)
{
    return self->storage->last > self->seen && self->storage->last - self->seen > FAR;
}

static PyObject *agent_step(Agent *self, PyObject *Py_UNUSED(none))
{
    return (PyObject *)begin_step(self, self->holder.core->step);
}

static PyObject *agent_count_pair(Agent *self, PyObject *Py_UNUSED(none))
{
    if (UNREADY(&self->holder))
        return NULL;
    store_counts(self);
    return Py_BuildValue("II", (unsigned)self->returned_seen, (unsigned)self->returned_won);
}

#define COUNT(name, make)                                                     \
    static PyObject *agent_##name(Agent *self, void *Py_UNUSED(none))         \
    {                                                                         \
        return UNREADY(&self->holder) ? NULL : make(asm_##name(SLOT(self))); \
    }
COUNT(seen, PyLong_FromUnsignedLong)
COUNT(won, PyLong_FromUnsignedLong)
COUNT(misses, PyLong_FromUnsignedLongLong)

static PyObject *agent_number(Agent *self, void *Py_UNUSED(none))
{
    return PyLong_FromUnsignedLong(self->own);
}

static PyObject *agent_storage(Agent *self, void *Py_UNUSED(none))
{
    return Py_NewRef((PyObject *)self->storage);
}

static PyObject *agent_is_full(Agent *self, void *Py_UNUSED(none))
{
    return UNREADY(&self->holder) ? NULL : PyBool_FromLong(IS_FULL(self));
}

static PyObject *agent_repr(Agent *self)
{
    if (UNREADY(&self->holder))
        return NULL;
    if (!IS_FULL(self))
        return PyUnicode_FromFormat("<Agent %u, returned>", (unsigned)self->own);
    return PyUnicode_FromFormat("<Agent %u, %u moves seen>", (unsigned)self->own, (unsigned)asm_seen(SLOT(self)));
}

/* Of a run that reads its newest state: enters, follows, returns the number and the text of its own state, and is returned.
 * Its slot is busy meanwhile, so its own thread waits. */
static int32_t read_newest(Agent *self, uint32_t *number, Room *room)
{
    int32_t code, give_code;
    PyThreadState *was;
    if (UNREADY(&self->storage->holder))
        return ASM_EMPTY;
    if ((code = check_out(self, 1, 1)) != ASM_DONE)
        return code;
    was = PyEval_SaveThread();
    if ((code = asm_follow(SLOT(self), number)) == ASM_DONE)
        WITH_ROOM(code, room, asm_state(SLOT(self), number, ROOM(room)));
    PyEval_RestoreThread(was);
    give_code = UNREADY(&self->storage->holder) ? ASM_EMPTY : agent_give(self);
    return code == ASM_DONE ? give_code : code;
}

static PyObject *agent_newest_state(Agent *self, PyObject *Py_UNUSED(none))
{
    uint32_t number = 0;
    Room room;
    PyThreadState *was = UNREADY(&self->holder) ? NULL : begin_long_call(&self->holder);
    if (!was)
        return PyErr_Occurred() ? NULL : PyErr_NoMemory();
    PyEval_RestoreThread(was);
    room_begin(&room);
    int32_t code = read_newest(self, &number, &room);
    end_long_call(&self->holder, PyEval_SaveThread());
    PyObject *result = code == ASM_DONE ? Py_BuildValue("Iy#", (unsigned)number, room.at, (Py_ssize_t)room.written) : NULL;
    if (code != ASM_DONE && !PyErr_Occurred())
        refuse_entry(self, code);
    room_end(&room);
    return result;
}

static PyMethodDef methods[] = {
    HOLDER_METHODS,
    {"step", (PyCFunction)agent_step, METH_NOARGS,
        "step($self, /)\n--\n\nBegin a step, on its own state after a poll. The end of its `with` frees it."},
    {"play", METHOD(agent_play), METH_VARARGS | METH_KEYWORDS,
        "play($self, rule, /, *, tries=None, timeout=None)\n--\n\n"
        "Play a rule until it fires: begin a step, play the rule on it, commit it; on a conflict, begin again.\n\n"
        "Return the number of the move and what the rule returned; `.retries` is the number of failed tries. A rule that writes nothing\n"
        "fires nothing, and the number is 0. A rule that commits its step by itself ends the play with that move. After `tries` tries, or the first one that ends after `timeout` seconds, the last\n"
        "`ConflictError` is raised. What the rule raises ends the play, which fires nothing; so does `FullError`. Between failed tries\n"
        "other threads run."},
    {"give", (PyCFunction)agent_return, METH_NOARGS, "give($self, /)\n--\n\nReturn it to its storage."},
    {"free", (PyCFunction)agent_free, METH_NOARGS, "free($self, /)\n--\n\nRelease it, as `abandon` does; releasing again has no effect."},
    {"abandon", (PyCFunction)agent_free, METH_NOARGS,
        "abandon($self, /)\n--\n\n"
        "Release it without returning it: its moves stay, and each journal of its storage raises `MissingError`."},
    {"read", (PyCFunction)agent_read, METH_O,
        "read($self, places, /)\n--\n\nReturn the number of moves, and the values of the locations after them.\n\n"
        "Raises:\n"
        "    ManyError: there are more than 256 locations."},
    {"fire", METHOD(agent_fire), METH_VARARGS | METH_KEYWORDS,
        "fire($self, instructions, reads=(), scans=())\n--\n\nFire a move that depends on reads and scans, and return its number.\n\n"
        "A read is a pair of a location and a number, a scan a pair of a function's name and a number: the number of moves after which\n"
        "it was read.\n\n"
        "Raises:\n"
        "    StaleError: one of the locations, or any location of one of the functions, was written since its number.\n"
        "    ClashError: the updates clash.\n"
        "    FullError: the number of fired moves has reached the capacity.\n"
        "    BusyError: 64 attempts to append were lost to other agents.\n"
        "    ManyError: there are more than 256 reads and scans.\n"
        "    Error: a number is above what the agent has seen; the code is AHEAD."},
    {"answer", (PyCFunction)agent_answer, METH_NOARGS, "answer($self, /)\n--\n\nReturn the answer to the last answered call."},
    {"learn", (PyCFunction)agent_learn, METH_O,
        "learn($self, other, /)\n--\n\nLearn what another agent of the storage has seen."},
    {"follow", (PyCFunction)agent_follow, METH_NOARGS,
        "follow($self, /)\n--\n\nPoll until nothing more is found, and advance its own state. Return how many moves it has seen."},
    {"peek", (PyCFunction)agent_peek, METH_O,
        "peek($self, places, /)\n--\n\n"
        "Return the version of its own state, and the values of the locations there; of a `Location` its value."},
    {"state", (PyCFunction)agent_state, METH_NOARGS,
        "state($self, /)\n--\n\nReturn the version of its own state, and that state: pairs of a location and a value, ascending."},
    {"scan", (PyCFunction)agent_scan, METH_O,
        "scan($self, name, /)\n--\n\n"
        "Return the same with only the locations of one function name. A fire with the scan also detects new locations."},
    {"stands", (PyCFunction)agent_stands, METH_O,
        "stands($self, reads, /)\n--\n\nPoll; return the smallest named location that was written since its number of moves, or None."},
    {"go_on", METHOD(agent_go_on), METH_VARARGS | METH_KEYWORDS,
        "go_on($self, capacity=4096, journal=None)\n--\n\n"
        "Return a storage that opens with its own state, which must have as many moves as its storage has room for.\n\n"
        "This requires no journal and no other agent.\n\n"
        "Raises:\n"
        "    Error: its own state has fewer moves; the code is NOT_FULL."},
    {"_fire", (PyCFunction)agent_fire_texts, METH_VARARGS, NULL},
    {"_state_text", (PyCFunction)agent_state_text, METH_NOARGS, NULL},
    {"_check_out", (PyCFunction)agent_check_out, METH_NOARGS, NULL},
    {"_try_return", (PyCFunction)agent_try_return, METH_O, NULL},
    {"_counts", (PyCFunction)agent_count_pair, METH_NOARGS, NULL},
    {"_newest_state", (PyCFunction)agent_newest_state, METH_NOARGS, NULL},
    {"__exit__", METHOD(agent_exit), METH_FASTCALL, NULL},
    {0},
};
static PyGetSetDef gets[] = {
    {"_is_full", (getter)agent_is_full, NULL, NULL, NULL},
    {"_storage", (getter)agent_storage, NULL, NULL, NULL},
    {"number", (getter)agent_number, NULL, "Its number among the agents of its storage.", NULL},
    {"seen", (getter)agent_seen, NULL, "How many moves it has seen.", NULL},
    {"won", (getter)agent_won, NULL, "How many moves it fired.", NULL},
    {"misses", (getter)agent_misses, NULL, "How many polls found no move.", NULL},
    {0},
};
static PyMemberDef members[] = {
    {"__weaklistoffset__", T_PYSSIZET, offsetof(Holder, weak), READONLY, NULL},
    {"_thread", T_ULONG, offsetof(Agent, thread), READONLY, NULL},
    {"_base", T_ULONGLONG, offsetof(Agent, base), 0, NULL},
    {"_is_withdrawn", T_BOOL, offsetof(Agent, is_withdrawn), 0, NULL},
    {0},
};
static PyType_Slot slots[] = {
    {Py_tp_doc, "Agent(storage, number)\n--\n\n"
                "An agent of a storage. The end of a `with` returns it to the storage, also after an exception.\n\n"
                "It reads and fires: the journal records each such call that is answered. Or it works in steps: of a step, the journal records\n"
                "only the fire. Its own state follows the moves of all agents in `follow`, `stands`, `step` and `read`; of other calls only a\n"
                "fire advances it. `peek`, `state` and `scan` return what it has, without a poll, and leave no receipt."},
    {Py_tp_new, agent_new}, {Py_tp_dealloc, agent_dealloc}, {Py_tp_traverse, agent_traverse}, {Py_tp_methods, methods},
    {Py_tp_members, members}, {Py_tp_getset, gets}, {Py_tp_repr, agent_repr}, {0}};
PyType_Spec agent_spec = {"folugben.Agent", sizeof(Agent), 0, Py_TPFLAGS_DEFAULT | Py_TPFLAGS_BASETYPE | Py_TPFLAGS_HAVE_GC, slots};
