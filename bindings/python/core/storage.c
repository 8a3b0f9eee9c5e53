/* Storages. */
#include "core.h"

/* Raises the error of the code of a call on it. */
PyObject *refuse_storage(Storage *self, int32_t code)
{
    if (code == ASM_EMPTY && !IS_FULL(self))
        return refuse(self->holder.core, code, "freed_object", "(s)", "storage");
    return refuse(self->holder.core, code, "expect", "(i)", (int)code);
}

static PyObject *storage_new(PyTypeObject *type, PyObject *Py_UNUSED(words), PyObject *Py_UNUSED(named))
{
    Storage *self = holder_new(type, core_of(type));
    if (self)
        self->closed = -1;
    return (PyObject *)self;
}

/* Stores where its journal must be written. */
static int storage_set_journal(Storage *self, PyObject *journal)
{
    if (self->is_made) {
        PyErr_SetString(PyExc_TypeError, "this Storage was made before");
        return -1;
    }
    self->is_made = 1;
    self->journal = journal && journal != Py_None ? PyOS_FSPath(journal) : NULL;
    return PyErr_Occurred() ? -1 : 0;
}

static int storage_init(Storage *self, PyObject *words, PyObject *named)
{
    static char *names[] = {"init", "capacity", "journal", "record", NULL};
    Core *core = self->holder.core;
    PyObject *init = NULL, *most = NULL, *journal = NULL;
    uint32_t capacity = 4096;
    int records = 0;
    Text text;
    if (!PyArg_ParseTupleAndKeywords(words, named, "|OOO$p", names, &init, &most, &journal, &records) || storage_set_journal(self, journal))
        return -1;
    self->records = (char)records;
    PyObject *pairs = !init ? PyList_New(0) : PyDict_Check(init) ? PyMapping_Items(init) : PySequence_List(init);
    int failed = !pairs || write_named(core, &text, pairs, "init");
    Py_XDECREF(pairs);
    if (failed)
        return -1;
    int32_t code = ASM_DONE;
    failed = (most && number_of(core, most, "capacity", 1, CAPACITY, &capacity)) || UNREADY(&self->holder);
    if (!failed) {
        CALL(code, &self->holder, IS_LONG(&text), asm_open(BYTES(&text), capacity, SLOT(self)));
        if (code != ASM_DONE)
            refuse(core, code, "read", "(iiy#)", (int)code, ASM_FORM_STATE, text.at, (Py_ssize_t)text.len);
    }
    text_end(&text);
    return failed || code != ASM_DONE ? -1 : 0;
}

/* A storage that opens with a state that is a text; a third argument says whether it records. */
static PyObject *storage_open_text(PyTypeObject *type, PyObject *words)
{
    const uint8_t *text;
    Py_ssize_t len;
    unsigned capacity;
    int32_t code;
    int records = 0;
    if (!PyArg_ParseTuple(words, "y#I|p", &text, &len, &capacity, &records))
        return NULL;
    Storage *self = (Storage *)storage_new(type, NULL, NULL);
    if (!self || storage_set_journal(self, NULL)) {
        Py_XDECREF((PyObject *)self);
        return NULL;
    }
    self->records = (char)records;
    CALL(code, &self->holder, 1, asm_open(text, (size_t)len, capacity, SLOT(self)));
    if (code == ASM_DONE)
        return (PyObject *)self;
    refuse(self->holder.core, code, "read", "(iiy#)", (int)code, ASM_FORM_STATE, text, len);
    Py_DECREF((PyObject *)self);
    return NULL;
}

/* A storage whose slot is empty, and its capacity, of the arguments (capacity, journal) of a call that opens it after another.
 * It records if that one does. */
Storage *storage_next_of(const Storage *behind, PyObject *words, PyObject *named, uint32_t *capacity)
{
    static char *names[] = {"capacity", "journal", NULL};
    PyObject *most = NULL, *journal = NULL;
    *capacity = 4096;
    if (!PyArg_ParseTupleAndKeywords(words, named, "|OO", names, &most, &journal) ||
        (most && number_of(behind->holder.core, most, "capacity", 1, CAPACITY, capacity)))
        return NULL;
    Storage *next = (Storage *)storage_new(behind->holder.core->storage, NULL, NULL);
    if (next && storage_set_journal(next, journal))
        Py_CLEAR(next);
    if (next)
        next->records = behind->records;
    return next;
}

static PyObject *storage_agent(Storage *self, PyObject *number)
{
    return new_agent(self, number, 0);
}

static PyObject *storage_take(Storage *self, PyObject *number)
{
    return new_agent(self, number, 1);
}

static PyObject *storage_moves(Storage *self, PyObject *Py_UNUSED(none))
{
    uint32_t moves;
    if (UNREADY(&self->holder))
        return NULL;
    int32_t code = asm_moves(SLOT(self), &moves);
    return code == ASM_DONE ? PyLong_FromUnsignedLong(moves) : refuse_storage(self, code);
}

static PyObject *storage_give(Storage *self, PyObject *it)
{
    Core *core = self->holder.core;
    if (!PyObject_TypeCheck(it, core->agent))
        return refuse(core, ASM_EMPTY, "no_agent", "(sO)", "a storage accepts an agent", it);
    Agent *agent = (Agent *)it;
    if (agent->storage != self)
        return refuse(core, ASM_OTHER, "expect", "(i)", ASM_OTHER);
    do
        if (UNREADY(&agent->holder) || UNREADY(&self->holder))
            return NULL;
    while (ODD(agent->holder.is_busy | self->holder.is_busy));
    int32_t code = agent_give(agent);
    if (code == ASM_DONE)
        return Py_NewRef(Py_None);
    return IS_FULL(self) ? refuse_agent(agent, code) : refuse_storage(self, code);
}

/* The error of a close: the numbers of the agents that fired and weren't returned are collected before any object is made. */
static PyObject *refuse_missing(Storage *self, uint32_t move)
{
    uint8_t at_work[AGENTS];
    Py_ssize_t count = 0;
    for (Agent *it = self->first; it && count < AGENTS; it = it->next)
        if (it->holder.is_busy || asm_won(SLOT(it)))
            at_work[count++] = (uint8_t)it->own;
    return refuse(self->holder.core, ASM_MISSING, "missing", "(Iy#i)", (unsigned)move, at_work, count, self->is_abandoned);
}

/* Closes it. The number of moves that the journal has are those before, as a move that is fired meanwhile may not be in it. */
static int32_t close_all(Storage *self, uint32_t *move)
{
    uint32_t moves = 0;
    int32_t code = asm_moves(SLOT(self), &moves);
    if (code == ASM_DONE)
        code = asm_close(SLOT(self), move);
    self->closed = code == ASM_DONE ? (int64_t)moves : -1;
    return code;
}

/* Closes it, and returns the number of the missing move, 0 if none is missing. */
static PyObject *storage_close(Storage *self, PyObject *Py_UNUSED(none))
{
    uint32_t move = 0;
    int32_t code;
    if (UNREADY(&self->holder))
        return NULL;
    CALL(code, &self->holder, 1, close_all(self, &move));
    return code == ASM_DONE || code == ASM_MISSING ? PyLong_FromUnsignedLong(move) : refuse_storage(self, code);
}

/* The slot is busy from the close to the end of the journal, so nobody comes between them. */
static int32_t journal_of(Storage *self, uint32_t *move, PyObject **result)
{
    uint8_t none[1];
    size_t room = 0, written = 0;
    PyThreadState *was = begin_long_call(&self->holder);
    int32_t code = close_all(self, move);
    if (code == ASM_DONE && (code = asm_journal(SLOT(self), none, room, &written)) == ASM_SMALL) {
        if (was)
            PyEval_RestoreThread(was);
        *result = PyBytes_FromStringAndSize(NULL, (Py_ssize_t)(room = written));
        uint8_t *out = *result ? (uint8_t *)PyBytes_AsString(*result) : none;
        was = was ? PyEval_SaveThread() : NULL;
        code = *result ? asm_journal(SLOT(self), out, room, &written) : ASM_MEMORY;
    }
    if (was)
        end_long_call(&self->holder, was);
    return code;
}

static PyObject *storage_close_journal(Storage *self, PyObject *Py_UNUSED(none))
{
    uint32_t move = 0;
    PyObject *result = NULL;
    if (UNREADY(&self->holder))
        return NULL;
    int32_t code = journal_of(self, &move, &result);
    if (code == ASM_DONE)
        return result;
    Py_XDECREF(result);
    return code == ASM_MISSING ? refuse_missing(self, move) : refuse_storage(self, code);
}

static PyObject *storage_next(Storage *self, PyObject *words, PyObject *named)
{
    uint32_t capacity, moves = 0;
    int32_t code;
    Storage *next = storage_next_of(self, words, named, &capacity);
    if (!next || UNREADY(&self->holder)) {
        Py_XDECREF((PyObject *)next);
        return NULL;
    }
    CALL(code, &self->holder, 1, asm_next(SLOT(self), capacity, SLOT(next)));
    if (code == ASM_DONE)
        code = asm_moves(SLOT(self), &moves);
    if (code != ASM_DONE)
        refuse_storage(self, code);
    else if (moves == self->closed)
        return (PyObject *)next;
    else
        refuse(self->holder.core, ASM_NO_JOURNAL, "journal_behind", "(IL)", (unsigned)moves, (long long)self->closed);
    Py_DECREF((PyObject *)next);
    return NULL;
}

/* Releases it, and the agent that reads for it. */
static void drop(Storage *self)
{
    asm_free(&self->reader);
    asm_free(SLOT(self));
}

static PyObject *storage_free(Storage *self, PyObject *Py_UNUSED(none))
{
    if (UNREADY(&self->holder))
        return NULL;
    drop(self);
    return Py_NewRef(Py_None);
}

static PyObject *storage_exit(Storage *self, PyObject *const *words, Py_ssize_t count)
{
    Core *core = self->holder.core;
    if (!self->journal || !IS_FULL(self) || self->holder.born != forks)
        return storage_free(self, NULL);
    PyObject *error = count > 1 ? words[1] : Py_None;
    PyObject *result = PyObject_CallMethod(core->refusals, "leave", "OOO", (PyObject *)self, self->journal, error);
    /* It is released in any case; what was raised stays raised. */
    if (!self->holder.is_busy)
        drop(self);
    return result;
}

static PyObject *storage_repr(Storage *self)
{
    if (!IS_FULL(self))
        return PyUnicode_FromString("<Storage, freed>");
    PyObject *moves = storage_moves(self, NULL), *result = moves ? PyUnicode_FromFormat("<Storage, %S moves>", moves) : NULL;
    Py_XDECREF(moves);
    return result;
}

static void storage_dealloc(Storage *self)
{
    Py_XDECREF(self->journal);
    if (self->holder.born == forks)
        asm_free(&self->reader);
    holder_dealloc(self);
}

static PyMethodDef methods[] = {
    HOLDER_METHODS,
    {"agent", (PyCFunction)storage_agent, METH_O,
        "agent($self, number, /)\n--\n\nReturn a new agent with this number, below 256."},
    {"take", (PyCFunction)storage_take, METH_O,
        "take($self, number, /)\n--\n\n"
        "Return the agent with this number that was returned to the storage, with its receipts and what it has seen.\n\n"
        "A journal that was closed before is dropped.\n\n"
        "Raises:\n"
        "    Error: no such agent was returned; the code is NO_AGENT."},
    {"moves", (PyCFunction)storage_moves, METH_NOARGS, "moves($self, /)\n--\n\nReturn how many moves were fired on it."},
    {"state", (PyCFunction)storage_state, METH_NOARGS,
        "state($self, /)\n--\n\n"
        "Return how many moves were fired, and the state after them: pairs of a location and a value, ascending.\n\n"
        "`storage[location]` returns one value. The first of these calls makes an agent that reads for the storage. It has the\n"
        "greatest number that isn't in use, until `agent` is asked for that number."},
    {"run", METHOD(storage_run), METH_VARARGS | METH_KEYWORDS,
        "run($self, rule, /, workers=1, times=1)\n--\n\n"
        "Play a rule `times` times on each of `workers` threads. Return how many moves were fired meanwhile.\n\n"
        "The workers' agents have the smallest numbers that nobody has, and are returned at the end.\n\n"
        "Raises:\n"
        "    the first error of a rule, once all workers have ended."},
    {"give", (PyCFunction)storage_give, METH_O, "give($self, agent, /)\n--\n\nReturn an agent to the storage."},
    {"close_journal", (PyCFunction)storage_close_journal, METH_NOARGS,
        "close_journal($self, /)\n--\n\nReturn the journal of the agents that were returned, as bytes.\n\n"
        "Raises:\n"
        "    MissingError: a move has no receipt among these agents."},
    {"next", METHOD(storage_next), METH_VARARGS | METH_KEYWORDS,
        "next($self, capacity=4096, journal=None)\n--\n\n"
        "Return a storage that opens with the state at the end of this one, and has new agents.\n\n"
        "That state is the one after the moves of the closed journal. The journals of both, one after the other, are one run.\n\n"
        "Raises:\n"
        "    Error: an agent was returned, or a move was fired, since the last journal; the code is NO_JOURNAL."},
    {"free", (PyCFunction)storage_free, METH_NOARGS, "free($self, /)\n--\n\nRelease it; releasing again has no effect."},
    {"_open_text", (PyCFunction)storage_open_text, METH_VARARGS | METH_CLASS, NULL},
    {"_close", (PyCFunction)storage_close, METH_NOARGS, NULL},
    {"__exit__", METHOD(storage_exit), METH_FASTCALL, NULL},
    {0},
};
static PyMemberDef members[] = {
    {"__weaklistoffset__", T_PYSSIZET, offsetof(Holder, weak), READONLY, NULL},
    {"record", T_BOOL, offsetof(Storage, records), READONLY, "Whether the commits of its agents record the tracked reads of their steps."},
    {0},
};
static PyType_Slot slots[] = {
    {Py_tp_doc, "Storage(init=(), capacity=4096, journal=None, *, record=False)\n--\n\n"
                "A storage for `capacity` moves. It opens with a state: a dict of values by location, or pairs of the two.\n\n"
                "`storage[location]` is the present value there.\n\n"
                "If `journal` names a file, the end of the `with` writes the journal there, also after an exception. All agents must be\n"
                "returned before.\n\n"
                "With `record` each commit also records the tracked reads of its step, as a read before the fire, and `check` validates them.\n"
                "The journal never records what scans returned, nor what a step read that is stale by then. `next` and `go_on` open a storage\n"
                "with the same `record`."},
    {Py_tp_new, storage_new}, {Py_tp_init, storage_init}, {Py_tp_dealloc, storage_dealloc}, {Py_tp_methods, methods},
    {Py_mp_subscript, storage_at}, {Py_tp_members, members}, {Py_tp_getset, holder_getters}, {Py_tp_repr, storage_repr}, {0}};
PyType_Spec storage_spec = {"folugben.Storage", sizeof(Storage), 0, Py_TPFLAGS_DEFAULT | Py_TPFLAGS_BASETYPE, slots};
