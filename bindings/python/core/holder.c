/* Who may call, forks, the interpreter's lock, and what all types have. */
#include <pthread.h>
#include <sched.h>
#include <stdarg.h>
#include <stdlib.h>

#include "core.h"

unsigned forks;

static void in_child(void)
{
    forks++;
}

static void watch(void)
{
    pthread_atfork(NULL, NULL, in_child);
}

void watch_forks(void)
{
    static pthread_once_t once = PTHREAD_ONCE_INIT;
    pthread_once(&once, watch);
}

/* Calls a Python function that raises the error of a code; the format is that of a tuple. */
PyObject *refuse(Core *core, int32_t code, const char *how, const char *format, ...)
{
    if (code == ASM_MEMORY)
        return PyErr_NoMemory();
    va_list words;
    va_start(words, format);
    PyObject *its = Py_VaBuildValue(format, words);
    va_end(words);
    PyObject *call = its ? PyObject_GetAttrString(core->refusals, how) : NULL;
    PyObject *result = call ? PyObject_CallObject(call, its) : NULL;
    if (result)
        PyErr_Format(PyExc_SystemError, "folugben: code %d wasn't refused by %s", (int)code, how);
    Py_XDECREF(result);
    Py_XDECREF(call);
    Py_XDECREF(its);
    return NULL;
}

int unready(Holder *holder)
{
    if (holder->born != forks) {
        refuse(holder->core, ASM_EMPTY, "forked_object", "()");
        return -1;
    }
    while (holder->is_busy) {
        holder->waiters++;
        PyThreadState *was = PyEval_SaveThread();
        PyThread_acquire_lock(holder->lock, WAIT_LOCK);
        PyEval_RestoreThread(was);
        PyThread_release_lock(holder->lock);
        holder->waiters--;
    }
    return 0;
}

/* Begins and ends a call without the interpreter's lock. A thread that holds a slot's lock has the interpreter's too, is in
 * such a call, or waits for the interpreter's: so nobody waits for a slot's lock while it holds the interpreter's. A lock that
 * is released and immediately acquired again would starve those that wait, so they come first. Without memory for the lock the
 * interpreter's isn't released. */
PyThreadState *begin_long_call(Holder *holder)
{
    if (!holder->lock && !(holder->lock = PyThread_allocate_lock()))
        return NULL;
    while (holder->waiters || !PyThread_acquire_lock(holder->lock, NOWAIT_LOCK)) {
        PyThreadState *was = PyEval_SaveThread();
        sched_yield();
        PyEval_RestoreThread(was);
    }
    holder->is_busy = 1;
    return PyEval_SaveThread();
}

void end_long_call(Holder *holder, PyThreadState *was)
{
    PyEval_RestoreThread(was);
    holder->is_busy = 0;
    PyThread_release_lock(holder->lock);
}

void room_begin(Room *room)
{
    room->at = room->own;
    room->room = sizeof room->own;
    room->written = 0;
}

void room_end(Room *room)
{
    if (room->at != room->own)
        free(room->at);
}

/* Makes room for what the last call needed. Returns whether there is room; otherwise the code is that of refused memory. */
int room_grow(Room *room, int32_t *code)
{
    size_t wanted = room->written > 2 * room->room ? room->written : 2 * room->room;
    uint8_t *at = malloc(wanted);
    if (!at) {
        *code = ASM_MEMORY;
        return 0;
    }
    room_end(room);
    room->at = at;
    room->room = wanted;
    return 1;
}

/* The state of the module of a type, or of the type that it is derived from. */
Core *core_of(PyTypeObject *type)
{
    Core *core = NULL;
    while (type && !(core = PyType_GetModuleState(type))) {
        PyErr_Clear();
        type = PyType_GetSlot(type, Py_tp_base);
    }
    return core;
}

void *holder_new(PyTypeObject *type, Core *core)
{
    Holder *holder = (Holder *)PyType_GenericAlloc(type, 0);
    if (holder) {
        holder->core = core;
        holder->born = forks;
    }
    return holder;
}

void holder_dealloc(void *it)
{
    Holder *holder = it;
    PyTypeObject *type = Py_TYPE((PyObject *)holder);
    if (holder->weak)
        PyObject_ClearWeakRefs((PyObject *)holder);
    if (holder->born == forks)
        asm_free(&holder->slot);
    if (holder->lock)
        PyThread_free_lock(holder->lock);
    freefunc release = (freefunc)PyType_GetSlot(type, Py_tp_free);
    release(holder);
    Py_DECREF(type);
}

PyObject *holder_self(PyObject *self, PyObject *Py_UNUSED(none))
{
    return Py_NewRef(self);
}

/* A copy would have the same slot, and release it. */
PyObject *holder_reduce(PyObject *self, PyObject *Py_UNUSED(none))
{
    PyObject *name = PyType_GetName(Py_TYPE(self));
    PyErr_Format(PyExc_TypeError, "cannot copy or pickle %R object", name);
    Py_XDECREF(name);
    return NULL;
}

PyObject *holder_free(Holder *self, PyObject *Py_UNUSED(none))
{
    if (UNREADY(self))
        return NULL;
    asm_free(&self->slot);
    return Py_NewRef(Py_None);
}

PyObject *holder_exit(Holder *self, PyObject *const *Py_UNUSED(words), Py_ssize_t Py_UNUSED(count))
{
    return holder_free(self, NULL);
}

static PyObject *holder_is_full(Holder *self, void *Py_UNUSED(none))
{
    return PyBool_FromLong(self->slot.full);
}

PyGetSetDef holder_getters[] = {{"_is_full", (getter)holder_is_full, NULL, NULL, NULL}, {0}};
PyMemberDef holder_members[] = {{"__weaklistoffset__", T_PYSSIZET, offsetof(Holder, weak), READONLY, NULL}, {0}};

/* An integer from the smallest to the largest allowed; `what` names it in the error about another one. */
int number_of(Core *core, PyObject *value, const char *what, uint32_t least, uint32_t most, uint32_t *number)
{
    PyObject *index = PyNumber_Index(value);
    if (!index)
        return -1;
    int is_over;
    long long integer = PyLong_AsLongLongAndOverflow(index, &is_over);
    if (is_over || integer < least || integer > most)
        refuse(core, ASM_OPERAND, "out_of_range", "(sOII)", what, index, (unsigned)least, (unsigned)most);
    else
        *number = (uint32_t)integer;
    Py_DECREF(index);
    return PyErr_Occurred() ? -1 : 0;
}
