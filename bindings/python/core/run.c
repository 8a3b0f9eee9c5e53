/* Runs in a folder: which names and texts are theirs, and which call of the system comes next. */
#include "core.h"

typedef struct {
    Holder holder;
} Run;
#define RUN_SLOT(self) ((struct asm_run *)SLOT(self))
#define WIDE(it) ((unsigned long long)(it))

static PyObject *run_new(PyTypeObject *type, PyObject *Py_UNUSED(words), PyObject *Py_UNUSED(named))
{
    Run *self = holder_new(type, core_of(type));
    if (self && asm_run_open(RUN_SLOT(self)) != ASM_DONE) {
        Py_DECREF(self);
        return PyErr_NoMemory();
    }
    return (PyObject *)self;
}

static PyObject *refuse_run(Run *self, int32_t code)
{
    return refuse(self->holder.core, code, "freed_object", "(s)", "run");
}

/* Returns the code of a call, which the caller explains. */
static PyObject *code_of(int32_t code)
{
    return code == ASM_MEMORY ? PyErr_NoMemory() : PyLong_FromLong(code);
}

/* Takes the next name, of a text of this length; returns the code, number, first, moves and events. */
static PyObject *run_name(Run *self, PyObject *words)
{
    const char *name;
    Py_ssize_t len;
    unsigned long long bytes;
    asm_segment found = {0};
    if (!PyArg_ParseTuple(words, "y#K", &name, &len, &bytes) || UNREADY(&self->holder))
        return NULL;
    int32_t code = asm_run_name(RUN_SLOT(self), (const uint8_t *)name, (size_t)len, bytes, &found);
    return code == ASM_MEMORY ? PyErr_NoMemory()
                              : Py_BuildValue("iKKKK", (int)code, WIDE(found.number), WIDE(found.first), WIDE(found.moves), WIDE(found.events));
}

static PyObject *run_text(Run *self, PyObject *chunk)
{
    Py_buffer text;
    int32_t code;
    if (PyObject_GetBuffer(chunk, &text, PyBUF_SIMPLE))
        return NULL;
    if (UNREADY(&self->holder)) {
        PyBuffer_Release(&text);
        return NULL;
    }
    CALL(code, &self->holder, text.len > LONG_TEXT, asm_run_text(RUN_SLOT(self), text.buf, (size_t)text.len));
    PyBuffer_Release(&text);
    return code_of(code);
}

/* Ends the text; returns the code, and the numbers of parts, calls and moves. */
static PyObject *run_end(Run *self, PyObject *Py_UNUSED(none))
{
    asm_audit_numbers numbers = {0};
    if (UNREADY(&self->holder))
        return NULL;
    int32_t code = asm_run_end(RUN_SLOT(self), &numbers);
    return code == ASM_MEMORY ? PyErr_NoMemory()
                              : Py_BuildValue("iKKK", (int)code, WIDE(numbers.parts), WIDE(numbers.calls), WIDE(numbers.moves));
}

/* Begins to save a text of so many moves and events; returns the code and the name. */
static PyObject *run_hand(Run *self, PyObject *words)
{
    unsigned long long moves, events;
    Py_buffer text;
    int32_t code;
    Room room;
    if (!PyArg_ParseTuple(words, "KKy*", &moves, &events, &text))
        return NULL;
    if (UNREADY(&self->holder)) {
        PyBuffer_Release(&text);
        return NULL;
    }
    room_begin(&room);
    RUN(&self->holder, text.len > LONG_TEXT,
        WITH_ROOM(code, &room, asm_run_hand(RUN_SLOT(self), moves, events, text.buf, (size_t)text.len, ROOM(&room))));
    PyBuffer_Release(&text);
    PyObject *result = code == ASM_MEMORY ? PyErr_NoMemory() : Py_BuildValue("is#", (int)code, room.at, (Py_ssize_t)room.written);
    room_end(&room);
    return result;
}

static PyObject *run_state(Run *self, PyObject *Py_UNUSED(none))
{
    int32_t code;
    Room room;
    if (UNREADY(&self->holder))
        return NULL;
    room_begin(&room);
    RUN(&self->holder, 1, WITH_ROOM(code, &room, asm_run_state(RUN_SLOT(self), ROOM(&room))));
    PyObject *result = code == ASM_DONE ? PyBytes_FromStringAndSize((char *)room.at, (Py_ssize_t)room.written) : NULL;
    if (code == ASM_NO_PART)
        refuse(self->holder.core, code, "no_part", "(i)", (int)code);
    else if (code != ASM_DONE)
        refuse_run(self, code);
    room_end(&room);
    return result;
}

/* Begins to drop the oldest segment; returns the code and the number. */
static PyObject *run_drop(Run *self, PyObject *Py_UNUSED(none))
{
    uint64_t number = 0;
    if (UNREADY(&self->holder))
        return NULL;
    int32_t code = asm_run_drop(RUN_SLOT(self), &number);
    return Py_BuildValue("iK", (int)code, WIDE(number));
}

/* Returns what is saved: the number of the oldest segment, how many segments and moves there are, and the last digest. */
static PyObject *run_saved(Run *self, PyObject *Py_UNUSED(none))
{
    asm_run_numbers saved;
    int32_t code;
    Room room;
    if (UNREADY(&self->holder))
        return NULL;
    room_begin(&room);
    WITH_ROOM(code, &room, asm_run_saved(RUN_SLOT(self), &saved, ROOM(&room)));
    PyObject *result = code == ASM_DONE ? Py_BuildValue("KKKs#", WIDE(saved.first), WIDE(saved.segments), WIDE(saved.moves), room.at,
                                              (Py_ssize_t)room.written)
                                        : refuse_run(self, code);
    room_end(&room);
    return result;
}

static PyObject *run_request(Run *self, PyObject *Py_UNUSED(none))
{
    int32_t request;
    if (UNREADY(&self->holder))
        return NULL;
    int32_t code = asm_run_request(RUN_SLOT(self), &request);
    return code == ASM_DONE ? PyLong_FromLong(request) : refuse_run(self, code);
}

#define RUN_CALL(name)                                            \
    static PyObject *run_##name(Run *self, PyObject *Py_UNUSED(none)) \
    {                                                             \
        return UNREADY(&self->holder) ? NULL : code_of(asm_run_##name(RUN_SLOT(self))); \
    }
RUN_CALL(skip)
RUN_CALL(read)
RUN_CALL(done)
RUN_CALL(failed)

static PyMethodDef run_methods[] = {
    HOLDER_METHODS,
    {"name", (PyCFunction)run_name, METH_VARARGS, NULL},
    {"text", (PyCFunction)run_text, METH_O, NULL},
    {"end", (PyCFunction)run_end, METH_NOARGS, NULL},
    {"skip", (PyCFunction)run_skip, METH_NOARGS, NULL},
    {"state", (PyCFunction)run_state, METH_NOARGS, NULL},
    {"read", (PyCFunction)run_read, METH_NOARGS, NULL},
    {"hand", (PyCFunction)run_hand, METH_VARARGS, NULL},
    {"drop", (PyCFunction)run_drop, METH_NOARGS, NULL},
    {"request", (PyCFunction)run_request, METH_NOARGS, NULL},
    {"done", (PyCFunction)run_done, METH_NOARGS, NULL},
    {"failed", (PyCFunction)run_failed, METH_NOARGS, NULL},
    {"saved", (PyCFunction)run_saved, METH_NOARGS, NULL},
    {"free", (PyCFunction)holder_free, METH_NOARGS, NULL},
    {"__exit__", METHOD(holder_exit), METH_FASTCALL, NULL},
    {0},
};
static PyType_Slot run_slots[] = {{Py_tp_new, run_new}, {Py_tp_dealloc, holder_dealloc}, {Py_tp_methods, run_methods},
    {Py_tp_members, holder_members}, {Py_tp_getset, holder_getters}, {0}};
PyType_Spec run_spec = {"folugben._core.RunCore", sizeof(Run), 0, Py_TPFLAGS_DEFAULT, run_slots};
