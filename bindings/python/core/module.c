/* The module, the calls that need no slot, and audits: runs of any length, checked as their bytes arrive. */
#include "core.h"

typedef struct {
    Holder holder;
    PyObject *unread; /* fed bytes that are left after refused memory */
} Audit;

static PyObject *audit_new(PyTypeObject *type, PyObject *Py_UNUSED(words), PyObject *Py_UNUSED(named))
{
    return holder_new(type, core_of(type));
}

static PyObject *numbers_of(int32_t code, const asm_audit_numbers *numbers)
{
    return Py_BuildValue("iKKK", (int)code, (unsigned long long)numbers->parts, (unsigned long long)numbers->calls, (unsigned long long)numbers->moves);
}

/* Reads bytes after those that are left; writes the code and the numbers. */
static PyObject *audit_feed(Audit *self, PyObject *chunk)
{
    asm_audit_numbers numbers;
    int32_t code;
    size_t consumed;
    if (!PyBytes_Check(chunk)) {
        PyErr_SetString(PyExc_TypeError, "an audit takes bytes");
        return NULL;
    }
    if (UNREADY(&self->holder))
        return NULL;
    PyObject *unread = self->unread, *all = unread ? PySequence_Concat(unread, chunk) : Py_NewRef(chunk);
    if (!all)
        return NULL;
    self->unread = NULL;
    Py_XDECREF(unread);
    const char *at = PyBytes_AsString(all);
    size_t len = (size_t)PyBytes_Size(all);
    CALL(code, &self->holder, len > LONG_TEXT, asm_audit(SLOT(self), (const uint8_t *)at, len, &consumed, &numbers));
    if (code == ASM_MEMORY)
        self->unread = consumed ? PyBytes_FromStringAndSize(at + consumed, (Py_ssize_t)(len - consumed)) : Py_NewRef(all);
    Py_DECREF(all);
    if (code == ASM_MEMORY)
        return PyErr_NoMemory();
    /* If no further byte came, the report would be about the part that contains the long line. */
    if (code == ASM_LONG_LINE && asm_audited(SLOT(self), &numbers) == ASM_MEMORY)
        return PyErr_NoMemory();
    return numbers_of(code, &numbers);
}

static PyObject *audit_numbers(Audit *self, PyObject *Py_UNUSED(none))
{
    asm_audit_numbers numbers;
    if (UNREADY(&self->holder))
        return NULL;
    int32_t code = asm_audited(SLOT(self), &numbers);
    return code == ASM_MEMORY ? PyErr_NoMemory() : numbers_of(code, &numbers);
}

static PyObject *audit_state(Audit *self, PyObject *Py_UNUSED(none))
{
    int32_t code;
    Room room;
    if (UNREADY(&self->holder))
        return NULL;
    room_begin(&room);
    RUN(&self->holder, 1, WITH_ROOM(code, &room, asm_audit_state(SLOT(self), ROOM(&room))));
    PyObject *result = code == ASM_DONE ? PyBytes_FromStringAndSize((char *)room.at, (Py_ssize_t)room.written) : NULL;
    if (code != ASM_DONE)
        refuse(self->holder.core, code, "no_part", "(i)", (int)code);
    room_end(&room);
    return result;
}

static void audit_dealloc(Audit *self)
{
    Py_XDECREF(self->unread);
    holder_dealloc(self);
}

static PyMethodDef audit_methods[] = {
    HOLDER_METHODS,
    {"_feed", (PyCFunction)audit_feed, METH_O, NULL},
    {"_numbers", (PyCFunction)audit_numbers, METH_NOARGS, NULL},
    {"_state", (PyCFunction)audit_state, METH_NOARGS, NULL},
    {"free", (PyCFunction)holder_free, METH_NOARGS, "free($self, /)\n--\n\nRelease it; releasing again has no effect."},
    {"__exit__", METHOD(holder_exit), METH_FASTCALL, NULL},
    {0},
};
static PyType_Slot audit_slots[] = {{Py_tp_new, audit_new}, {Py_tp_dealloc, audit_dealloc}, {Py_tp_methods, audit_methods},
    {Py_tp_members, holder_members}, {Py_tp_getset, holder_getters}, {0}};
PyType_Spec audit_spec = {"folugben._core.Audit", sizeof(Audit), 0, Py_TPFLAGS_DEFAULT | Py_TPFLAGS_BASETYPE, audit_slots};

/* Imports the Python module whose functions raise errors. */
static PyObject *core_use(PyObject *module, PyObject *refusals)
{
    Core *core = PyModule_GetState(module);
    PyObject *was = core->refusals;
    core->refusals = Py_NewRef(refusals);
    Py_XDECREF(was);
    return Py_NewRef(Py_None);
}

static PyObject *core_encode(PyObject *module, PyObject *words)
{
    PyObject *value, *result = NULL;
    const char *name;
    Text text;
    if (!PyArg_ParseTuple(words, "Os", &value, &name) || write_named(PyModule_GetState(module), &text, value, name))
        return NULL;
    result = PyBytes_FromStringAndSize(text.at, (Py_ssize_t)text.len);
    text_end(&text);
    return result;
}

static PyObject *core_decode(PyObject *Py_UNUSED(module), PyObject *it)
{
    char *at;
    Py_ssize_t len;
    return PyBytes_AsStringAndSize(it, &at, &len) ? NULL : read_text(at, (size_t)len);
}

/* The same as Python's own values; a second argument says that it is a location. */
static PyObject *core_to_python(PyObject *module, PyObject *words)
{
    const char *at;
    Py_ssize_t len;
    int is_place = 0;
    return PyArg_ParseTuple(words, "y#|p", &at, &len, &is_place)
               ? read_own_text(PyModule_GetState(module), at, (size_t)len, is_place)
               : NULL;
}

enum { CHECK, REPLAY, TRACE, AGGREGATE, COMPOSE, EXPLAIN, ERROR_TEXT };

/* Makes a call that needs no slot: (call, form, text, text) to (code, text, number, moves). */
static PyObject *core_text_call(PyObject *Py_UNUSED(module), PyObject *words)
{
    int call, form = 0;
    const uint8_t *one = NULL, *two = NULL;
    Py_ssize_t len = 0, two_len = 0;
    uint64_t number = 0;
    uint32_t moves = 0;
    int32_t code = ASM_NO_FORM;
    Room room;
    if (!PyArg_ParseTuple(words, "ii|y#y#", &call, &form, &one, &len, &two, &two_len))
        return NULL;
    room_begin(&room);
    PyThreadState *was = PyEval_SaveThread();
    do
        switch (call) {
        case CHECK: code = asm_check(one, (size_t)len, &number, &moves); break;
        case REPLAY: code = asm_replay(one, (size_t)len, ROOM(&room), &number); break;
        case TRACE: code = asm_trace(one, (size_t)len, ROOM(&room), &number); break;
        case AGGREGATE: code = asm_aggregate(one, (size_t)len, two, (size_t)two_len, ROOM(&room)); break;
        case COMPOSE: code = asm_compose(one, (size_t)len, two, (size_t)two_len, ROOM(&room)); break;
        case EXPLAIN: code = asm_explain(form, one, (size_t)len, ROOM(&room)); break;
        case ERROR_TEXT: code = asm_error_text(form, ROOM(&room)); break;
        }
    while (code == ASM_SMALL && room_grow(&room, &code));
    PyEval_RestoreThread(was);
    PyObject *result = Py_BuildValue("iy#KI", (int)code, room.at, (Py_ssize_t)room.written, (unsigned long long)number, (unsigned)moves);
    room_end(&room);
    return code == ASM_MEMORY ? (Py_XDECREF(result), PyErr_NoMemory()) : result;
}

static PyObject *core_version(PyObject *Py_UNUSED(module), PyObject *Py_UNUSED(none))
{
    return PyLong_FromUnsignedLong(asm_version());
}

static PyObject *import_name(const char *module, const char *name)
{
    PyObject *from = PyImport_ImportModule(module), *its = from ? PyObject_GetAttrString(from, name) : NULL;
    Py_XDECREF(from);
    return its;
}

static PyStructSequence_Field played_fields[] = {
    {"number", "The number of the move; 0 if the rule wrote nothing, so that nothing was fired."},
    {"result", "What the rule returned."},
    {"retries", "How many tries failed before."},
    {0},
};
static PyStructSequence_Desc played = {
    "folugben.Played", "The result of `play`: a pair of the move's number and the rule's result, with `retries`.", played_fields, 2};

static int core_begin(PyObject *module)
{
    Core *core = PyModule_GetState(module);
    struct {
        PyType_Spec *spec;
        PyTypeObject **type;
    } types[] = {{&storage_spec, &core->storage}, {&agent_spec, &core->agent}, {&step_spec, &core->step},
        {&location_spec, &core->location}, {&move_spec, &core->move}, {&audit_spec, &core->audit}, {&run_spec, &core->run}};
    watch_forks();
    for (size_t k = 0; k < sizeof types / sizeof *types; k++) {
        *types[k].type = (PyTypeObject *)PyType_FromModuleAndSpec(module, types[k].spec, NULL);
        if (!*types[k].type || PyModule_AddType(module, *types[k].type))
            return -1;
    }
    core->counter = import_name("collections", "Counter");
    PyObject *of_async = import_name("types", "CoroutineType"), *of_yield = import_name("types", "GeneratorType");
    PyObject *of_both = import_name("types", "AsyncGeneratorType");
    core->no_rules = of_async && of_yield && of_both ? PyTuple_Pack(3, of_async, of_yield, of_both) : NULL;
    Py_XDECREF(of_async);
    Py_XDECREF(of_yield);
    Py_XDECREF(of_both);
    core->played = PyStructSequence_NewType(&played);
    return core->counter && core->no_rules && core->played ? PyModule_AddType(module, core->played) : -1;
}

static int core_traverse(PyObject *module, visitproc visit, void *arg)
{
    Core *core = PyModule_GetState(module);
    Py_VISIT(core->storage);
    Py_VISIT(core->agent);
    Py_VISIT(core->step);
    Py_VISIT(core->location);
    Py_VISIT(core->move);
    Py_VISIT(core->audit);
    Py_VISIT(core->run);
    Py_VISIT(core->refusals);
    Py_VISIT(core->counter);
    Py_VISIT(core->no_rules);
    Py_VISIT(core->played);
    return 0;
}

static int core_clear(PyObject *module)
{
    Core *core = PyModule_GetState(module);
    Py_CLEAR(core->storage);
    Py_CLEAR(core->agent);
    Py_CLEAR(core->step);
    Py_CLEAR(core->location);
    Py_CLEAR(core->move);
    Py_CLEAR(core->audit);
    Py_CLEAR(core->run);
    Py_CLEAR(core->refusals);
    Py_CLEAR(core->counter);
    Py_CLEAR(core->no_rules);
    Py_CLEAR(core->played);
    return 0;
}

static void core_free(void *module)
{
    core_clear(module);
}

static PyMethodDef methods[] = {
    {"use", core_use, METH_O, NULL},
    {"encode", core_encode, METH_VARARGS, NULL},
    {"decode", core_decode, METH_O, NULL},
    {"to_python", core_to_python, METH_VARARGS, NULL},
    {"text_call", core_text_call, METH_VARARGS, NULL},
    {"version", core_version, METH_NOARGS, NULL},
    {0},
};
/* From 3.12 on each interpreter may have a lock of its own; before that the second slot isn't known. */
static PyModuleDef_Slot module_slots[] = {{Py_mod_exec, core_begin}, {0}, {0}};
static PyModuleDef definition = {
    PyModuleDef_HEAD_INIT, "folugben._core", NULL, sizeof(Core), methods, module_slots, core_traverse, core_clear, core_free};

PyMODINIT_FUNC PyInit__core(void)
{
    if (Py_Version >= 0x030c0000) {
        module_slots[1].slot = 3;          /* Py_mod_multiple_interpreters */
        module_slots[1].value = (void *)2; /* Py_MOD_PER_INTERPRETER_GIL_SUPPORTED */
    }
    return PyModuleDef_Init(&definition);
}
