/* Prepared locations, and moves that collect instructions. */
#include <string.h>

#include "core.h"

/* Raises the error of the code of a call on it and on other slots. */
PyObject *refuse_location(Location *self, int32_t code)
{
    if (code == ASM_EMPTY && !IS_FULL(self))
        return refuse(self->holder.core, code, "freed_object", "(s)", "location");
    return refuse(self->holder.core, code, "expect", "(i)", (int)code);
}

static PyObject *location_new(PyTypeObject *type, PyObject *words, PyObject *named)
{
    static char *names[] = {"place", NULL};
    PyObject *place;
    Core *core = core_of(type);
    Text text;
    if (!PyArg_ParseTupleAndKeywords(words, named, "O", names, &place) || write_named(core, &text, place, "place"))
        return NULL;
    Location *self = holder_new(type, core);
    if (self && (self->text = PyBytes_FromStringAndSize(text.at, (Py_ssize_t)text.len))) {
        int32_t code = asm_location(BYTES(&text), SLOT(self));
        if (code != ASM_DONE)
            refuse(core, code, "location", "(iy#)", (int)code, text.at, (Py_ssize_t)text.len);
    }
    text_end(&text);
    if (self && !IS_FULL(self))
        Py_CLEAR(self);
    return (PyObject *)self;
}

static PyObject *location_text(Location *self, void *Py_UNUSED(none))
{
    return Py_NewRef(self->text);
}

static PyObject *location_place(Location *self, void *Py_UNUSED(none))
{
    return read_own_text(self->holder.core, PyBytes_AsString(self->text), (size_t)PyBytes_Size(self->text), 1);
}

static PyObject *location_repr(Location *self)
{
    PyObject *place = location_place(self, NULL), *result = place ? PyUnicode_FromFormat("Location(%R)", place) : NULL;
    Py_XDECREF(place);
    return result;
}

static PyObject *location_compare(PyObject *one, PyObject *other, int how)
{
    if (Py_TYPE(one) != Py_TYPE(other) || (how != Py_EQ && how != Py_NE))
        return Py_NewRef(Py_NotImplemented);
    return PyObject_RichCompare(((Location *)one)->text, ((Location *)other)->text, how);
}

static Py_hash_t location_hash(Location *self)
{
    return PyObject_Hash(self->text);
}

static void location_dealloc(Location *self)
{
    Py_XDECREF(self->text);
    holder_dealloc(self);
}

static PyMethodDef location_methods[] = {
    HOLDER_METHODS,
    {"free", (PyCFunction)holder_free, METH_NOARGS, "free($self, /)\n--\n\nRelease it; releasing again has no effect."},
    {"__exit__", METHOD(holder_exit), METH_FASTCALL, NULL},
    {0},
};
static PyGetSetDef location_gets[] = {
    {"_text", (getter)location_text, NULL, NULL, NULL},
    {"place", (getter)location_place, NULL, "The location as a tuple, the name first.", NULL},
    {0},
};
static PyType_Slot location_slots[] = {
    {Py_tp_doc, "Location(place)\n--\n\n"
                "A location that is prepared once, for agents and steps of any storage: calls with it write no text of it. Two of one\n"
                "place are equal."},
    {Py_tp_new, location_new}, {Py_tp_dealloc, location_dealloc}, {Py_tp_methods, location_methods}, {Py_tp_members, holder_members},
    {Py_tp_getset, location_gets}, {Py_tp_repr, location_repr}, {Py_tp_richcompare, location_compare}, {Py_tp_hash, location_hash}, {0}};
PyType_Spec location_spec = {"folugben.Location", sizeof(Location), 0, Py_TPFLAGS_DEFAULT | Py_TPFLAGS_IMMUTABLETYPE, location_slots};

/* Finds the kind by how the text begins. Returns whether it is one. */
static int begins_as(Change *its)
{
    static const struct {
        const char *begins;
        int kind;
    } kinds[] = {{"{\"list\":", ASM_KIND_LIST}, {"{\"set\":", ASM_KIND_SET}, {"{\"bag\":", ASM_KIND_BAG}};
    for (size_t k = 0; k < sizeof kinds / sizeof *kinds; k++)
        if (its->text.len > 8 && !strncmp(its->text.at, kinds[k].begins, strlen(kinds[k].begins))) {
            its->kind = kinds[k].kind;
            return 1;
        }
    return 0;
}

static int read_operand(Core *core, PyObject *value, Change *its)
{
    int is_odd = 0;
    Py_ssize_t len = 0;
    if (PyBool_Check(value)) {
        its->kind = ASM_KIND_BOOL;
        its->number = value == Py_True;
    } else if (PyLong_Check(value)) {
        its->kind = ASM_KIND_NUM;
        its->number = PyLong_AsLongLongAndOverflow(value, &is_odd);
        if (ODD(is_odd))
            refuse(core, ASM_OPERAND, "out_of_range", "(sOII)", "number", value, 0, 0);
    } else if (PyUnicode_Check(value)) {
        its->kind = ASM_KIND_TEXT;
        its->at = (const uint8_t *)PyUnicode_AsUTF8AndSize(value, &len);
        if (ODD(is_odd = !its->at))
            PyErr_Clear();
    } else if (value == Py_None) {
        its->kind = ASM_KIND_UNDEF;
    } else if (PyDict_Check(value) || PyAnySet_Check(value) || PyTuple_Check(value)) {
        if (write_more(core, &its->text, value, "value"))
            return -1;
        its->at = (const uint8_t *)its->text.at;
        len = (Py_ssize_t)its->text.len;
        is_odd = !begins_as(its);
    } else {
        is_odd = 1;
    }
    its->len = (size_t)len;
    if (ODD(is_odd) && !PyErr_Occurred())
        refuse(core, ASM_SHAPE, "no_value", "(ssO)", "value", "", value);
    return is_odd ? -1 : 0;
}

/* Makes the text of a location, unless it is prepared. Returns -1 with an exception. */
int place_begin(Core *core, Place *its, PyObject *place)
{
    memset(&its->own, 0, sizeof its->own);
    its->prepared = is_location(core, place) ? (Location *)place : NULL;
    text_begin(&its->text);
    return its->prepared ? 0 : write_named(core, &its->text, place, "place");
}

/* Prepares it, in the course of calls, unless it is. */
int32_t prepare_place(Place *its)
{
    return its->prepared ? ASM_DONE : asm_location(BYTES(&its->text), &its->own);
}

void place_end(Place *its)
{
    asm_free(&its->own.slot);
    text_end(&its->text);
}

/* Raises the error of the code of its making, or of a call that it was passed to. */
PyObject *refuse_place(Core *core, Place *its, int32_t code)
{
    if (its->prepared)
        return refuse_location(its->prepared, code);
    return refuse(core, code, "location", "(iy#)", (int)code, its->text.at, (Py_ssize_t)its->text.len);
}

static size_t place_len(Place *its)
{
    return its->prepared ? (size_t)PyBytes_Size(its->prepared->text) : its->text.len;
}

const char *text_of_place(Place *its, size_t *len)
{
    *len = place_len(its);
    return its->prepared ? PyBytes_AsString(its->prepared->text) : its->text.at;
}

/* The verbs by their numbers, as a push takes them, which are the names of the methods too. */
static const char *const verbs[] = {"put", "add", "remove", "bag_add", "bag_remove", "inc"};

int change_begin(Core *core, Change *its, PyObject *const *words, Py_ssize_t count, int verb)
{
    int is_bag = verb == ASM_BAGADD || verb == ASM_BAGREMOVE;
    its->verb = verb;
    its->number = 0;
    its->at = NULL;
    its->amount = is_bag;
    text_begin(&its->text);
    if (ODD(count < 2 || count > 2 + is_bag)) {
        PyErr_Format(PyExc_TypeError, "%s() takes 2%s positional arguments but %zd were given", verbs[verb], is_bag ? " or 3" : "", count);
        return -1;
    }
    if (count == 3 && number_of(core, words[2], "amount", 1, UINT32_MAX, &its->amount))
        return -1;
    if (place_begin(core, &its->place, words[0]))
        return -1;
    if (!read_operand(core, words[1], its))
        return 0;
    change_end(its);
    return -1;
}

void change_end(Change *its)
{
    place_end(&its->place);
    text_end(&its->text);
}

/* Appends it to the instructions of a move. */
int32_t change_put(Change *its, struct asm_move *move)
{
    its->code = prepare_place(&its->place);
    its->is_placed = its->code == ASM_DONE;
    if (its->is_placed)
        its->code = asm_instruct(move, AT(&its->place), its->verb, its->kind, its->number, its->at, its->len, its->amount);
    return its->code;
}

/* Pushes a move of it alone. Its own code is that of the instruction. */
int32_t change_push(Change *its, Step *step, Room *room)
{
    int32_t code = its->code = prepare_place(&its->place);
    its->is_placed = code == ASM_DONE;
    if (!its->is_placed)
        return code;
    struct asm_location *at = AT(&its->place);
    WITH_ROOM(code, room, asm_push_at(SLOT(step->agent), SLOT(step), at, its->verb, its->kind, its->number, its->at, its->len,
        its->amount, ROOM(room)));
    if (code == ASM_OPERAND || code == ASM_NOT_JSON || code == ASM_SHAPE || !at->slot.full)
        its->code = code;
    return code;
}

/* Raises why it was not appended. */
PyObject *refuse_change(Core *core, Change *its)
{
    Place *at = &its->place;
    if (!its->is_placed || its->code == ASM_EMPTY)
        return refuse_place(core, at, its->code);
    size_t len;
    const char *text = text_of_place(at, &len);
    return refuse(core, its->code, "instruct", "(iy#iiLy#I)", (int)its->code, text, (Py_ssize_t)len, its->verb, its->kind,
        (long long)its->number, its->at, (Py_ssize_t)its->len, (unsigned)its->amount);
}

static PyObject *instruct(Move *self, PyObject *const *words, Py_ssize_t count, int verb)
{
    Core *core = self->holder.core;
    Change its;
    PyObject *result = NULL;
    if (change_begin(core, &its, words, count, verb))
        return NULL;
    if (!UNREADY(&self->holder) && !PLACE_UNREADY(&its.place)) {
        if (ODD(self->is_freed))
            refuse(core, ASM_EMPTY, "freed_object", "(s)", "move");
        else if (ODD(change_put(&its, SLOT(self)) != ASM_DONE))
            refuse_change(core, &its);
        else
            result = Py_NewRef((PyObject *)self);
    }
    change_end(&its);
    return result;
}

CHANGES(static, Move, move, instruct)

static Py_ssize_t move_len(Move *self)
{
    return UNREADY(&self->holder) ? -1 : (Py_ssize_t)asm_move_length(SLOT(self));
}

static PyObject *instruction_of(Core *core, const asm_instruction *its, const Room *room)
{
    asm_value head = {its->kind, its->number};
    Room bytes = {.at = room->at + its->place, .written = room->written - its->place};
    PyObject *at = read_own_text(core, room->at, its->place, 1), *operand = at ? value_of(core, &head, &bytes) : NULL;
    if (!operand)
        Py_CLEAR(at);
    else if (its->amount)
        return Py_BuildValue("(sNNI)", verbs[its->verb], at, operand, (unsigned)its->amount);
    return at ? Py_BuildValue("(sNN)", verbs[its->verb], at, operand) : NULL;
}

/* The instruction at a place, from 0 on. */
static PyObject *move_item(Move *self, Py_ssize_t place)
{
    asm_instruction its;
    Room room;
    PyObject *one = NULL;
    int32_t code = ASM_NO_INSTRUCTION;
    if (UNREADY(&self->holder))
        return NULL;
    if (ODD(self->is_freed))
        return refuse(self->holder.core, ASM_EMPTY, "freed_object", "(s)", "move");
    room_begin(&room);
    if (IS_FULL(self) && place >= 0 && place <= (Py_ssize_t)UINT32_MAX)
        WITH_ROOM(code, &room, asm_move_at(SLOT(self), (uint32_t)place, &its, ROOM(&room)));
    if (code == ASM_DONE)
        one = instruction_of(self->holder.core, &its, &room);
    else if (code == ASM_NO_INSTRUCTION)
        PyErr_SetString(PyExc_IndexError, "the move has no instruction at this place");
    else
        refuse(self->holder.core, code, "expect", "(i)", (int)code);
    room_end(&room);
    return one;
}

static PyObject *move_iter(PyObject *self)
{
    return PySeqIter_New(self);
}

/* Appends the instructions of another move. */
static PyObject *unite(Move *self, PyObject *it)
{
    Core *core = self->holder.core;
    Move *other = (Move *)it;
    if (Py_TYPE(it) != core->move || other == self) {
        PyErr_SetString(PyExc_TypeError, "a move is united with another Move");
        return NULL;
    }
    if (UNREADY(&self->holder) || UNREADY(&other->holder))
        return NULL;
    if (ODD(self->is_freed || other->is_freed))
        return refuse(core, ASM_EMPTY, "freed_object", "(s)", "move");
    int32_t code = IS_FULL(other) ? asm_unite(SLOT(self), SLOT(other)) : ASM_DONE;
    if (ODD(code != ASM_DONE))
        return refuse(core, code, "unite", "(inn)", (int)code, move_len(self), move_len(other));
    return Py_NewRef((PyObject *)self);
}

static PyObject *move_or(PyObject *one, PyObject *two)
{
    Core *core = core_of(Py_TYPE(one));
    if (!core || Py_TYPE(one) != core->move || Py_TYPE(two) != core->move) {
        PyErr_Clear();
        return Py_NewRef(Py_NotImplemented);
    }
    Move *both = holder_new(core->move, core);
    PyObject *first = both ? unite(both, one) : NULL, *second = first ? unite(both, two) : NULL;
    Py_XDECREF(first);
    Py_XDECREF((PyObject *)both);
    return second;
}

static void drop(Move *self)
{
    asm_free(SLOT(self));
}

static PyObject *move_clear(Move *self, PyObject *Py_UNUSED(none))
{
    if (UNREADY(&self->holder))
        return NULL;
    if (ODD(self->is_freed))
        return refuse(self->holder.core, ASM_EMPTY, "freed_object", "(s)", "move");
    drop(self);
    return Py_NewRef((PyObject *)self);
}

static PyObject *move_free(Move *self, PyObject *Py_UNUSED(none))
{
    if (UNREADY(&self->holder))
        return NULL;
    drop(self);
    self->is_freed = 1;
    return Py_NewRef(Py_None);
}

static PyObject *move_exit(Move *self, PyObject *const *Py_UNUSED(words), Py_ssize_t Py_UNUSED(count))
{
    return move_free(self, NULL);
}

static PyObject *move_new(PyTypeObject *type, PyObject *words, PyObject *named)
{
    static char *names[] = {NULL};
    return PyArg_ParseTupleAndKeywords(words, named, "", names) ? holder_new(type, core_of(type)) : NULL;
}

static int move_bool(Move *Py_UNUSED(self))
{
    return 1;
}

static PyObject *move_repr(Move *self)
{
    if (self->is_freed)
        return PyUnicode_FromString("<Move, freed>");
    Py_ssize_t count = move_len(self);
    return count < 0 ? NULL : PyUnicode_FromFormat("<Move of %zd instructions>", count);
}

static PyMethodDef methods[] = {
    HOLDER_METHODS,
    CHANGE_METHODS(move),
    {"unite", (PyCFunction)unite, METH_O,
        "unite($self, other, /)\n--\n\n"
        "Append the instructions of another move: the move then does what both do at once. `one | other` makes a third move.\n\n"
        "Raises:\n"
        "    ManyError: there are more than 4,096 instructions; nothing is appended."},
    {"clear", (PyCFunction)move_clear, METH_NOARGS, "clear($self, /)\n--\n\nDrop its instructions."},
    {"free", (PyCFunction)move_free, METH_NOARGS, "free($self, /)\n--\n\nRelease it; releasing again has no effect."},
    {"__exit__", METHOD(move_exit), METH_FASTCALL, NULL},
    {0},
};
static PyType_Slot slots[] = {
    {Py_tp_doc, "Move()\n--\n\n"
                "A move that is gathered instruction by instruction, and pushed by a step; without text if its locations are prepared.\n\n"
                "It retains its instructions until `clear`, and may be pushed any number of times, in steps of any storage. To what\n"
                "`Step.pop_move` returns more may be appended. Iterating yields each instruction as a push takes it: the verb, the\n"
                "location and the operand, and of a bag the amount too."},
    {Py_tp_new, move_new}, {Py_tp_dealloc, holder_dealloc}, {Py_tp_methods, methods}, {Py_tp_members, holder_members},
    {Py_tp_getset, holder_getters}, {Py_tp_repr, move_repr}, {Py_sq_length, move_len}, {Py_sq_item, move_item}, {Py_tp_iter, move_iter},
    {Py_nb_bool, move_bool}, {Py_nb_or, move_or}, {Py_nb_inplace_or, unite}, {0}};
PyType_Spec move_spec = {"folugben.Move", sizeof(Move), 0, Py_TPFLAGS_DEFAULT | Py_TPFLAGS_IMMUTABLETYPE, slots};
