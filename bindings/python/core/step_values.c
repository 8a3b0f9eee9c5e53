/* Steps: what they read and write. */
#include "core.h"

typedef int32_t (*TextCall)(struct asm_agent *agent, struct asm_step *step, const uint8_t *text, size_t len, uint8_t *out, size_t room, size_t *written);
typedef int32_t (*MoveCall)(struct asm_agent *agent, struct asm_step *step, struct asm_move *move, uint8_t *out, size_t room, size_t *written);

/* Makes a call that takes a text. */
static int32_t call_by_text(Step *self, TextCall call, const uint8_t *text, size_t len, Room *room)
{
    Agent *agent = self->agent;
    int32_t code;
    RUN(&agent->holder, len > LONG_TEXT, WITH_ROOM(code, room, call(SLOT(agent), SLOT(self), text, len, ROOM(room))));
    return code;
}

static PyObject *values_of(Step *self, TextCall call, PyObject *places)
{
    Core *core = self->holder.core;
    Text text;
    Room room;
    PyObject *values = NULL;
    uint32_t number;
    if (write_named(core, &text, places, "places"))
        return NULL;
    room_begin(&room);
    if (!UNREADY(&self->agent->holder) && !settle(self)) {
        int32_t code = call_by_text(self, call, BYTES(&text), &room);
        if (code == ASM_DONE)
            values = read_values(core, &room, &number);
        else if (code == ASM_EMPTY || code == ASM_MOVED)
            refuse_step(self, code);
        else
            refuse(core, code, "read", "(iiy#)", (int)code, ASM_FORM_LOCATIONS, text.at, (Py_ssize_t)text.len);
    }
    room_end(&room);
    text_end(&text);
    return values;
}

/* The value at one location, prepared or not. */
PyObject *step_at(Step *self, PyObject *place)
{
    Core *core = self->holder.core;
    Agent *agent = self->agent;
    Place at;
    PyObject *one = NULL;
    if (place_begin(core, &at, place))
        return NULL;
    if (!UNREADY(&agent->holder) && !PLACE_UNREADY(&at) && !settle(self)) {
        asm_value value;
        Room room;
        room_begin(&room);
        int32_t code = prepare_place(&at);
        int is_placed = code == ASM_DONE;
        if (is_placed)
            WITH_ROOM(code, &room, asm_get_at(SLOT(agent), SLOT(self), AT(&at), &value, ROOM(&room)));
        if (!ODD(code != ASM_DONE))
            one = value_of(core, &value, &room);
        else if (!is_placed || (code == ASM_EMPTY && IS_FULL(self) && IS_FULL(agent)))
            refuse_place(core, &at, code);
        else
            refuse_step(self, code);
        room_end(&room);
    }
    place_end(&at);
    return one;
}

PyObject *step_get(Step *self, PyObject *places)
{
    return is_location(self->holder.core, places) ? step_at(self, places) : values_of(self, asm_get, places);
}

PyObject *step_see(Step *self, PyObject *place)
{
    if (!is_location(self->holder.core, place))
        return values_of(self, asm_see, place);
    PyObject *places = PyTuple_Pack(1, place), *values = places ? values_of(self, asm_see, places) : NULL;
    PyObject *one = values ? Py_XNewRef(PyList_GetItem(values, 0)) : NULL;
    Py_XDECREF(values);
    Py_XDECREF(places);
    return one;
}

/* Why no element was counted, or no size was found, at the location. */
static PyObject *refuse_members(Step *self, Change *its, int32_t code)
{
    if (!its->is_placed || (code == ASM_EMPTY && IS_FULL(self) && IS_FULL(self->agent)))
        return refuse_place(self->holder.core, &its->place, code);
    if (code == ASM_EMPTY || code == ASM_MOVED || code == ASM_MANY)
        return refuse_step(self, code);
    size_t len;
    const char *text = text_of_place(&its->place, &len);
    return refuse(self->holder.core, code, "members", "(iy#y#)", (int)code, text, (Py_ssize_t)len, its->at,
        (Py_ssize_t)(its->kind == ASM_KIND_LIST ? its->len : 0));
}

/* Counts the element in the set or the bag at the location. Returns -1 with an exception. */
static int64_t count_member(Step *self, PyObject *const *words, Py_ssize_t given, const char *name)
{
    Change its;
    uint32_t count = 0;
    int64_t result = -1;
    if (ODD(given != 2)) {
        PyErr_Format(PyExc_TypeError, "%s() takes 2 positional arguments but %zd were given", name, given);
        return -1;
    }
    if (change_begin(self->holder.core, &its, words, given, ASM_ADD))
        return -1;
    if (!UNREADY(&self->agent->holder) && !PLACE_UNREADY(&its.place) && !settle(self)) {
        int32_t code = prepare_place(&its.place);
        its.is_placed = code == ASM_DONE;
        if (its.is_placed)
            code = asm_count_of(SLOT(self->agent), SLOT(self), AT(&its.place), its.kind, its.number, its.at, its.len, &count);
        if (ODD(code != ASM_DONE))
            refuse_members(self, &its, code);
        else
            result = count;
    }
    change_end(&its);
    return result;
}

PyObject *step_has(Step *self, PyObject *const *words, Py_ssize_t given)
{
    int64_t count = count_member(self, words, given, "has");
    return count < 0 ? NULL : PyBool_FromLong(count > 0);
}

PyObject *step_count_of(Step *self, PyObject *const *words, Py_ssize_t given)
{
    int64_t count = count_member(self, words, given, "count_of");
    return count < 0 ? NULL : PyLong_FromLongLong(count);
}

PyObject *step_size(Step *self, PyObject *place)
{
    Change its = {0};
    uint64_t size = 0;
    PyObject *result = NULL;
    if (place_begin(self->holder.core, &its.place, place))
        return NULL;
    if (!UNREADY(&self->agent->holder) && !PLACE_UNREADY(&its.place) && !settle(self)) {
        int32_t code = prepare_place(&its.place);
        its.is_placed = code == ASM_DONE;
        if (its.is_placed)
            code = asm_size(SLOT(self->agent), SLOT(self), AT(&its.place), &size);
        result = ODD(code != ASM_DONE) ? refuse_members(self, &its, code) : PyLong_FromUnsignedLongLong(size);
    }
    place_end(&its.place);
    return result;
}

PyObject *step_scan(Step *self, PyObject *name)
{
    Py_ssize_t len;
    Room room;
    const uint8_t *text = name_of(self->holder.core, name, 1, &len);
    if (!text || UNREADY(&self->agent->holder) || settle(self))
        return NULL;
    room_begin(&room);
    int32_t code = call_by_text(self, asm_step_scan, text, (size_t)len, &room);
    PyObject *pairs = code == ASM_DONE ? read_own_text(self->holder.core, room.at, room.written, 0) : refuse_step(self, code);
    room_end(&room);
    return pairs;
}

/* Whether the function with this name has a value, or how many it has: NULL with an exception. */
static PyObject *count_function(Step *self, PyObject *name, int is_any)
{
    Py_ssize_t len;
    uint32_t any = 0;
    uint64_t count = 0;
    int32_t code;
    Agent *agent = self->agent;
    const uint8_t *text = name_of(self->holder.core, name, 1, &len);
    if (!text || UNREADY(&agent->holder) || settle(self))
        return NULL;
    if (is_any)
        code = asm_any(SLOT(agent), SLOT(self), text, (size_t)len, &any);
    else
        RUN(&agent->holder, 1, code = asm_count(SLOT(agent), SLOT(self), text, (size_t)len, &count));
    if (ODD(code != ASM_DONE))
        return refuse_step(self, code);
    return is_any ? PyBool_FromLong(any) : PyLong_FromUnsignedLongLong(count);
}

PyObject *step_any(Step *self, PyObject *name)
{
    return count_function(self, name, 1);
}

PyObject *step_count(Step *self, PyObject *name)
{
    return count_function(self, name, 0);
}

/* Raises why a move isn't pushed. */
PyObject *refuse_push(Step *self, int32_t code, const char *move, size_t len, Room *room)
{
    if (code == ASM_EMPTY || code == ASM_MOVED)
        return refuse_step(self, code);
    return refuse(self->holder.core, code, "push", "(iy#y#O)", (int)code, move, (Py_ssize_t)len, room->at,
        (Py_ssize_t)(code == ASM_CLASH || code == ASM_LARGE ? room->written : 0), (PyObject *)self);
}

static PyObject *grow_by_text(Step *self, TextCall call, PyObject *move)
{
    Text text;
    Room room;
    PyObject *result = NULL;
    if (write_named(self->holder.core, &text, move, "instructions"))
        return NULL;
    room_begin(&room);
    if (!UNREADY(&self->agent->holder) && !settle(self)) {
        int32_t code = call_by_text(self, call, BYTES(&text), &room);
        forget_accepted(self, NULL, 0);
        /* A move of no instructions is not reported as missing. */
        if (code == ASM_DONE && text.len > 2)
            self->is_pushed = 1;
        result = code == ASM_DONE ? Py_NewRef(Py_None) : refuse_push(self, code, text.at, text.len, &room);
    }
    room_end(&room);
    text_end(&text);
    return result;
}

static PyObject *grow(Step *self, TextCall text_call, MoveCall call, PyObject *it)
{
    Agent *agent = self->agent;
    Move *move = (Move *)it;
    Room room;
    int32_t code;
    if (Py_TYPE(it) != self->holder.core->move)
        return grow_by_text(self, text_call, it);
    if (UNREADY(&agent->holder) || UNREADY(&move->holder))
        return NULL;
    if (ODD(move->is_freed))
        return refuse(self->holder.core, ASM_EMPTY, "freed_object", "(s)", "move");
    if (settle(self))
        return NULL;
    forget_accepted(self, NULL, 0);
    room_begin(&room);
    /* A slot holds no move of no instructions. */
    if (IS_FULL(move))
        WITH_ROOM(code, &room, call(SLOT(agent), SLOT(self), SLOT(move), ROOM(&room)));
    else
        code = call_by_text(self, text_call, (const uint8_t *)"[]", 2, &room);
    if (code == ASM_DONE && IS_FULL(move))
        self->is_pushed = 1;
    PyObject *result = ODD(code != ASM_DONE) ? refuse_push(self, code, "", 0, &room) : Py_NewRef(Py_None);
    room_end(&room);
    return result;
}

PyObject *step_push(Step *self, PyObject *move)
{
    return grow(self, asm_push, asm_push_move, move);
}

PyObject *step_extend(Step *self, PyObject *move)
{
    return grow(self, asm_extend, asm_extend_move, move);
}

/* Has an instruction join the move that was pushed last. Without one it is pushed, and needs no slot for its move. */
static int32_t join_last(Step *self, Change *its, Room *room)
{
    struct asm_move move = {0};
    int32_t code;
    if (asm_depth(SLOT(self)) == 0)
        return change_push(its, self, room);
    code = change_put(its, &move);
    if (code == ASM_DONE)
        WITH_ROOM(code, room, asm_extend_move(SLOT(self->agent), SLOT(self), &move, ROOM(room)));
    asm_free(&move.slot);
    return code;
}

/* Has an instruction that is no addition join the move that was pushed last. Returns non-zero with an exception. */
static int extend_by(Step *self, Change *its)
{
    Room room;
    size_t len;
    if (settle(self))
        return -1;
    const char *at = text_of_place(&its->place, &len);
    forget_accepted(self, at, len);
    room_begin(&room);
    int32_t code = join_last(self, its, &room);
    if (code == ASM_DONE)
        self->is_pushed = 1;
    else if (its->code != ASM_DONE)
        refuse_change(self->holder.core, its);
    else
        refuse_push(self, code, "", 0, &room);
    room_end(&room);
    return code == ASM_DONE ? 0 : -1;
}

/* Makes one instruction join the move that was pushed last, at once or with those that follow it. */
static PyObject *change(Step *self, PyObject *const *words, Py_ssize_t count, int verb)
{
    Change its;
    int failed = 1, is_addition = verb == ASM_ADD || verb == ASM_BAGADD || verb == ASM_INC;
    if (change_begin(self->holder.core, &its, words, count, verb))
        return NULL;
    if (!UNREADY(&self->agent->holder) && !PLACE_UNREADY(&its.place))
        failed = is_addition ? add_to(self, &its) : extend_by(self, &its);
    change_end(&its);
    return failed ? NULL : Py_NewRef(Py_None);
}

CHANGES(, Step, step, change)

PyObject *step_pop(Step *self, PyObject *Py_UNUSED(none))
{
    if (UNREADY(&self->agent->holder) || settle(self))
        return NULL;
    int32_t code = asm_pop(SLOT(self));
    forget_accepted(self, NULL, 0);
    self->is_pushed &= asm_depth(SLOT(self)) > 0;
    return code == ASM_DONE ? Py_NewRef(Py_None) : refuse_step(self, code);
}

PyObject *step_pop_move(Step *self, PyObject *Py_UNUSED(none))
{
    Core *core = self->holder.core;
    Move *move = holder_new(core->move, core);
    if (!move || UNREADY(&self->agent->holder) || settle(self)) {
        Py_XDECREF((PyObject *)move);
        return NULL;
    }
    int32_t code = asm_pop_move(SLOT(self), SLOT(move));
    forget_accepted(self, NULL, 0);
    self->is_pushed &= asm_depth(SLOT(self)) > 0;
    if (code == ASM_DONE)
        return (PyObject *)move;
    Py_DECREF((PyObject *)move);
    return refuse_step(self, code);
}
