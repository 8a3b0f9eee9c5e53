/* Agents: the calls that read and write texts. */
#include "core.h"

/* Raises the error of the code of a call that was passed a text of a form. */
static PyObject *refuse_text(Agent *self, int32_t code, int form, Text *text)
{
    if (code == ASM_EMPTY)
        return refuse_agent(self, code);
    return refuse(self->holder.core, code, "read", "(iiy#)", (int)code, form, text->at, (Py_ssize_t)text->len);
}

static int32_t read_and_answer(Agent *self, Text *text, Room *room)
{
    int32_t code = asm_read(SLOT(self), BYTES(text));
    if (code == ASM_DONE)
        WITH_ROOM(code, room, asm_answer(SLOT(self), ROOM(room)));
    return code;
}

static PyObject *numbered_values(Core *core, Room *room)
{
    uint32_t number;
    PyObject *values = read_values(core, room, &number);
    return values ? Py_BuildValue("IN", (unsigned)number, values) : NULL;
}

PyObject *agent_read(Agent *self, PyObject *places)
{
    Text text;
    Room room;
    PyObject *result = NULL;
    int32_t code;
    if (write_named(self->holder.core, &text, places, "places"))
        return NULL;
    room_begin(&room);
    if (!UNREADY(&self->holder)) {
        settle_agent(self);
        take_newest_state(self);
        CALL(code, &self->holder, IS_LONG(&text) || agent_is_far(self), read_and_answer(self, &text, &room));
        update_seen(self, code);
        result = code == ASM_DONE ? numbered_values(self->holder.core, &room) : refuse_text(self, code, ASM_FORM_LOCATIONS, &text);
    }
    room_end(&room);
    text_end(&text);
    return result;
}

typedef struct {
    const uint8_t *call, *scans;
    Py_ssize_t len, scans_len;
} Offer;

static int32_t fire_and_answer(Agent *self, const Offer *its, Room *room, asm_numbers *numbers)
{
    int32_t answer_code, code = asm_try_fire_over(SLOT(self), its->call, (size_t)its->len, its->scans, (size_t)its->scans_len, numbers);
    if (code != ASM_STALE && code != ASM_CLASH)
        return code;
    WITH_ROOM(answer_code, room, asm_answer(SLOT(self), ROOM(room)));
    return answer_code == ASM_DONE ? code : answer_code;
}

static PyObject *fire(Agent *self, const Offer *its)
{
    Room room;
    asm_numbers numbers = {0};
    int32_t code;
    if (UNREADY(&self->holder))
        return NULL;
    settle_agent(self);
    room_begin(&room);
    int is_long = its->len > LONG_TEXT || its->scans_len > LONG_TEXT || agent_is_far(self);
    CALL(code, &self->holder, is_long, fire_and_answer(self, its, &room, &numbers));
    self->seen = asm_seen(SLOT(self));
    if (numbers.fired > self->storage->last)
        self->storage->last = numbers.fired;
    PyObject *result = code == ASM_DONE ? PyLong_FromUnsignedLong(numbers.fired) : NULL;
    if (code == ASM_EMPTY)
        refuse_agent(self, code);
    else if (code != ASM_DONE)
        refuse(self->holder.core, code, "fire", "(iOy#IIy#y#)", (int)code, (PyObject *)self, room.at, (Py_ssize_t)room.written,
            (unsigned)numbers.from, (unsigned)numbers.to, its->call, its->len, its->scans, its->scans_len);
    room_end(&room);
    return result;
}

/* Writes the items of an iterable, after a word of JSON. */
static int write_list(Core *core, Text *text, const char *word, size_t len, PyObject *its, const char *name)
{
    if (its && (PyUnicode_Check(its) || PyBytes_Check(its) || PyDict_Check(its) || PyAnySet_Check(its))) {
        refuse(core, ASM_SHAPE, "no_list", "(sO)", name, its);
        return -1;
    }
    PyObject *list = its ? PySequence_List(its) : PyList_New(0);
    int failed = !list || text_put(text, word, len) || write_more(core, text, list, name);
    Py_XDECREF(list);
    return failed;
}

PyObject *agent_fire(Agent *self, PyObject *words, PyObject *named)
{
    static const char first[] = "{\"fire\":", second[] = ",\"reads\":";
    static char *names[] = {"instructions", "reads", "scans", NULL};
    Core *core = self->holder.core;
    PyObject *move, *reads = NULL, *over = NULL, *result = NULL;
    Text call, scans;
    if (!PyArg_ParseTupleAndKeywords(words, named, "O|OO", names, &move, &reads, &over))
        return NULL;
    text_begin(&call);
    text_begin(&scans);
    int failed = text_put(&call, first, sizeof first - 1) || write_more(core, &call, move, "instructions") ||
                 write_list(core, &call, second, sizeof second - 1, reads, "reads") || text_put(&call, "}", 1) ||
                 write_list(core, &scans, "", 0, over, "scans");
    if (!failed) {
        Offer its = {(uint8_t *)call.at, (uint8_t *)scans.at, (Py_ssize_t)call.len, (Py_ssize_t)scans.len};
        result = fire(self, &its);
    }
    text_end(&call);
    text_end(&scans);
    return result;
}

/* The same with both texts. */
PyObject *agent_fire_texts(Agent *self, PyObject *words)
{
    Offer its;
    return PyArg_ParseTuple(words, "y#y#", &its.call, &its.len, &its.scans, &its.scans_len) ? fire(self, &its) : NULL;
}

PyObject *agent_answer(Agent *self, PyObject *Py_UNUSED(none))
{
    Room room;
    int32_t code;
    if (UNREADY(&self->holder))
        return NULL;
    room_begin(&room);
    WITH_ROOM(code, &room, asm_answer(SLOT(self), ROOM(&room)));
    PyObject *result = code == ASM_DONE ? read_own_text(self->holder.core, room.at, room.written, 0) : refuse_agent(self, code);
    room_end(&room);
    return result;
}

PyObject *agent_learn(Agent *self, PyObject *other)
{
    Core *core = self->holder.core;
    if (!PyObject_TypeCheck(other, core->agent))
        return refuse(core, ASM_EMPTY, "no_agent", "(sO)", "an agent learns from an agent", other);
    Agent *from = (Agent *)other;
    if (from->storage != self->storage)
        return refuse(core, ASM_OTHER, "expect", "(i)", ASM_OTHER);
    do
        if (UNREADY(&self->holder) || UNREADY(&from->holder))
            return NULL;
    while (ODD(self->holder.is_busy | from->holder.is_busy));
    int32_t code = asm_learn(SLOT(self), SLOT(from));
    return code == ASM_DONE ? Py_NewRef(Py_None) : refuse_agent(IS_FULL(self) ? from : self, code);
}

PyObject *agent_follow(Agent *self, PyObject *Py_UNUSED(none))
{
    uint32_t number;
    int32_t code;
    if (UNREADY(&self->holder))
        return NULL;
    settle_agent(self);
    take_newest_state(self);
    CALL(code, &self->holder, agent_is_far(self), asm_follow(SLOT(self), &number));
    update_seen(self, code);
    return code == ASM_DONE ? PyLong_FromUnsignedLong(number) : refuse_agent(self, code);
}

static PyObject *peek_at(Agent *self, Location *at)
{
    Core *core = self->holder.core;
    Room room;
    asm_value value;
    uint32_t number;
    int32_t code;
    if (UNREADY(&self->holder) || UNREADY(&at->holder))
        return NULL;
    room_begin(&room);
    if ((code = catch_up(self)) == ASM_DONE)
        WITH_ROOM(code, &room, asm_peek_at(SLOT(self), SLOT(at), &number, &value, ROOM(&room)));
    PyObject *one = code == ASM_DONE ? value_of(core, &value, &room) : NULL;
    if (code != ASM_DONE && (IS_FULL(self) || code != ASM_EMPTY))
        refuse_location(at, code);
    else if (code != ASM_DONE)
        refuse_agent(self, code);
    room_end(&room);
    return one ? Py_BuildValue("IN", (unsigned)number, one) : NULL;
}

static PyObject *peek(Agent *self, PyObject *places)
{
    Text text;
    Room room;
    PyObject *result = NULL;
    int32_t code;
    if (write_named(self->holder.core, &text, places, "places"))
        return NULL;
    room_begin(&room);
    if (!UNREADY(&self->holder)) {
        RUN(&self->holder, IS_LONG(&text) || IS_BEHIND(self),
            if ((code = catch_up(self)) == ASM_DONE) WITH_ROOM(code, &room, asm_peek(SLOT(self), BYTES(&text), ROOM(&room))));
        if (code != ASM_DONE)
            refuse_text(self, code, ASM_FORM_LOCATIONS, &text);
        else
            result = numbered_values(self->holder.core, &room);
    }
    room_end(&room);
    text_end(&text);
    return result;
}

PyObject *agent_peek(Agent *self, PyObject *places)
{
    return is_location(self->holder.core, places) ? peek_at(self, (Location *)places) : peek(self, places);
}

static PyObject *state(Agent *self, int is_text)
{
    Room room;
    uint32_t number = 0;
    int32_t code;
    if (UNREADY(&self->holder))
        return NULL;
    room_begin(&room);
    RUN(&self->holder, 1,
        if ((code = catch_up(self)) == ASM_DONE) WITH_ROOM(code, &room, asm_state(SLOT(self), &number, ROOM(&room))));
    PyObject *its = NULL;
    if (code != ASM_DONE)
        refuse_agent(self, code);
    else
        its = is_text ? PyBytes_FromStringAndSize((char *)room.at, (Py_ssize_t)room.written)
                      : read_own_text(self->holder.core, room.at, room.written, 0);
    room_end(&room);
    return its ? Py_BuildValue("IN", (unsigned)number, its) : NULL;
}

PyObject *agent_state(Agent *self, PyObject *Py_UNUSED(none))
{
    return state(self, 0);
}

PyObject *agent_state_text(Agent *self, PyObject *Py_UNUSED(none))
{
    return state(self, 1);
}

PyObject *agent_scan(Agent *self, PyObject *name)
{
    Room room;
    uint32_t number = 0;
    int32_t code;
    Py_ssize_t len;
    const uint8_t *text = name_of(self->holder.core, name, 0, &len);
    if (!text || UNREADY(&self->holder))
        return NULL;
    room_begin(&room);
    RUN(&self->holder, 1,
        if ((code = catch_up(self)) == ASM_DONE)
            WITH_ROOM(code, &room, asm_scan(SLOT(self), text, (size_t)len, &number, ROOM(&room))));
    PyObject *its = code == ASM_DONE ? read_own_text(self->holder.core, room.at, room.written, 0) : refuse_agent(self, code);
    room_end(&room);
    return its ? Py_BuildValue("IN", (unsigned)number, its) : NULL;
}

PyObject *agent_stands(Agent *self, PyObject *named)
{
    Text text;
    Room room;
    PyObject *result = NULL;
    int32_t code;
    text_begin(&text);
    room_begin(&room);
    if (!write_list(self->holder.core, &text, "", 0, named, "reads") && !UNREADY(&self->holder)) {
        int is_long = IS_LONG(&text) || agent_is_far(self);
        settle_agent(self);
        RUN(&self->holder, is_long, WITH_ROOM(code, &room, asm_stands(SLOT(self), BYTES(&text), ROOM(&room))));
        update_seen(self, code);
        if (code == ASM_DONE)
            result = Py_NewRef(Py_None);
        else if (code == ASM_EMPTY)
            refuse_agent(self, code);
        else if (code == ASM_STALE)
            result = read_own_text(
                self->holder.core, room.at + sizeof "{\"stale\":" - 1, room.written - sizeof "{\"stale\":}" + 1, 1);
        else
            refuse(self->holder.core, code, "stands", "(iOy#)", (int)code, (PyObject *)self, text.at, (Py_ssize_t)text.len);
    }
    room_end(&room);
    text_end(&text);
    return result;
}

PyObject *agent_go_on(Agent *self, PyObject *words, PyObject *named)
{
    uint32_t capacity;
    int32_t code;
    Storage *next = storage_next_of(self->storage, words, named, &capacity);
    if (!next || UNREADY(&self->holder)) {
        Py_XDECREF((PyObject *)next);
        return NULL;
    }
    RUN(&self->holder, 1, if ((code = catch_up(self)) == ASM_DONE) code = asm_go_on(SLOT(self), capacity, SLOT(next)));
    if (code == ASM_DONE)
        return (PyObject *)next;
    if (code == ASM_NOT_FULL)
        refuse(self->holder.core, code, "not_full", "(I)", (unsigned)asm_seen(SLOT(self)));
    else
        refuse_agent(self, code);
    Py_DECREF((PyObject *)next);
    return NULL;
}
