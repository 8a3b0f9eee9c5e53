/* What a storage shows of its present state. An agent of its own reads that, which fires nothing. It is returned once an agent
 * with its number is asked for, which is then checked out. */
#include "core.h"

/* Makes the reader unless it is there, with the greatest number of which no agent was made; it then follows all moves. */
static int32_t follow_all(Storage *self)
{
    uint32_t number, own = AGENTS;
    int32_t code = self->reader.full ? ASM_DONE : ASM_NUMBER;
    while (code == ASM_NUMBER && own-- > 0)
        code = asm_agent(SLOT(self), self->reader_own = own, READER(self));
    return code == ASM_DONE ? asm_follow(READER(self), &number) : code;
}

/* Returns whether the reader has to follow many moves. */
static int is_far(const Storage *self)
{
    return self->last > FAR && self->last - FAR > asm_seen(READER(self));
}

static PyObject *refuse_reader(Storage *self, int32_t code)
{
    return code == ASM_NUMBER ? refuse(self->holder.core, code, "no_reader", "()") : refuse_storage(self, code);
}

PyObject *storage_state(Storage *self, PyObject *Py_UNUSED(none))
{
    Room room;
    uint32_t number = 0;
    int32_t code;
    if (UNREADY(&self->holder))
        return NULL;
    room_begin(&room);
    RUN(&self->holder, 1,
        if ((code = follow_all(self)) == ASM_DONE) WITH_ROOM(code, &room, asm_state(READER(self), &number, ROOM(&room))));
    PyObject *its = code == ASM_DONE ? read_own_text(self->holder.core, room.at, room.written, 0) : refuse_reader(self, code);
    room_end(&room);
    return its ? Py_BuildValue("IN", (unsigned)number, its) : NULL;
}

/* storage[at]. */
PyObject *storage_at(Storage *self, PyObject *place)
{
    Core *core = self->holder.core;
    Place at;
    PyObject *one = NULL;
    if (place_begin(core, &at, place))
        return NULL;
    if (!UNREADY(&self->holder) && !PLACE_UNREADY(&at)) {
        asm_value value;
        Room room;
        uint32_t number;
        int32_t code;
        room_begin(&room);
        CALL(code, &self->holder, is_far(self), follow_all(self));
        int is_read = code == ASM_DONE;
        if (is_read && (code = prepare_place(&at)) == ASM_DONE)
            WITH_ROOM(code, &room, asm_peek_at(READER(self), AT(&at), &number, &value, ROOM(&room)));
        if (!ODD(code != ASM_DONE))
            one = value_of(core, &value, &room);
        else if (is_read)
            refuse_place(core, &at, code);
        else
            refuse_reader(self, code);
        room_end(&room);
    }
    place_end(&at);
    return one;
}

/* Plays a rule on threads. */
PyObject *storage_run(Storage *self, PyObject *words, PyObject *named)
{
    PyObject *call = PyObject_GetAttrString(self->holder.core->refusals, "run"), *first = call ? PyTuple_Pack(1, (PyObject *)self) : NULL;
    PyObject *all = first ? PySequence_Concat(first, words) : NULL, *result = all ? PyObject_Call(call, all, named) : NULL;
    Py_XDECREF(all);
    Py_XDECREF(first);
    Py_XDECREF(call);
    return result;
}
