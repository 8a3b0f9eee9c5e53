/* Steps: whether what they depend on was written, and waiting until it is. */
#include <time.h>

#include "core.h"

/* A wait sleeps between two polls, longer each time, up to a hundredth of a second. */
static const double FIRST_SLEEP = 0.00002, LONGEST_SLEEP = 0.01;

/* Polls. Returns whether a commit would be stale, with the location's text in the room; -1 with an exception. */
static int poll_for(Step *self, Room *room)
{
    Agent *agent = self->agent;
    int32_t code;
    if (UNREADY(&agent->holder) || settle(self))
        return -1;
    RUN(&agent->holder, agent_is_far(agent), WITH_ROOM(code, room, asm_step_stands(SLOT(agent), SLOT(self), ROOM(room))));
    update_seen(agent, code);
    if (code == ASM_DONE || code == ASM_STALE)
        return code == ASM_STALE;
    refuse_step(self, code);
    return -1;
}

PyObject *step_stands(Step *self, PyObject *Py_UNUSED(none))
{
    Room room;
    room_begin(&room);
    int is_stale = poll_for(self, &room);
    PyObject *at = NULL;
    if (is_stale > 0)
        at = read_own_text(
            self->holder.core, room.at + sizeof "{\"stale\":" - 1, room.written - sizeof "{\"stale\":}" + 1, 1);
    else if (!is_stale)
        at = Py_NewRef(Py_None);
    room_end(&room);
    return at;
}

static double now(void)
{
    struct timespec its;
    clock_gettime(CLOCK_MONOTONIC, &its);
    return (double)its.tv_sec + (double)its.tv_nsec / 1e9;
}

/* Lets other threads run, and signal handlers after that. Returns -1 with the exception of one. */
static int doze(double seconds)
{
    struct timespec its = {0, (long)(seconds * 1e9)};
    Py_BEGIN_ALLOW_THREADS
    nanosleep(&its, NULL);
    Py_END_ALLOW_THREADS
    return PyErr_CheckSignals();
}

PyObject *step_wait(Step *self, PyObject *words, PyObject *named)
{
    static char *names[] = {"timeout", NULL};
    PyObject *timeout = Py_None;
    double end = 0, pause = FIRST_SLEEP;
    if (!PyArg_ParseTupleAndKeywords(words, named, "|O:wait", names, &timeout))
        return NULL;
    if (timeout != Py_None) {
        end = now() + PyFloat_AsDouble(timeout);
        if (PyErr_Occurred())
            return NULL;
    }
    for (;; pause = pause < LONGEST_SLEEP / 2 ? 2 * pause : LONGEST_SLEEP) {
        Room room;
        room_begin(&room);
        int is_stale = poll_for(self, &room);
        room_end(&room);
        if (is_stale)
            return is_stale < 0 ? NULL : Py_NewRef(Py_True);
        double left = timeout == Py_None ? pause : end - now();
        if (!(left > 0))
            return Py_NewRef(Py_False);
        if (doze(left < pause ? left : pause))
            return NULL;
    }
}
