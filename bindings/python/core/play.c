/* Rules that agents play, and agents that one thread plays by turns. */
#include "core.h"

/* Runs after a poll with this code. */
void update_seen(Agent *self, int32_t code)
{
    self->seen = asm_seen(SLOT(self));
    if (code == ASM_DONE || code == ASM_STALE)
        IS_BEHIND(self) = 0;
}

/* Runs before a poll, by a call that names no numbers. If the last poll of this thread was by another agent that is in no
 * step, and has seen more, it takes the state of that one, so that it follows only the newest moves. That one is behind then,
 * and catches up before it reports its own state. The interpreter's lock is held, so nobody else is at work with either,
 * unless its slot is busy. */
void take_newest_state(Agent *self)
{
    unsigned long thread = PyThread_get_thread_ident();
    Turn *turn = &self->storage->turns[(thread >> 12) % TURNS];
    Agent *other = turn->thread == thread ? turn->agent : NULL;
    int is_free = other && other != self && other->thread == thread && !other->steps && !other->holder.is_busy;
    if (is_free && other->seen > self->seen && asm_take_state(SLOT(self), SLOT(other)) == ASM_DONE) {
        other->seen = self->seen;
        IS_BEHIND(other) = 1;
        self->seen = asm_seen(SLOT(self));
    }
    turn->thread = self->thread = thread;
    turn->agent = self;
}

/* Follows if another agent has taken its state; in the course of calls. */
int32_t catch_up(Agent *self)
{
    uint32_t number;
    int32_t code = IS_BEHIND(self) ? asm_follow(SLOT(self), &number) : ASM_DONE;
    if (code == ASM_DONE)
        IS_BEHIND(self) = 0;
    return code;
}

static PyObject *new_played(Core *core, int64_t number, PyObject *result, long tries)
{
    PyObject *its = PyStructSequence_New(core->played), *one = PyLong_FromLongLong(number), *retries = PyLong_FromLong(tries);
    if (its && one && retries) {
        PyStructSequence_SetItem(its, 0, one);
        PyStructSequence_SetItem(its, 1, result);
        PyStructSequence_SetItem(its, 2, retries);
        return its;
    }
    Py_XDECREF(its);
    Py_XDECREF(one);
    Py_XDECREF(retries);
    Py_DECREF(result);
    return NULL;
}

/* What follows an attempt: what was played, or null; null without an exception means: try again. */
static PyObject *end_attempt(Step *step, PyObject *result, long tries)
{
    Core *core = step->holder.core;
    if (result && ODD(PyObject_IsInstance(result, core->no_rules))) {
        refuse(core, ASM_SHAPE, "no_rule", "(O)", result);
        Py_CLEAR(result);
    }
    int is_idle = result && !step->is_pushed && IS_FULL(step);
    int64_t number = -1;
    if (result && step->is_fired) /* by its rule */
        number = (int64_t)(step->agent->base + step->fired);
    else if (result)
        number = is_idle ? 0 : fire_step(step, 1);
    if (IS_FULL(step) && !(ODD(step->agent->holder.is_busy) && unready(&step->agent->holder)))
        step_drop(step);
    Py_DECREF((PyObject *)step);
    if (is_idle || number > 0)
        return new_played(core, number, result, tries);
    Py_XDECREF(result);
    return NULL;
}

PyObject *agent_play(Agent *self, PyObject *words, PyObject *named)
{
    Core *core = self->holder.core;
    PyObject *rule, *its = NULL;
    if (named) {
        PyObject *call = PyObject_GetAttrString(core->refusals, "play"), *before = call ? PyTuple_Pack(1, (PyObject *)self) : NULL;
        PyObject *all = before ? PySequence_Concat(before, words) : NULL;
        its = all ? PyObject_Call(call, all, named) : NULL;
        Py_XDECREF(all);
        Py_XDECREF(before);
        Py_XDECREF(call);
        return its;
    }
    if (!PyArg_ParseTuple(words, "O:play", &rule))
        return NULL;
    for (long tries = 0;; tries++) {
        Step *step = begin_step(self, core->step);
        its = step ? end_attempt(step, PyObject_CallFunctionObjArgs(rule, (PyObject *)step, NULL), tries) : NULL;
        if (its || PyErr_Occurred())
            return its;
        PyObject *none = PyErr_CheckSignals() ? NULL : PyObject_CallMethod(core->refusals, "back_off", "l", tries);
        if (!none)
            return NULL;
        Py_DECREF(none);
    }
}
