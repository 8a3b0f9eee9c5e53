"""Abstract state storage for simulators of abstract state machines, for Python.

A Storage is opened with a state. Each Agent of it works in steps (transactions), in its own thread. All reads of a step are
of one state. What the step writes is visible to its later reads, and is fired (committed) as one move. Only that move is
recorded in the journal:

    with Storage({"count": 0}, 1000) as storage:
        with storage.agent(0) as agent, agent.step() as step:
            step.put("count", step["count"] + 1)
            step.put("double", 2 * step["count"])
            step.commit()
        journal = storage.close_journal()

`storage.run(rule, workers=4, times=100)` plays a rule with workers on threads, and `storage["count"]` is the value now.

A location is a tuple ("name", argument, ..). Where one location is expected, the name alone is enough, but not in a list of
locations, as `read`, `peek` and `get` take. Values are None, truths, integers and texts; a list is a tuple, a set a frozenset,
and a bag a Counter. Input may also be written as in JSON (docs/FORMATS.md): a location as a list, and {"list": [..]},
{"set": [..]} and {"bag": [[element, count], ..]}. Texts are Unicode.

An agent may also read locations and fire moves that name what they depend on. The journal records each such call:

    number, (count,) = agent.read([("count",)])
    agent.fire([("put", "count", count + 1)], reads=[("count", number)])

Of a step, the journal records only the fire. With `Storage(.., record=True)`, or `Run(.., record=True)`, each commit also
records the step's tracked reads as a read before the fire, so that `check` and `audit` validate the values that `get`
returned. The journal never records what scans returned, nor what a step read that is stale by then.

The types `Value`, `Element`, `Place` and `Update` are for annotations: a location as a tuple or a list is a Place.

A Location is prepared once, and a Move collects instructions. Steps that use them write and read no text, and are faster:

    count, move = Location("count"), Move()
    with agent.step() as step:
        step.push(move.clear().put(count, step[count] + 1))
        step.commit()

Any thread may call a Storage, an Agent, a Step, a Location or a Move, and so may signal handlers and finalizers: a call is
either done completely or not begun. Short calls keep the interpreter's lock. Closes, journals, states, long texts, and an
agent that is far behind release it; a thread that calls an object in use by such a call waits for the end of that call. Of
the header's calls only asm_agents has no method here: call `Storage.agent` for each number. A storage creates one agent of
each number.

A storage has room for at most 1,048,576 moves. A Run has no end: its agents go from one storage to the next by themselves.
Its folder has the journals of all of them, which `audit` checks in bounded memory:

    with Run("count.run", init={"count": 0}) as run, run.agent(0) as agent:
        agent.play(lambda step: step.inc("count", 1))
    calls, moves, parts = audit("count.run")

The journal has every move. If an agent that fired was freed instead of returned to the storage, `close_journal` raises
`MissingError` from then on. A `with` returns its agent.

Errors report the place and the cause. The items of a list argument are counted from 1 (location 2, read 1). Items within
one are written as in Python, from 0 (instructions[0][2]). Calls, parts and moves are counted as in journals.

The calls of a Run are written in Python. A signal handler or a finalizer that makes one during another one of its thread
raises `NestedError`, and nothing is done.

The storage distinguishes true from 1 and false from 0, but in Python True == 1 and False == 0, and equal keys are one:
{True, 1} has one item. A set or a bag that has both is read as {"set": [True, 1]} or {"bag": [..]}, and is written so.
Likewise ("f", True) and ("f", 1) are two locations, and a value that was read as true equals 1; compare by `is True` where
both may occur.
"""
import os as _os
import sys as _sys

# python -m folugben in a stranger's folder would load a module of that folder in the place of one of Python's.
if _sys.argv[:1] == ["-m"] and any(
    it[:1] == "-" and "mfolugben" in (it[-9:], f"{it[-1:]}{then}") for it, then in zip(_sys.orig_argv, [*_sys.orig_argv[1:], ""])
):
    _sys.path[:] = [it for it in _sys.path if it and it != _os.getcwd()]

try:
    from . import _core
except ImportError as error:
    raise ImportError(
        f"folugben has no compiled part here ({error}). Install a wheel, or build it: in a clone ./build_c proves and builds the "
        "library and compiles the part; bindings/python/build_core ARCHIVE compiles it over a libfolugben.a that is there"
    ) from error

from ._auditor import Auditor, Counts
from ._copies import copy_run, prune_run
from ._core import Agent, Location, Move, Played, Step, Storage
from ._errors import BadJournalError, BrokenError, BusyError, ClashError, CommitClashError, ConflictError
from ._errors import DamagedError, DeepError, Error, FullError, LargeError, ManyError, MismatchError, MissingError, MovedError, OverError
from ._errors import PastError, StaleError, TooLongError, UnknownError, error_text, explain
from ._explore import DiffersError, Explored, explore
from ._functions import aggregate, check, compose, replay, trace, version
from ._guards import ForkedError, NestedError
from ._import import import_run
from ._library import Code, TextForm
from ._reading import audit, part
from ._run import Run
from ._run_agent import RunAgent
from ._runs import states
from ._shared import SharedAgent, SharedRun
from ._turns import EndlessError, interleave
from ._types import Element, Place, Update, Value

__version__ = "0.2.0"

__all__ = [
    "Agent", "Auditor", "BadJournalError", "BrokenError", "BusyError", "ClashError", "Code", "CommitClashError",
    "ConflictError", "Counts", "DamagedError", "DeepError", "DiffersError", "Element", "EndlessError", "Error", "Explored", "ForkedError",
    "FullError", "LargeError", "Location", "ManyError", "MismatchError", "MissingError", "Move", "MovedError", "NestedError", "OverError",
    "PastError", "Place", "Played", "Run", "RunAgent", "SharedAgent", "SharedRun", "StaleError", "Step", "Storage", "TextForm", "TooLongError",
    "UnknownError", "Update", "Value", "aggregate", "audit", "check", "compose", "copy_run", "error_text", "explain", "explore", "import_run",
    "interleave", "part", "prune_run", "replay", "states", "trace", "version",
]
