"""Functions that raise the errors of the compiled part.

The compiled part calls them when the library or it has refused something.
"""
import json
import operator
import pathlib
import sys
from typing import TYPE_CHECKING, Any, NoReturn

from . import _core
from ._errors import BusyError, ClashError, CommitClashError, Error, MissingError, OverError
from ._errors import ahead, expect, explain, refusal
from ._files import replacing
from ._guards import ForkedError
from ._library import Code, INC, TEXT, TextForm
from ._play import back_off, no_rule, play
from ._text_errors import INSTRUCTIONS, READS, expect_part, expect_read, expect_scans
from ._texts import expect_name, not_a_value
from ._workers import run

if TYPE_CHECKING:
    from ._core import Agent, Step, Storage

__all__ = ["back_off", "no_rule", "play", "run"]

_WORDS = (b"put", b"add", b"remove", b"bagadd", b"bagremove", b"inc")
_RANGES = {
    "number": (Code.OPERAND, f"a number is {-2**63:,} to {2**63 - 1:,}, not {{value}}"),
    "amount": (Code.OPERAND, f"an amount is 1 to {2**32 - 1:,}, not {{value}}"),
    "move": (Code.AHEAD, f"a move's number is 0 to {2**32 - 1:,}, not {{value}}"),
    "agent": (Code.AGENTS, "agent {value}: numbers are below 256"),
    "capacity": (Code.CAPACITY, "a capacity is 1 to {most:,}, not {value}"),
}


def out_of_range(what: str, value: int, least: int, most: int) -> NoReturn:
    code, detail = _RANGES[what]
    raise Error(code, detail=detail.format(value=int.__index__(value), most=most))


def number_of(what: str, value: int, least: int, most: int) -> int:
    """Check for an integer in a range."""
    integer = int.__index__(operator.index(value))
    return integer if least <= integer <= most else out_of_range(what, integer, least, most)


def own_number(number: int) -> int:
    """Check for the number of an agent."""
    return number_of("agent", number, 0, 255)


def capacity_of(capacity: int) -> int:
    """Check for the number of moves that a storage has room for."""
    return number_of("capacity", capacity, 1, 1_048_576)


def expect_keep(keep: object) -> None:
    """Check for a number of segments that stay.

    Raises:
        ValueError: it is none.
    """
    if not isinstance(keep, int) or isinstance(keep, bool) or keep < 1:
        raise ValueError(f"keep is a whole number of segments from 1, and not {keep!r}")


def forked_object() -> NoReturn:
    raise ForkedError("this was made in the parent of this process, and a fork's child has a copy of it alone")


def freed_object(what: str) -> NoReturn:
    raise Error(Code.EMPTY, detail=f"the {what} was freed")


def no_value(name: str, path: str, value: Any) -> NoReturn:
    not_a_value(value, name + path)


def no_list(name: str, it: Any) -> NoReturn:
    raise Error(Code.SHAPE, detail=f"the {name} are a list or a tuple, and not {it!r:.60}")


def no_agent(detail: str, it: Any) -> NoReturn:
    raise TypeError(f"{detail}, and not {'from ' * detail.endswith('from an agent')}{type(it).__name__!r}")


def name(it: Any) -> NoReturn:
    if isinstance(it, str):
        expect_name(it, "a name")
    raise TypeError(f"a name is a str, and not {type(it).__name__!r}")


# Of agents and storages.


def returned_agent(agent: "Agent") -> NoReturn:
    """Raise the error of an agent that isn't held; an agent of a run may know why."""
    getattr(agent, "_raise_why_returned", lambda: None)()
    raise Error(Code.EMPTY, detail="the agent was returned")


def no_such_agent(code: int, own: int) -> NoReturn:
    raise Error(code, detail=f"agent {own}" if code == Code.NUMBER else f"agent {own} was not returned")


def missing(move: int, agents: bytes, is_abandoned: bool) -> NoReturn:
    at_work = sorted(agents)
    detail = f"agent {at_work[0]} was not returned" if at_work else "an agent was abandoned"
    if len(at_work) > 1:
        detail = f"agents {', '.join(map(str, at_work))} were not returned"
    elif at_work and not is_abandoned:
        detail += f": it fired move {move}"
    raise MissingError(Code.MISSING, (move,), detail)


def journal_behind(fired: int, closed: int) -> NoReturn:
    raise Error(Code.NO_JOURNAL, detail=f"{fired} moves were fired, and the journal has {closed}: close it again")


def no_reader() -> NoReturn:
    raise Error(Code.NUMBER, detail="all 256 agents of the storage were made, so ask one of them: it has no number to read with")


def not_full(seen: int) -> NoReturn:
    raise Error(Code.NOT_FULL, detail=f"the agent's own state is at version {seen}, and its storage has room for more moves")


def leave(storage: "Storage", path: str, error: BaseException | None) -> None:
    """Write the journal at the end of a `with`: the file is complete, or as it was."""
    try:
        journal = storage.close_journal()
    except MissingError as missing:
        if error is None:
            raise
        error.add_note(f"the journal wasn't written: {missing}")
    else:
        with replacing(pathlib.Path(path)) as file:
            file.write(journal)


def read(code: int, form: int, text: bytes) -> None:
    if code == Code.MANY:
        count = len(json.loads(text))
        many = f"{count:,} locations: a read, or a step, depends on at most 256 locations and functions"
        expect(code, detail=many if count > 256 else _STEP_LIMITS[code])
    if code == Code.SHAPE and (detail := _bare_name(json.loads(text))):
        expect(code, detail=detail)
    expect_read(code, form, text)


def _bare_name(places: Any) -> str:
    """Return how to pass a name that stands for a location, or for a list of them; else nothing."""
    if isinstance(places, str):
        return f"the locations are a list, as [({places!r},)], and not {places!r}"
    items = enumerate(places, 1) if isinstance(places, list) else ()
    return next((f"location {place}: a location in a list is a tuple, as ({it!r},), and not {it!r}" for place, it in items if isinstance(it, str)), "")


def stands(code: int, agent: "Agent", reads: bytes) -> None:
    if code == Code.AHEAD:
        raise ahead(json.loads(reads), agent.seen)
    if code == Code.MANY:
        expect(code, detail=f"{len(json.loads(reads)):,} reads: at most 256")
    expect_part(code, READS, reads)


def fire(code: int, agent: "Agent", answer: bytes, from_: int, to: int, call: bytes, scans: bytes) -> None:
    if code == Code.AHEAD:
        raise ahead(json.loads(call)["reads"], agent.seen, json.loads(scans))
    if code == Code.SHAPE and not explain(TextForm.MOVE, call):
        expect_scans(code, json.loads(scans))
    if code == Code.MANY:
        count = len(json.loads(call)["reads"]) + len(json.loads(scans))
        expect(code, detail=f"{count:,} reads and scans: a fire names at most 256")
    answer_refused(code, answer, from_, to, ClashError)
    expect_read(code, TextForm.MOVE, call)


def no_part(code: int) -> None:
    expect(code, detail="no part has begun" if code == Code.NO_PART else "the audit was freed")


# Of steps, locations and moves.

_STEP_LIMITS: dict[int, str] = {
    Code.MANY: "a step depends on at most 256 locations and functions",
    Code.LONG_MOVE: "the pushed moves come to more than 4,096 instructions as one",
}


def step_over(code: int, step: "Step") -> NoReturn:
    """Raise the error of a step that is over, or whose agent isn't held.

    A step of a shared run may know why.
    """
    if not step._is_full:
        raise OverError(code)
    getattr(step, "_raise_why_returned", lambda: None)()
    returned_agent(step._agent)


def step(code: int, it: "Step") -> None:
    agent, detail = it._agent, ""
    if code == Code.MOVED and it._thread != agent._thread:
        detail = f"agent {agent.number} is used by two threads"
    expect(code, detail=_STEP_LIMITS.get(code, detail))


def answer_refused(code: int, answer: bytes, from_: int, to: int, clash: type[ClashError]) -> None:
    if code in (Code.STALE, Code.CLASH):
        raise refusal(code, answer, clash)
    if code == Code.BUSY:
        raise BusyError(code, (from_, to))


def commit(code: int, answer: bytes, from_: int, to: int) -> None:
    answer_refused(code, answer, from_, to, CommitClashError)
    expect(code)


def push(code: int, move: bytes, answer: bytes, step: "Step") -> None:
    if code in (Code.CLASH, Code.LARGE):
        error = refusal(code, answer)
        if isinstance(error, ClashError) and error.cause == "Kind":
            (value,) = step.see([error.at])
            error.there = "nothing" if value is None else f"{value!r:.60}"
        raise error
    if code == Code.LONG_MOVE:
        count = f"{len(json.loads(move)):,} more: " if move else ""
        expect(code, detail=f"{count}the moves of a step come to at most 4,096 instructions")
    if code == Code.MANY:
        expect(code, detail="a step depends on at most 256 locations and functions")
    expect_part(code, INSTRUCTIONS, move)


def unite(code: int, own: int, others: int) -> None:
    many = f"{own:,} instructions and {others:,} more: a move has at most 4,096"
    expect(code, detail=many if code == Code.LONG_MOVE else "")


def location(code: int, text: bytes) -> None:
    expect_read(code, TextForm.LOCATIONS, b"[%b]" % text if code == Code.SHAPE else text)


def members(code: int, place: bytes, element: bytes) -> None:
    """Raise why no element is counted at a location; the element is the text of a list, or empty."""
    if element and code in (Code.NOT_JSON, Code.SHAPE):
        addition = b'[["add",%b,%b]]' % (place, element)
        if code == Code.NOT_JSON or explain(TextForm.MOVE, INSTRUCTIONS % addition):
            expect_part(code, INSTRUCTIONS, addition)
    if code == Code.SHAPE:
        expect(code, detail=f"the value of {place.decode()} is no set and no bag")
    expect(code, detail="a set or a bag is no element" if code == Code.OPERAND else "")


def instruct(code: int, place: bytes, verb: int, kind: int, number: int, text: bytes | None, amount: int) -> None:
    if kind > TEXT and code in (Code.NOT_JSON, Code.SHAPE):
        expect_part(code, INSTRUCTIONS, b'[["%b",%b,%b%b]]' % (_WORDS[verb], place, text or b"", b",%d" % amount if amount else b""))
    if code == Code.OPERAND:
        expect(code, detail="inc takes a whole number" if verb == INC else "a set or a bag can be put, and is no element")
    expect(code, detail="a move has at most 4,096 instructions" if code == Code.LONG_MOVE else "")


_core.use(sys.modules[__name__])
