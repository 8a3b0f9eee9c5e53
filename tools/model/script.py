"""Scripts: their JSON form, the limits checked after it, and the results of steps.

The results of a step are those of its terms and blocks.
"""

from collections.abc import Callable
from dataclasses import dataclass
from typing import NamedTuple, Union

import jsontext
from families import Increment, Partial
from jsontext import I64, Json
from moves import MAX_INSTRUCTIONS, Move, Put, compose_moves, read_with, updates
from values import (
    NUMBER,
    UNDEF,
    Location,
    State,
    Value,
    WrongShape,
    entries,
    has_key,
    is_element,
    items,
    location_json,
    members,
    read_all,
    read_location,
    read_state,
    read_value,
    value_json,
)

MAX_AGENTS = 256
MAX_BLOCKS = 65
MAX_READS = 256
# The characters that a terminal obeys, or changes the direction for, instead of showing them.
OBEYED = [
    *[range(0x20), range(0x7F, 0xA0), range(0x61C, 0x61D), range(0x200E, 0x2010)],
    *[range(0x2028, 0x202F), range(0x2066, 0x206A)],
]


class Val(NamedTuple):
    """The term that is the value of a location."""

    at: Location


class Sum(NamedTuple):
    left: "Term"
    right: "Term"


class Constant(NamedTuple):
    """The term that is a value."""

    value: Value


Term = Union[Constant, Val, Sum]
# An instruction with terms: what it puts, or the element of a partial update, is a term.
Block = list[tuple[Location, Union[Put, Partial]]]
Step = list[Block]
Lookup = Callable[[Location], Value]


class BadScript(Exception):
    """The script is refused, for the given cause."""


class NoTerm(Exception):
    """A term of the step has no value; the error has the place and the cause."""


@dataclass
class Script:
    init: State
    agents: list[list[Step]]


def read_script(text: bytes) -> Script:
    """Read a script, or raise the first cause why it is refused."""
    try:
        init, agents = entries(jsontext.read(text), "init", "agents")
        script = Script(read_state(init), read_all(agents, _read_agent))
    except jsontext.NotJson as error:
        raise BadScript("not JSON") from error
    except WrongShape as error:
        raise BadScript("shape") from error
    if len(script.agents) > MAX_AGENTS:
        raise BadScript("agents")
    for steps in script.agents:
        for step in steps:
            _check_step(step)
    return script


def _read_agent(value: Json) -> list[Step]:
    return [[read_all(block, _read_line) for block in items(step)] for step in items(value)]


def _read_line(value: Json) -> tuple[Location, Union[Put, Partial]]:
    return read_with(value, read_term, read_term)


def read_term(value: Json) -> Term:
    if has_key(value, "val"):
        return Val(read_location(value["val"]))
    if has_key(value, "sum"):
        return Sum(*map(read_term, members(value["sum"], 2)))
    return Constant(read_value(value))


def _check_step(step: Step) -> None:
    if not 1 <= len(step) <= MAX_BLOCKS:
        raise BadScript("blocks")
    if any(len(block) > MAX_INSTRUCTIONS for block in step):
        raise BadScript("instructions")
    if len(reads(step)) > MAX_READS:
        raise BadScript("reads")


def reads(step: Step) -> list[Location]:
    """Return the names under `val` of a step, and the targets of its partial updates.

    The targets are those in all blocks but the last.
    """
    found: set[Location] = set()
    for number, block in enumerate(step, 1):
        for at, action in block:
            if isinstance(action, Put):
                _gather(action.value, found)
                continue
            if number < len(step):
                found.add(at)
            if not isinstance(action, Increment):
                _gather(action.element, found)
    return sorted(found)


def _gather(term: Term, found: set[Location]) -> None:
    if isinstance(term, Val):
        found.add(term.at)
    elif isinstance(term, Sum):
        _gather(term.left, found)
        _gather(term.right, found)


def step_move(step: Step, reading: State) -> Move:
    """Return the one move of the blocks.

    Each block is on what was read, as those before it overwrite it.
    """
    seen = dict(reading)
    one_move: Move = []
    for number, block in enumerate(step):
        move = _block_move(number, block, seen)
        if number + 1 < len(step):
            seen.update(updates(lambda at: seen.get(at, UNDEF), move))
        one_move = compose_moves(one_move, move) if number else move
    return one_move


def _block_move(number: int, block: Block, seen: State) -> Move:
    move: Move = []
    for at, line in enumerate(block):
        try:
            move.append(_evaluate(line, seen))
        except NoTerm as error:
            raise NoTerm(f"block {number} instruction {at}: {error}") from error
    return move


def _evaluate(
    line: tuple[Location, Union[Put, Partial]], seen: State
) -> tuple[Location, Union[Put, Partial]]:
    at, action = line
    if isinstance(action, Put):
        return at, Put(_value(action.value, seen))
    if isinstance(action, Increment):
        return at, action
    element = _value(action.element, seen)
    if not is_element(element):
        raise NoTerm(f"{_describe(action.element, element)} is no element")
    return at, action._replace(element=element)


def _value(term: Term, seen: State) -> Value:
    if isinstance(term, Constant):
        return term.value
    if isinstance(term, Val):
        return seen.get(term.at, UNDEF)
    left, right = _number(term.left, seen), _number(term.right, seen)
    if left + right not in I64:
        raise NoTerm(f"the sum of {left} and {right} is out of range")
    return (NUMBER, left + right)


def _number(term: Term, seen: State) -> int:
    value = _value(term, seen)
    if not is_element(value) or value[0] != NUMBER:
        raise NoTerm(f"{_describe(term, value)} is no number")
    return value[1]


def _describe(term: Term, value: Value) -> str:
    text = _show(value_json(value))
    return f"{_show(location_json(term.at))} holds {text}, which" if isinstance(term, Val) else text


def _show(value: Json) -> str:
    """Return the JSON of the value as a message shows it.

    These are its first 200 bytes, and escaped what a terminal would obey.
    """
    shown = ""
    for character in jsontext.write(value):
        if len(shown.encode()) >= 200:
            return shown + "..."
        shown += f"\\u{ord(character):04x}" if any(ord(character) in it for it in OBEYED) else character
    return shown
