"""Moves: their JSON forms, their effect on a state, and their composition."""

from collections import defaultdict
from collections.abc import Callable
from typing import NamedTuple, TypeVar, Union

from families import Change, Increment, NoResult, Partial, TooLarge, family_of
from jsontext import I64, Json
from values import (
    COUNTS,
    UNDEF,
    Location,
    State,
    Value,
    WrongShape,
    element_json,
    items,
    location_json,
    read_element,
    read_location,
    read_value,
    value_json,
    integer,
)


class Put(NamedTuple):
    """A regular update."""

    value: Value


Action = Union[Put, Partial]
Instruction = tuple[Location, Action]
Move = list[Instruction]
Content = TypeVar("Content")

MAX_INSTRUCTIONS = 4096
# The words of partial updates of sets and bags: family, whether they add, and whether an amount follows the element.
WORDS = {
    "add": ("set", True, False),
    "remove": ("set", False, False),
    "bagadd": ("bag", True, True),
    "bagremove": ("bag", False, True),
}
INCREMENT = "inc"


class Clash(Exception):
    def __init__(self, at: Location, cause: str) -> None:
        super().__init__(at, cause)
        self.at = at
        self.cause = cause


class LargeAmount(Exception):
    def __init__(self, at: Location) -> None:
        super().__init__(at)
        self.at = at


class ManyInstructions(Exception):
    """The composed move has more instructions than a move may have."""


def read_instruction(value: Json) -> Instruction:
    return read_with(value, read_value, read_element)


def read_with(
    value: Json, read_put: Callable[[Json], Content], read_part: Callable[[Json], Content]
) -> tuple[Location, Union[Put, Partial]]:
    """Read an instruction.

    The one reader reads what it puts, the other one the element of a partial update.
    """
    listed = items(value, 4)
    if len(listed) < 3 or not isinstance(listed[0], str):
        raise WrongShape
    word, at, content, *operands = listed
    if word == "put" and not operands:
        return read_location(at), Put(read_put(content))
    if word == INCREMENT and not operands:
        return read_location(at), Increment(integer(content, I64))
    if word not in WORDS or len(operands) != WORDS[word][2]:
        raise WrongShape
    family, adds, _ = WORDS[word]
    amount = integer(operands[0], COUNTS) if operands else 1
    return read_location(at), Change(family, adds, read_part(content), amount)


def instruction_json(instruction: Instruction) -> Json:
    at, action = instruction
    if isinstance(action, Put):
        return ["put", location_json(at), value_json(action.value)]
    if isinstance(action, Increment):
        return [INCREMENT, location_json(at), action.number]
    for word, (family, adds, has_amount) in WORDS.items():
        if (family, adds) == (action.family, action.adds):
            amounts = [action.amount] if has_amount else []
            return [word, location_json(at), element_json(action.element), *amounts]
    raise AssertionError(action)


def group_by_location(move: Move) -> dict[Location, list[Action]]:
    groups: dict[Location, list[Action]] = defaultdict(list)
    for at, action in move:
        groups[at].append(action)
    return groups


def split(group: list[Action]) -> tuple[list[Value], list[Partial]]:
    """Return the regular values of a group, and its partial updates.

    The regular values are one, none or a clash.
    """
    regular: list[Value] = []
    for action in group:
        if isinstance(action, Put) and action.value not in regular:
            regular.append(action.value)
    if len(regular) > 1:
        raise NoResult("Two")
    return regular, [it for it in group if not isinstance(it, Put)]


def result(old: Value, group: list[Action]) -> Value:
    regular, partials = split(group)
    if not partials:
        return regular[0]
    base = regular[0] if regular else old
    return family_of(partials).apply(base, bool(regular), partials)


def updates(look_up: Callable[[Location], Value], move: Move) -> dict[Location, Value]:
    """Return what the move writes, or raise a clash.

    The clash is at the smallest location that has no result.
    """
    written: dict[Location, Value] = {}
    for at, group in sorted(group_by_location(move).items()):
        try:
            written[at] = result(look_up(at), group)
        except NoResult as error:
            raise Clash(at, error.cause) from error
    return written


def updates_on(state: State, move: Move) -> dict[Location, Value]:
    return updates(lambda at: state.get(at, UNDEF), move)


def compose_moves(first: Move, second: Move) -> Move:
    """Return the move that does what the two do in sequence."""
    sides = group_by_location(first), group_by_location(second)
    both: Move = []
    for at in sorted({*sides[0], *sides[1]}):
        try:
            actions = _compose_groups(sides[0].get(at, []), sides[1].get(at, []))
        except NoResult as error:
            raise Clash(at, error.cause) from error
        except TooLarge as error:
            raise LargeAmount(at) from error
        both += [(at, action) for action in actions]
    if len(both) > MAX_INSTRUCTIONS:
        raise ManyInstructions
    return both


def _alone(group: list[Action]) -> list[Value]:
    """Return the regular value of a group, if it has one.

    Otherwise raise the cause that it has on each old value.
    """
    regular, partials = split(group)
    if regular:
        return [result(UNDEF, group)]
    if partials:
        family_of(partials).check_alone(partials)
    return []


def _compose_groups(first: list[Action], second: list[Action]) -> list[Action]:
    before = _alone(first)
    regular, partials = split(second)
    if regular:
        return [Put(value) for value in _alone(second)]
    if before:
        return [Put(result(before[0], second) if second else before[0])]
    _alone(second)
    earlier = split(first)[1]
    sides = [family_of(side) for side in (earlier, partials) if side]
    if sides[0] is not sides[-1]:
        raise NoResult("Kind")
    return list(sides[0].join_updates(earlier, partials))

