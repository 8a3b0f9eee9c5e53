"""Elements, locations and values: their orders and their JSON forms.

An element is a pair of its kind's rank and its content, a list's content the number of its items and these, and a location its
name, the number of its arguments and these. So the order of Python's tuples is the order of elements and of locations. Texts
are ordered by code points, which is the order of their bytes in UTF-8.
"""

import re
from collections.abc import Callable, Iterable
from dataclasses import dataclass
from typing import TypeVar, Union

from jsontext import I64, U32, Json, is_integer

Listed = tuple[int, tuple["Element", ...]]
Element = tuple[int, Union[int, str, Listed]]
Location = tuple[str, int, tuple[Element, ...]]
Read = TypeVar("Read")

UNDEF: Element = (0, 0)
FALSE: Element = (1, 0)
TRUE: Element = (2, 0)
NUMBER = 3
TEXT = 4
LIST = 5

NAME = re.compile(r"[A-Za-z_][A-Za-z0-9_]{0,63}", re.ASCII)
MAX_ARGUMENTS = 8
MAX_ITEMS = 4096
# A list of no lists has depth 1.
MAX_LIST_DEPTH = 8
COUNTS = U32[1:]


class WrongShape(Exception):
    """A JSON value is none of the forms that are allowed at its place."""


@dataclass(frozen=True)
class SetValue:
    members: frozenset[Element]


@dataclass(frozen=True)
class BagValue:
    """The counts of elements; none is 0."""

    counts: dict[Element, int]


# An element is a value too, and represents itself.
Value = Union[Element, SetValue, BagValue]
State = dict[Location, Value]


def is_element(value: Value) -> bool:
    return isinstance(value, tuple)


def write_to(state: State, at: Location, value: Value) -> None:
    """Assign a location its value; a state holds no undef."""
    if value == UNDEF:
        state.pop(at, None)
    else:
        state[at] = value


def integer(value: Json, within: range) -> int:
    if not is_integer(value, within):
        raise WrongShape
    return value


def items(value: Json, most: int | None = None) -> list[Json]:
    if not isinstance(value, list) or (most is not None and len(value) > most):
        raise WrongShape
    return value


def members(value: Json, count: int) -> list[Json]:
    if not isinstance(value, list) or len(value) != count:
        raise WrongShape
    return value


def entries(value: Json, *keys: str) -> list[Json]:
    """Return the values of an object of exactly these keys, in the order of the keys."""
    if not isinstance(value, dict) or set(value) != set(keys):
        raise WrongShape
    return [value[key] for key in keys]


def has_key(value: Json, key: str) -> bool:
    return isinstance(value, dict) and set(value) == {key}


def distinct(keys: Iterable[Read]) -> list[Read]:
    """Return the list; one that has an item twice is a wrong shape."""
    listed = list(keys)
    if len(set(listed)) != len(listed):
        raise WrongShape
    return listed


def read_element(value: Json, depth: int = 0) -> Element:
    """Read an element that is in as many lists as the depth."""
    if has_key(value, "list"):
        if depth == MAX_LIST_DEPTH:
            raise WrongShape
        listed = tuple(read_element(it, depth + 1) for it in items(value["list"], MAX_ITEMS))
        return (LIST, (len(listed), listed))
    if value is None:
        return UNDEF
    if isinstance(value, bool):
        return TRUE if value else FALSE
    if isinstance(value, str):
        return (TEXT, value)
    return (NUMBER, integer(value, I64))


def element_json(element: Element) -> Json:
    rank, content = element
    if rank == LIST:
        return {"list": [element_json(it) for it in content[1]]}
    return {UNDEF: None, FALSE: False, TRUE: True}.get(element, content)


def read_location(value: Json) -> Location:
    listed = items(value, 1 + MAX_ARGUMENTS)
    if not listed or not isinstance(listed[0], str) or not NAME.fullmatch(listed[0]):
        raise WrongShape
    arguments = tuple(map(read_element, listed[1:]))
    return (listed[0], len(arguments), arguments)


def location_json(at: Location) -> Json:
    return [at[0], *map(element_json, at[2])]


def read_value(value: Json) -> Value:
    if has_key(value, "set"):
        return SetValue(frozenset(distinct(map(read_element, items(value["set"])))))
    if has_key(value, "bag"):
        counted = [members(it, 2) for it in items(value["bag"])]
        listed = distinct(read_element(element) for element, _ in counted)
        return BagValue(dict(zip(listed, (integer(count, COUNTS) for _, count in counted))))
    return read_element(value)


def value_json(value: Value) -> Json:
    if isinstance(value, SetValue):
        return {"set": [element_json(it) for it in sorted(value.members)]}
    if isinstance(value, BagValue):
        return {"bag": [[element_json(it), count] for it, count in sorted(value.counts.items())]}
    return element_json(value)


def read_state(value: Json) -> State:
    """Read a list of pairs; one with undef holds nothing.

    Its location must still occur only once.
    """
    pairs = [members(it, 2) for it in items(value)]
    places = distinct(read_location(at) for at, _ in pairs)
    state: State = {}
    for at, (_, held) in zip(places, pairs):
        write_to(state, at, read_value(held))
    return state


def pairs_json(state: State) -> list[Json]:
    return [[location_json(at), value_json(value)] for at, value in sort_entries(state)]


def sort_entries(state: State) -> list[tuple[Location, Value]]:
    return sorted(state.items(), key=lambda entry: entry[0])


def read_all(value: Json, read: Callable[[Json], Read], most: int | None = None) -> list[Read]:
    return [read(it) for it in items(value, most)]
