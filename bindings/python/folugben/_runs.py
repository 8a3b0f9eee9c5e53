"""The states of a run, move by move."""
import functools
import os
from collections.abc import Iterator
from typing import TYPE_CHECKING, Any

from ._errors import Text
from ._functions import trace
from ._reading import texts
from ._shared import SharedRun
from ._texts import encode, to_python

if TYPE_CHECKING:
    from ._run import Run


def _sort_key(element: Any) -> tuple[Any, ...]:
    """Return the sort key of elements in the order of the storage."""
    if isinstance(element, dict):
        return 5, len(element["list"]), [_sort_key(it) for it in element["list"]]
    if isinstance(element, bool) or element is None:
        return (0 if element is None else 2 if element else 1,)
    return (3, element) if isinstance(element, int) else (4, element.encode())


def _apply_change(old: Any, change: list[Any]) -> Any:
    """Return the value after a change of a trace."""
    if len(change) == 3:
        return change[2]
    difference = change[1]
    if "counts" in difference:
        counts = {encode(element, "element"): [element, count] for element, count in old["bag"]}
        for element, _, count in difference["counts"]:
            counts[encode(element, "element")] = [element, count]
        return {"bag": sorted((it for it in counts.values() if it[1]), key=lambda it: _sort_key(it[0]))}
    members = {encode(element, "element"): element for element in old["set"] + difference["added"]}
    for element in difference["removed"]:
        members.pop(encode(element, "element"), None)
    return {"set": sorted(members.values(), key=_sort_key)}


def states(run: "Text | os.PathLike[str] | Run | SharedRun") -> Iterator[tuple[int, dict[tuple[Any, ...], Any]]]:
    """Yield the number and the values of each state of a run.

    The opening state comes first, as number 0, or what the first segment opens with that wasn't dropped, with its number.

    The run is a journal, a stored run by a path that is no str, or a `Run` or a `SharedRun`, of which the saved part is read.
    The values are those of the locations that have one, by the location, such as ("count",), in a separate dict for each state.

    Raises:
        BadJournalError: it is no journal.
        ValueError: two of the locations are one key in Python, such as ("f", True) and ("f", 1).
    """
    if isinstance(run, (bytes, bytearray, memoryview, str)):
        journals: Iterator[tuple[int, Text]] = iter([(0, run)])
    else:
        journals = texts(run if isinstance(run, os.PathLike) else run.target if isinstance(run, SharedRun) else run.path)
    for place, (base, journal) in enumerate(journals):
        for number, values in states_by_text(journal):
            # What opens a later segment was yielded before.
            if number > 0 or place == 0:
                yield base + number, by_place(values)


def by_place(values: dict[str, Any]) -> dict[tuple[Any, ...], Any]:
    """Return the same values by location instead of by the location's text."""
    result = {_place(at): value for at, value in values.items()}
    if len(result) < len(values):
        seen = dict[tuple[Any, ...], str]()
        other, at = next((was, at) for at in values if (was := seen.setdefault(_place(at), at)) != at)
        raise ValueError(f"{other} and {at} are two locations, and one key in Python, where True == 1: read the trace")
    return result


@functools.lru_cache(65536)
def _place(text: str) -> tuple[Any, ...]:
    place: tuple[Any, ...] = to_python(text.encode(), True)
    return place


def states_by_text(journal: Text) -> Iterator[tuple[int, dict[str, Any]]]:
    """Yield the states of a journal by the locations' texts.

    They are one dict, which each further move changes.
    """
    lines = trace(journal)
    json_values = {encode(at, "at").decode(): value for at, value in next(lines)["init"] if value is not None}
    values = {at: _own(value) for at, value in json_values.items()}
    yield 0, values
    number = 0
    for event in lines:
        if "updates" not in event:
            continue
        number += 1
        for change in event["updates"]:
            at = encode(change[0], "at").decode()
            json_values[at] = _apply_change(json_values.get(at), change)
            values[at] = _own(json_values[at])
            if json_values[at] is None:
                del json_values[at], values[at]
        yield number, values


def _own(value: Any) -> Any:
    return to_python(encode(value, "value")) if isinstance(value, dict) else value
