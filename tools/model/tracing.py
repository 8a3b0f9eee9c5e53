"""Traces: what each call of a history did, and whether a text is its trace.

They are written from docs/FORMATS.md.
"""

import jsontext
from journal import Event, Fire, Fired, History, Reply, Storage, Values, event_json, first_illegal, reply_json
from jsontext import Json
from moves import Clash, Move, updates_on
from values import (
    UNDEF,
    BagValue,
    Element,
    Location,
    SetValue,
    State,
    Value,
    element_json,
    location_json,
    pairs_json,
    read_element,
    read_location,
    read_state,
    read_value,
    value_json,
    write_to,
)

TRACE_VERSION = 1


def write_trace(history: History) -> bytes:
    """Return the text of the trace, whether the history is legal or not."""
    header = {
        "agents": history.agents,
        "capacity": history.capacity,
        "events": len(history.events),
        "init": pairs_json(history.init),
        "trace": TRACE_VERSION,
    }
    storage = Storage(history.init, history.capacity)
    lines = [header, *(event_line(storage, number, it) for number, it in enumerate(history.events))]
    return "".join(jsontext.write(line) + "\n" for line in lines).encode()


def event_line(storage: Storage, number: int, event: Event) -> dict[str, Json]:
    """Return the line of an event; the storage follows the event, right or wrong."""
    line = event_json(event) | {"event": number}
    right = storage.judge(event.call)
    if type(right) is not type(event.reply) or right != event.reply:
        line["right"] = _right_json(event.reply, right)
    if isinstance(event.reply, Fired):
        assert isinstance(event.call, Fire)
        line["updates"] = [_change_json(*it) for it in _changes(storage, event.call.move)]
        storage.follow(event.call.move)
    return line


def _right_json(given: Reply, right: Reply) -> Json:
    """Return the right reply beside the given one.

    For a read, the reply has only the positions of the values that differ.
    """
    if not (isinstance(given, Values) and isinstance(right, Values)):
        return reply_json(right)
    differs = [i for i, value in enumerate(right.values) if given.values[i : i + 1] != [value]]
    return {"differs": differs, "number": right.number}


def _changes(storage: Storage, move: Move) -> list[tuple[Location, Value, Value]]:
    try:
        written = updates_on(storage.state, move)
    except Clash:
        return []
    return [(at, storage.state.get(at, UNDEF), new) for at, new in sorted(written.items())]


def _change_json(at: Location, old: Value, new: Value) -> Json:
    if isinstance(old, SetValue) and isinstance(new, SetValue):
        sides = {"added": new.members - old.members, "removed": old.members - new.members}
        return [location_json(at), {side: _elements_json(them) for side, them in sides.items()}]
    if isinstance(old, BagValue) and isinstance(new, BagValue):
        counts = [(it, old.counts.get(it, 0), new.counts.get(it, 0)) for it in sorted({*old.counts, *new.counts})]
        changed: Json = [[element_json(it), was, now] for it, was, now in counts if was != now]
        return [location_json(at), {"counts": changed}]
    return [location_json(at), value_json(old), value_json(new)]


def _elements_json(elements: frozenset[Element]) -> Json:
    return [element_json(it) for it in sorted(elements)]


class NoTrace(Exception):
    """A text isn't a trace of the history, for the given reason."""


def check_trace(history: History, text: bytes) -> None:
    """Raise `NoTrace` if `right` isn't where the check says, or the state differs.

    The state is the one after the changes. That each line has the journal's call and reply is seen by comparing with
    `write_trace`.
    """
    header, *lines = map(jsontext.read, text.splitlines())
    rights = [number for number, line in enumerate(lines) if "right" in line]
    illegal = first_illegal(history)
    if rights[:1] != ([] if illegal is None else [illegal]):
        raise NoTrace(f"the first right answers are at {rights[:1]}, and the first illegal call is {illegal}")
    state = read_state(header["init"])
    storage = Storage(history.init, history.capacity)
    for number, (line, event) in enumerate(zip(lines, history.events, strict=True)):
        for change in line.get("updates", []):
            at, new = _apply_change(state, change, number)
            write_to(state, at, new)
        if isinstance(event.reply, Fired):
            assert isinstance(event.call, Fire)
            storage.follow(event.call.move)
    if state != storage.state:
        raise NoTrace("the changes leave another state than the moves")


def _apply_change(state: State, change: Json, number: int) -> tuple[Location, Value]:
    """Return the value of a location after a change, which must have the old value."""
    place, *difference = change
    at = read_location(place)
    old = state.get(at, UNDEF)
    if len(difference) == 2:
        _agree(read_value(difference[0]) == old, number)
        return at, read_value(difference[1])
    if "counts" in difference[0]:
        _agree(isinstance(old, BagValue), number)
        counts = dict(old.counts)
        for element, was, now in difference[0]["counts"]:
            _agree(counts.pop(read_element(element), 0) == was != now, number)
            counts |= {read_element(element): now} if now else {}
        return at, BagValue(counts)
    _agree(isinstance(old, SetValue), number)
    added, removed = (frozenset(map(read_element, difference[0][side])) for side in ("added", "removed"))
    _agree(not added & old.members and removed <= old.members, number)
    return at, SetValue((old.members - removed) | added)


def _agree(agrees: bool, number: int) -> None:
    if not agrees:
        raise NoTrace(f"a change of event {number} doesn't fit the value before it")
