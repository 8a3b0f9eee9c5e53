"""The findings of a search: a broken invariant, or a program's error."""
from collections.abc import Callable, Iterator, Mapping, Sequence
from typing import Any, NamedTuple, TypeAlias

from ._footprint import Footprint
from ._runs import by_place, states_by_text

# The condition on a state: if it doesn't hold, it returns False or raises an AssertionError.
Invariant: TypeAlias = Callable[[Mapping[tuple[Any, ...], Any]], object]


class Event(NamedTuple):
    """A poll or a fire of an agent, with its further calls up to the next one.

    The bits of `before` are the events that come before it in each schedule that leads to the same answers.
    """

    agent: int
    footprint: Footprint
    calls: int
    is_move: bool
    before: int


class Breach(NamedTuple):
    """What doesn't hold, after these events."""

    events: list[Event]
    broken: str
    error: BaseException | None = None


class Holds:
    """The conditions on each state, and on the last one."""

    def __init__(self, invariant: Invariant | None, at_end: Invariant | None) -> None:
        self._invariant, self._at_end = invariant, at_end
        # What is known of states, by their texts.
        self._verdicts: dict[str, str | None] = {}

    def breach(self, events: list[Event], errors: Mapping[int, BaseException], journal: bytes) -> Breach | None:
        """Return what doesn't hold in a schedule, or in an equivalent one.

        Schedules are equivalent if their dependent events have the same order.
        """
        for number in sorted(errors):
            return Breach(events, f"agent {number} raised {errors[number]!r}", errors[number])
        moments = [dict(values) for _, values in states_by_text(journal)]
        moves = [at for at, event in enumerate(events) if event.is_move]
        if self._invariant is not None:
            for count, values in enumerate(moments):
                if (why := self._verdict(values)) is not None:
                    some = events[: moves[count - 1] + 1] if count else []
                    return Breach(some, f"the invariant doesn't hold after move {count}{why}")
            for cut, values in _cuts(events, moves, moments):
                if (why := self._verdict(values)) is not None:
                    return Breach(_up_to(events, cut), f"the invariant doesn't hold after move {len(cut)}{why}")
        if self._at_end is not None and (why := _violation(self._at_end, moments[-1])) is not None:
            return Breach(events, f"at the end it doesn't hold{why}")
        return None

    def is_broken(self, journal: bytes) -> bool:
        """Return whether something doesn't hold in this very schedule."""
        values: dict[str, Any] = {}
        for _, values in states_by_text(journal):
            if self._invariant is not None and self._verdict(values) is not None:
                return True
        return self._at_end is not None and _violation(self._at_end, values) is not None

    def _verdict(self, values: dict[str, Any]) -> str | None:
        assert self._invariant is not None
        key = repr(sorted(values.items()))
        if key not in self._verdicts:
            self._verdicts[key] = _violation(self._invariant, values)
        return self._verdicts[key]


def _violation(holds: Invariant, values: dict[str, Any]) -> str | None:
    """Return why something doesn't hold, or None if it does."""
    try:
        why = holds(by_place(values))
    except AssertionError as error:
        return f": {error}" if str(error) else ""
    return None if why is None or why else ""


def _cuts(events: Sequence[Event], moves: list[int], moments: list[dict[str, Any]]) -> Iterator[tuple[list[int], dict[str, Any]]]:
    """Yield the states between moves in equivalent schedules, with the moves before.

    All equivalent schedules are covered.

    Schedules are equivalent if their dependent events have the same order.
    """
    predecessors = [[it for it in moves if events[move].before >> it & 1] for move in moves]
    seen, layer = {frozenset[int]()}, [frozenset[int]()]
    while layer:
        further = list[frozenset[int]]()
        for cut in layer:
            for move, before in zip(moves, predecessors):
                more = cut | {move}
                if move not in cut and more not in seen and cut.issuperset(before):
                    seen.add(more)
                    further.append(more)
                    yield sorted(more), _values(events, moves, moments, more)
        layer = further


def _values(events: Sequence[Event], moves: list[int], moments: list[dict[str, Any]], cut: frozenset[int]) -> dict[str, Any]:
    """Return the values after some of the moves.

    Each location has the value of the last of them that writes it.
    """
    values = dict(moments[0])
    for count, move in enumerate(moves, 1):
        if move in cut:
            for at in events[move].footprint.writes:
                if at in moments[count]:
                    values[at] = moments[count][at]
                else:
                    values.pop(at, None)
    return values


def _up_to(events: Sequence[Event], moves: list[int]) -> list[Event]:
    """Return these moves and all events that come before them."""
    bits = 0
    for move in moves:
        bits |= events[move].before | 1 << move
    return [event for at, event in enumerate(events) if bits >> at & 1]


def turns_for(some: list[Event], events: list[Event], begins: list[int]) -> list[int]:
    """Return the turns by which some of the events of a schedule come first.

    They are in the form that `interleave` takes.
    """
    left, due = list(begins), list(begins)
    for event in events:
        left[event.agent] += event.calls
    order = list[int]()
    for event in some:
        # What an agent does between two events may come right before the second one.
        order += [event.agent] * (due[event.agent] + 1)
        due[event.agent] = event.calls - 1
    turns, forced, last = list[int](), 0, -1
    for agent in order:
        alive = [it for it, count in enumerate(left) if count > 0]
        turns.append(alive.index(agent))
        # After the end of a list the current agent continues, or else the first.
        if agent != (last if last in alive else alive[0]):
            forced = len(turns)
        left[agent] -= 1
        last = agent
    return turns[:forced]
