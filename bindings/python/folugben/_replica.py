"""A replica of a shared run.

It is a storage to which one agent fires the calls of the log, in their order.
"""
import re
import time
from typing import NamedTuple

from ._core import Agent, Storage
from ._errors import Error, ManyError, TooLongError
from ._library import Code
from ._log import Call, LogReader
from ._segments import Segment, Trail, segment_after

_OWN, _HEADER = re.compile(rb'^\{"agent":0,', re.MULTILINE), re.compile(rb'\{"agents":\d+,')
# A segment ends after this many calls for each of its moves, as stale ones are retained too.
_CALLS = 2
# How often a call of the log is tried that was refused memory, and how long after.
_TRIES, _PAUSE = 100, 0.01
# How many agents a storage makes: their numbers are below it.
_AGENTS = 256


class Answer(NamedTuple):
    """The answer to a call of this process: the number of its move, or its error."""

    fired: int
    error: Error | None


class EndedSegment(NamedTuple):
    """A segment that has ended, with its text and the place of its last call."""

    segment: Segment
    text: bytes
    last_place: int


class Era:
    """A storage of a replica.

    It has its number among the segments and the number of moves before it.
    """

    def __init__(self, state: bytes, number: int, base: int, moves: int) -> None:
        self.number, self.base = number, base
        # The numbers that agents of this process may have in the storage.
        self._free_numbers, self._used_numbers = list(range(_AGENTS - 1, 0, -1)), set[int]()
        self.storage = Storage._open_text(state, moves)
        self.applier = self.storage.agent(0)
        # The agents of the calls, as in the log.
        self.agents: list[int] = []

    def agent(self) -> Agent:
        """Return an agent of this process for beginning steps; it fires nothing."""
        if not self._free_numbers:
            raise ManyError(Code.MANY, detail=f"one process has at most {_AGENTS - 1} agents of a shared run")
        number = self._free_numbers.pop()
        if number in self._used_numbers:
            agent = self.storage.take(number)
        else:
            self._used_numbers.add(number)
            agent = self.storage.agent(number)
        agent._base = self.base
        return agent

    def leave(self, agent: Agent) -> None:
        """Take back an agent of this process."""
        if agent._is_full:
            self.storage.give(agent)
            self._free_numbers.append(agent.number)

    def journal(self) -> bytes:
        """Close it and return its journal, with the agents' numbers of the log."""
        self.storage.give(self.applier)
        numbers = iter(self.agents)
        journal = _OWN.sub(lambda _: b'{"agent":%d,' % next(numbers), self.storage.close_journal())
        # Agents that have only begun steps count there too.
        return _HEADER.sub(b'{"agents":%d,' % (max(self.agents, default=-1) + 1), journal, 1)


class Replica:
    """The state of a shared run up to a place of its log.

    Equal calls in equal order have equal answers, so all replicas of a run agree on each answer, and on where a segment ends.
    """

    def __init__(self, log: LogReader, last: Segment | None = None) -> None:
        self._moves = log.moves
        self.segment, self.applied = log.segment_end(last)
        trail = Trail()
        trail.name(self.segment.name, log.length(self.segment.name))
        for chunk in log.text(self.segment.name):
            trail.core.text(chunk)
        trail.end()
        self.era = Era(trail.core.state(), self.segment.number + 1, self.segment.end, self._moves)
        self._fired = 0

    def apply(self, place: int, call: Call, is_own: bool = False) -> tuple[Answer | None, EndedSegment | None]:
        """Fire the call at the next place.

        Return its answer, if it is this process's own and its segment hadn't ended, and what it has ended.
        """
        era, answer = self.era, None
        if call.segment == era.number:
            answer = self._fire(era, call, is_own)
        self.applied = place
        if self._fired < self._moves and len(era.agents) < _CALLS * self._moves:
            return answer, None
        return answer, self._end(era, place)

    def _fire(self, era: Era, call: Call, is_own: bool) -> Answer | None:
        fired, error = 0, None
        try:
            fired = _fired(era.applier, call.call.encode(), call.scans.encode())
        except Error as refused:
            error = refused
        if error is None or error.code in (Code.STALE, Code.CLASH):
            era.agents.append(call.agent)
        if error is None:
            self._fired = fired
        return Answer(fired and era.base + fired, error) if is_own else None

    def _end(self, era: Era, place: int) -> EndedSegment:
        state = self.state_text()[1]
        following = Era(state, era.number + 1, era.base + self._fired, self._moves)
        self.segment, text = self.unfinished()
        self.era, self._fired = following, 0
        return EndedSegment(self.segment, text, place)

    def unfinished(self) -> tuple[Segment, bytes]:
        """Close the storage: return the segment that ends here, with its text."""
        text = self.era.journal()
        return segment_after(self.segment, self._fired, len(self.era.agents), text), text

    def state_text(self) -> tuple[int, bytes]:
        """Return the number of moves of the run up to its place, and the state's text."""
        era = self.era
        era.applier.follow()
        number, text = era.applier._state_text()
        return era.base + number, text


def _fired(applier: Agent, text: bytes, scans: bytes) -> int:
    """Fire a call, again if it is refused memory, but not without end."""
    for _ in range(_TRIES):
        try:
            return applier._fire(text, scans)
        except MemoryError:
            time.sleep(_PAUSE)
    return applier._fire(text, scans)


def unsaved(log: LogReader, last: Segment) -> list[tuple[Segment, bytes]]:
    """Return what the log has after a saved segment, with the texts.

    Raises:
        Behind: further segments were saved meanwhile, and these calls dropped.
    """
    replica, segments = Replica(log, last), list[tuple[Segment, bytes]]()
    try:
        while placed_calls := log.calls_after(replica.applied):
            for place, call in placed_calls:
                _, ended = replica.apply(place, call)
                if ended is not None:
                    segments.append((ended.segment, ended.text))
    except TooLongError:
        pass  # it is the last one
    return [*segments, replica.unfinished()] if replica.era.agents else segments
