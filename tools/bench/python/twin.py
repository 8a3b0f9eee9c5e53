"""A storage as it is written in a day: a dict and a history behind one lock.

A move puts values.
"""
import threading
from typing import NamedTuple

Location = tuple[str, int]


class MovedError(Exception):
    """Something was written since the step began."""


class Event(NamedTuple):
    """A fire: its puts, its named locations with numbers, and its move's number.

    The move's number is 0 for a stale fire.
    """

    agent: int
    puts: dict[Location, int]
    named: list[Location]
    at: int
    number: int


class Twin:
    """The values with the numbers of their moves, and all calls that were answered.

    The move of a value is the one that wrote it.
    """

    def __init__(self, state: dict[Location, int]) -> None:
        self.lock = threading.Lock()
        self.state = {location: (value, 0) for location, value in state.items()}
        self.history: list[Event] = []
        self.number = 0

    def step(self, agent: int) -> "Step":
        return Step(self, agent)


class Step:
    """What is read and pushed on the state after a number of moves."""

    def __init__(self, twin: Twin, agent: int) -> None:
        self._twin, self._agent = twin, agent
        self._reads: list[Location] = []
        self._puts: dict[Location, int] = {}
        with twin.lock:
            self._number = twin.number

    def get(self, places: list[Location]) -> list[int]:
        return [self._get(place) for place in places]

    def _get(self, place: Location) -> int:
        if place in self._puts:
            return self._puts[place]
        self._reads.append(place)
        with self._twin.lock:
            value, written = self._twin.state.get(place, (0, 0))
        if written > self._number:
            raise MovedError
        return value

    def push(self, puts: dict[Location, int]) -> None:
        self._puts.update(puts)

    def commit(self) -> bool:
        """Fire; return False if something that was read was written since."""
        twin, at, number = self._twin, self._number, 0
        with twin.lock:
            if all(twin.state.get(place, (0, 0))[1] <= at for place in self._reads):
                number = twin.number = twin.number + 1
                for place, value in self._puts.items():
                    twin.state[place] = value, number
            twin.history.append(Event(self._agent, self._puts, self._reads, at, number))
        return number != 0
