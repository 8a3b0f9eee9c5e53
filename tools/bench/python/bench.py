"""Run steps by the library and by the twin in turn, with texts and without.

    python3 bench.py [--quick]

It writes a line for each crowd of threads. A line has the crowd's name, and the medians of the nanoseconds that one step took,
for all threads together: the library's and the twin's by the clock, and both of processor time.
"""
import gc
import statistics
import sys
import threading
import time
from typing import NamedTuple, Protocol

from folugben import Agent, BusyError, StaleError, Storage
from folugben import Location as Prepared
from twin import Location, MovedError, Twin

THREADS, LOCATIONS, LEAST, MOST = 16, 64, 5, 9
# The twin's rounds have this many times as many steps, so that they are as long.
TWIN_TIMES = 8


class Side(Protocol):
    """A side that runs steps: the library or the twin.

    It is opened for a number of moves, with 0 at each location.
    """

    def step(self, thread: int, location: int) -> bool:
        """Add 1 at the location by a get and a push; return whether it fired.

        If it did not, it was stale, and must be repeated.
        """

    def close(self) -> int:
        """Return the sum of all locations; the storage is released."""


class Ours:
    """The library, by names."""

    def __init__(self, moves: int) -> None:
        self._storage = Storage([[["x", k], 0] for k in range(LOCATIONS)], moves)
        self._agents: list[Agent] = [self._storage.agent(k) for k in range(THREADS)]

    def step(self, thread: int, location: int) -> bool:
        with self._agents[thread].step() as step:
            step.put(("x", location), step["x", location] + 1)
            try:
                step.commit()
            except (StaleError, BusyError):
                return False
        return True

    def close(self) -> int:
        with self._agents[0].step() as step:
            values = step.get([["x", k] for k in range(LOCATIONS)])
        for agent in self._agents:
            agent.free()
        self._storage.free()
        return sum(values)


class Plain(Ours):
    """The library without text: each thread has its locations."""

    def __init__(self, moves: int) -> None:
        super().__init__(moves)
        self._places = [[Prepared(["x", k]) for k in range(LOCATIONS)] for _ in range(THREADS)]

    def step(self, thread: int, location: int) -> bool:
        at = self._places[thread][location]
        with self._agents[thread].step() as step:
            step.put(at, step[at] + 1)
            return step.try_commit() != 0


class Theirs:
    def __init__(self, moves: int) -> None:
        self._twin = Twin({("x", k): 0 for k in range(LOCATIONS)})

    def step(self, thread: int, location: int) -> bool:
        step, place = self._twin.step(thread), ("x", location)
        try:
            (value,) = step.get([place])
        except MovedError:
            return False
        step.push({place: value + 1})
        return step.commit()

    def close(self) -> int:
        places: list[Location] = [("x", k) for k in range(LOCATIONS)]
        assert len(self._twin.history) >= self._twin.number
        return sum(self._twin.step(0).get(places))


class Crowd(NamedTuple):
    name: str
    threads: int
    shares: bool


CROWDS = [
    Crowd("1 thread", 1, False),
    Crowd("4 threads, a location each", 4, False),
    Crowd("4 threads, one location", 4, True),
    Crowd("8 threads, a location each", 8, False),
    Crowd("8 threads, one location", 8, True),
    Crowd("16 threads, a location each", THREADS, False),
    Crowd("16 threads, one location", THREADS, True),
]


def work(side: Side, thread: int, location: int, steps: int) -> None:
    while steps > 0:
        steps -= side.step(thread, location)


class CallTime(NamedTuple):
    """Return what one step took, in nanoseconds."""

    clock: float
    processor: float


def time_steps(side: Side, crowd: Crowd, steps: int) -> CallTime:
    """Run this many steps, which the threads share out among them."""
    threads = [
        threading.Thread(target=work, args=(side, k, 0 if crowd.shares else k, steps // crowd.threads))
        for k in range(crowd.threads)
    ]
    begin, used = time.perf_counter_ns(), time.process_time_ns()
    for thread in threads:
        thread.start()
    for thread in threads:
        thread.join()
    return CallTime((time.perf_counter_ns() - begin) / steps, (time.process_time_ns() - used) / steps)


def round_of(kind: type[Ours] | type[Theirs], crowd: Crowd, steps: int) -> CallTime:
    """Run a round on a separate storage, whose locations must show each step."""
    side = kind(steps)
    gc.collect()
    times = time_steps(side, crowd, steps)
    if (found := side.close()) != steps:
        raise SystemExit(f"{found} of {steps} steps are in the state")
    return times


def measure(name: str, ours: type[Ours], crowd: Crowd, steps: int, seconds: float) -> None:
    mine: list[CallTime] = []
    its: list[CallTime] = []
    end = time.monotonic() + seconds
    while len(mine) < LEAST or len(mine) < MOST and time.monotonic() < end:
        mine.append(round_of(ours, crowd, steps))
        its.append(round_of(Theirs, crowd, TWIN_TIMES * steps))
    columns = [[times[k] for times in side] for k in range(2) for side in (mine, its)]
    print(f"Python: {name}; {crowd.name}", *(f"{statistics.median(column):.0f}" for column in columns), sep="\t", flush=True)


def main() -> None:
    is_quick = sys.argv[1:] == ["--quick"]
    steps, seconds = (800, 0.2) if is_quick else (4000, 1.2)
    for name, ours in (("step", Ours), ("step without text", Plain)):
        for crowd in CROWDS:
            measure(name, ours, crowd, steps, seconds)


if __name__ == "__main__":
    main()
