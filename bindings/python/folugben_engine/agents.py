"""Agents that play programs, each on its own thread, and the states of a run."""
import json
import time
from collections.abc import Iterator
from concurrent.futures import FIRST_EXCEPTION, ThreadPoolExecutor, wait
from contextlib import suppress
from threading import Event
from typing import Any

from folugben import Agent, PastError, Run, SharedRun, Storage

from .rules import Program


def live(storage: Storage | Run | SharedRun, number: int, program: Program, stop: Event) -> None:
    rule, is_over = program
    with storage.agent(number) as agent:
        while not (stop.is_set() or is_over(agent)):
            with suppress(PastError), agent.step() as step:
                if rule.play(step):
                    step.try_commit()  # or others were quicker, and the next step sees what they did
                else:
                    time.sleep(0.001)  # nothing to do until others have fired


def live_all(
    storage: Storage | Run | SharedRun, programs: list[Program], seconds: float | None = None, first: int = 0
) -> None:
    """Play all programs, by agents from a first number on.

    They play until they are over, or for the given number of seconds.

    Raises:
        the error of a program, such as a clash; it ends all of them.
    """
    stop = Event()
    with ThreadPoolExecutor(len(programs)) as pool:
        try:
            lives = [pool.submit(live, storage, number, program, stop) for number, program in enumerate(programs, first)]
            wait(lives, seconds, FIRST_EXCEPTION)
        finally:
            stop.set()
    for life in lives:
        life.result()


def run(init: Any, programs: list[Program], record: bool = False) -> bytes:
    """Return the journal of a run of all programs.

    If it records, the journal has the tracked reads of their steps.
    """
    with Storage(init, 10_000, record=record) as storage:
        live_all(storage, programs)
        return storage.close_journal()


def run_on(path: str, init: Any, programs: list[Program], seconds: float, moves: int = 100_000, record: bool = False) -> None:
    """Play the rules for some seconds, in parts of some moves.

    If the folder has a run, that run continues.
    """
    endless: list[Program] = [(rule, lambda agent: False) for rule, _ in programs]
    try:
        there = Run.resume(path, moves, record=record)
    except FileNotFoundError:
        there = Run(path, init, moves, record=record)
    with there as run:
        live_all(run, endless, seconds)


def states(journal: bytes) -> Iterator[Agent]:
    """Yield an agent at each state of the run: the moves are fired again, one by one."""
    header, *events = map(json.loads, journal.splitlines())
    with Storage(header["init"], header["capacity"]) as storage, storage.agent(0) as agent:
        yield agent
        for event in events:
            if "fired" in event["reply"]:
                agent.fire(event["call"]["fire"])
                agent.follow()
                yield agent
