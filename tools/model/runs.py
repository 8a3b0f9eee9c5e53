"""Decide whether a history is one of a script's runs, for any order of its agents."""

from journal import Event, Fire, History, Read, Stale, Values
from play import step_fault
from script import Script, Step, reads
from values import State

TRIES = 1001


class NoRun(Exception):
    """The history is none of the script's, for the given reason."""


def check_run(script: Script, capacity: int, history: History) -> None:
    """Raise `NoRun` if an agent's own events aren't the calls of its steps.

    The calls are those that its steps make on the answers that it received. That the answers are right is not checked here. A call
    that lost 64 attempts to append leaves no event; the read of the next attempt sees it.
    """
    if (history.init, history.capacity) != (script.init, capacity):
        raise NoRun("another opening state or capacity")
    if history.agents != len(script.agents):
        raise NoRun("another number of agents")
    own: list[list[Event]] = [[] for _ in script.agents]
    for event in history.events:
        own[event.agent].append(event)
    for agent, (steps, events) in enumerate(zip(script.agents, own)):
        try:
            _check_agent(steps, events)
        except NoRun as error:
            raise NoRun(f"agent {agent}: {error}") from error


def _check_agent(steps: list[Step], events: list[Event]) -> None:
    at = 0
    for number, step in enumerate(steps):
        for _ in range(TRIES):
            at, is_again = _check_try(number, step, events, at)
            if not is_again:
                break
    if at != len(events):
        raise NoRun(f"{len(events) - at} events after its last step")


def _check_try(number: int, step: Step, events: list[Event], at: int) -> tuple[int, bool]:
    """Check one attempt of a step from this event on.

    Return the number of the next event, and whether another attempt follows.
    """
    places = reads(step)
    reading: State = {}
    seen = 0
    if places:
        event = _event(number, events, at)
        if event.call != Read(places) or not isinstance(event.reply, Values):
            raise NoRun(f"step {number}: event {at} isn't its read")
        reading = dict(zip(places, event.reply.values))
        seen = event.reply.number
        at += 1
    fire = step_fault(step, reading)
    if isinstance(fire, str):
        return at, False
    event = _event(number, events, at)
    if places and isinstance(event.call, Read):
        return at, True
    if event.call != Fire(fire.move, [(place, seen) for place in places]):
        raise NoRun(f"step {number}: event {at} isn't its move")
    return at + 1, isinstance(event.reply, Stale)


def _event(number: int, events: list[Event], at: int) -> Event:
    if at == len(events):
        raise NoRun(f"step {number}: no event is left")
    return events[at]
