"""Dining philosophers: each picks up both forks at once, eats, and puts them back."""
from typing import Any

from folugben import Agent

from .rules import Add, Forall, If, Par, Program, Remove, Update

SEATS, MEALS, EATING = 5, 20, ("eating",)
INIT: dict[Any, Any] = {EATING: set()}


def forks(own: int) -> list[tuple[str, int]]:
    return [("fork", own), ("fork", (own + 1) % SEATS)]


def philosopher(own: int) -> Program:
    left, right = forks(own)
    take = Par(Update(left, own), Update(right, own), Add(EATING, own))
    put_back = Par(Remove(EATING, own), Forall("fork", lambda _, holder: holder == own, lambda at, _: Update(at, None)))
    wait = If(lambda see: see(left) is None and see(right) is None, take)
    return If(lambda see: see(left) == own, put_back, wait), lambda agent: agent.won == 2 * MEALS


PROGRAMS = [philosopher(own) for own in range(SEATS)]


def holds(agent: Agent) -> bool:
    """no fork is used twice"""
    used = [fork for own in agent.peek([EATING])[1][0] for fork in forks(own)]
    return all(used.count(fork) == 1 for fork in used)
