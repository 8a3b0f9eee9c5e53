"""A colony: in each round every cell that can divides.

So the universe of cells grows by what a forall adds.
"""
from typing import Any

from folugben import Agent, Location

from .rules import Forall, Let, Par, Program, Rule, Seq, Update, While

GROWERS, ROUNDS, AGE = 3, 7, ("age",)
INIT = {("cell", 0): ROUNDS, AGE: 0}


def divided(at: tuple[Any, ...], left: int) -> Rule:
    """Give the new cell half of what the cell can still come to."""
    return Par(Update(at, left - 1), Update(("cell", at[1] + 2 ** (left - 1)), left - 1))


def grower(own: int) -> Program:
    work = Location(("work", own))
    # The first rounds take thousands of rounds of a while, of which no other agent sees anything.
    effort = While(lambda see: see(work) > 0, Update(work, lambda see: see(work) - 1))
    divide = Forall("cell", lambda _, left: left > 0, divided)

    def at(age: int) -> Rule:
        return Seq(Update(work, 2_000 >> age), effort, Update(work, None), divide, Update(AGE, age + 1))

    return Let(lambda see: see(AGE), lambda age: at(age) if age < ROUNDS else Par()), lambda agent: agent.seen == ROUNDS


PROGRAMS = [grower(own) for own in range(GROWERS)]


def holds(agent: Agent) -> bool:
    """the colony comes to 128 cells"""
    cells = agent.scan("cell")[1]
    return bool(sum(2**left for _, left in cells) == 2**ROUNDS and len(cells) == 2 ** agent.peek([AGE])[1][0])
