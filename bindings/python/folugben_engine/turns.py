"""Runs by turns: a seed draws the agent that acts next.

So a run can be repeated, and a schedule that breaks an invariant is found again.
"""
import random
from functools import partial
from typing import Any

from folugben import Agent, Storage, interleave

from .rules import Program


def play(program: Program, agent: Agent) -> None:
    rule, is_over = program
    while not is_over(agent):
        with agent.step() as step:
            if rule.play(step):
                step.try_commit()


def run_by_turns(init: Any, programs: list[Program], seed: int) -> bytes:
    """Return the journal of a run of all programs, the same for the same seed."""
    random.seed(seed)  # by which the rules choose
    with Storage(init, 10_000) as storage:
        agents = [storage.agent(number) for number in range(len(programs))]
        interleave(agents, [partial(play, program) for program in programs], seed)
        for agent in agents:
            agent.give()
        return storage.close_journal()
