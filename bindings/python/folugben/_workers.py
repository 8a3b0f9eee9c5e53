"""Rules that workers play, each with an agent on a thread of its own."""
import threading
from collections.abc import Callable
from typing import Any

from ._core import Agent, Step, Storage
from ._errors import Error
from ._library import Code

# How long to wait after Ctrl-C for those that play, in seconds.
_GRACE = 5.0


def _agents(storage: Storage, count: int) -> list[Agent]:
    """Check out this number of agents, or make them, with the smallest numbers that nobody has."""
    agents: list[Agent] = []
    for number in range(256):
        if len(agents) == count:
            break
        agent = Agent(storage, number, True)
        try:
            agent._check_out()
        except Error as error:
            if error.code != Code.NUMBER:
                raise
        else:
            agents.append(agent)
    if len(agents) < count:
        raise Error(Code.AGENTS, detail=f"{count:,} workers: the storage has {len(agents)} agents to spare, of 256")
    return agents


class _Works:
    """The works of all workers, which end at the first error of one."""

    def __init__(self, rule: Callable[[Step], Any], times: int) -> None:
        self._rule, self._times, self.is_over = rule, times, False
        self.errors: list[BaseException] = []

    def play(self, agent: Agent) -> None:
        try:
            with agent:
                for _ in range(self._times):
                    if self.is_over:
                        break
                    agent.play(self._rule)
        except BaseException as error:
            self.errors.append(error)
            self.is_over = True


def run(storage: Storage, rule: Callable[[Step], Any], /, workers: int = 1, times: int = 1) -> int:
    """Play a rule on several threads, as `Storage.run` does."""
    if workers < 1 or times < 0:
        raise ValueError(f"{workers} workers, {times} times: at least 1 and at least 0")
    before, works = storage.moves(), _Works(rule, times)
    threads = [threading.Thread(target=works.play, args=(agent,), daemon=True) for agent in _agents(storage, workers)]
    try:
        for thread in threads:
            thread.start()
        for thread in threads:
            thread.join()
    except BaseException:
        # Ctrl-C arrives here. A rule that doesn't return can't be ended.
        works.is_over = True
        for thread in threads:
            if thread.ident is not None:
                thread.join(_GRACE)
        raise
    for error in works.errors:
        raise error
    return storage.moves() - before
