"""Rules that are played until they fire."""
import time
from collections.abc import Callable
from types import AsyncGeneratorType, CoroutineType, GeneratorType
from typing import Any, Protocol, TypeVar

from ._core import Played, Step
from ._errors import ConflictError, PastError

_R = TypeVar("_R")
# After this many vain attempts an agent sleeps between them, for at most this many seconds.
_TRIES_WITHOUT_SLEEP, _LONGEST_SLEEP = 4, 0.001
# Results of functions that are no rules.
_NO_RULES = CoroutineType, GeneratorType, AsyncGeneratorType


class Player(Protocol):
    """What begins steps."""

    def step(self) -> Any:
        """Begin a step."""


def back_off(tries: int) -> None:
    """Let others run after this many vain attempts."""
    more = tries - _TRIES_WITHOUT_SLEEP
    time.sleep(0 if more < 0 else min(_LONGEST_SLEEP, 1e-6 * 2 ** min(more, 10)))


def no_rule(result: Any) -> None:
    """Refuse a function's result that does nothing before it is awaited or iterated."""
    if isinstance(result, _NO_RULES):
        getattr(result, "close", lambda: None)()
        raise TypeError(f"a rule is a plain function, and {result.__qualname__} is an async def or a generator: it wrote nothing")


def play(
    agent: Player, rule: Callable[[Step], _R], *, tries: int | None = None, timeout: float | None = None
) -> Played[_R]:
    """Play a rule with an agent, as `Agent.play` does."""
    if tries is not None and tries < 1:
        raise ValueError(f"tries is 1 or more, and not {tries}")
    end = None if timeout is None else time.monotonic() + timeout
    retries, is_bounded = 0, tries is not None or timeout is not None
    while True:
        conflict: ConflictError | None = None
        with agent.step() as step:
            try:
                result = rule(step)
            except PastError as past:
                # Another thread has returned its agent, as the part of its run has ended.
                if not getattr(step, "is_withdrawn", False):
                    raise
                conflict = past
            else:
                if isinstance(result, _NO_RULES):
                    no_rule(result)
                if step.fired or not step._is_pushed:
                    return Played((step.fired, result, retries))
                try:
                    number = step.commit() if is_bounded else step.try_commit()
                except ConflictError as error:
                    number, conflict = 0, error
                if number:
                    return Played((number, result, retries))
            step._is_tried = True
        retries += 1
        if conflict is not None and is_bounded and (retries == tries or end is not None and time.monotonic() >= end):
            raise conflict
        back_off(retries - 1)
