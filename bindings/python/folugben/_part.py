"""A part of a run, with its agents and their steps."""
import time
from typing import TYPE_CHECKING, Any

from ._core import Agent, Step, Storage
from ._errors import Error, FullError, MissingError, PastError
from ._library import Code
from ._turns import here

if TYPE_CHECKING:
    from ._parts import Chain

# How long a part that has ended, or must end, waits for an agent in a step.
PATIENCE = 0.1
# An agent adds its receipts to the common count after this many.
_EACH = 32

# After how many seconds a wait looks whether the part has ended.
SLICE = 0.05


class PartStep(Step):
    """A step of an agent of a run, whose numbers are those of the run."""

    _agent: "PartAgent"

    @property
    def is_withdrawn(self) -> bool:
        """Whether another thread has returned its agent, at the end of its part.

        The part has ended or had to end.
        """
        return self._agent._is_withdrawn

    def offer(self) -> dict[str, Any]:
        """Return the same, with numbers of the run."""
        offer, base = super().offer(), self._agent.part.base
        return offer | {"reads": tuple((at, base + number) for at, number in offer["reads"])}

    def commit(self) -> int:
        """Commit as any step does.

        Raises:
            PastError: its part has ended.
            TooLongError: a line of the journal could be too long.
        """
        self._try()
        try:
            return super().commit()
        except FullError:
            raise PastError(Code.FULL, detail="the part of the run has ended, so begin another step") from None

    def try_commit(self) -> int:
        """Commit the same way, but return 0 if the step must be begun again.

        It returns 0 also if the part of the step has ended.
        """
        try:
            self._try()
            return super().try_commit()
        except (FullError, PastError):
            self._is_tried = True
            return 0

    def wait(self, timeout: float | None = None) -> bool:
        """Wait as any step does; True is returned also if its part has ended."""
        end = None if timeout is None else time.monotonic() + timeout
        while not super().wait(SLICE if end is None else min(SLICE, end - time.monotonic())):
            if self._agent.seen >= self._agent.part.most:
                return True
            if end is not None and time.monotonic() >= end:
                return False
        return True

    def _try(self) -> None:
        self._agent.count_receipts(2 if self._agent.part.storage.record else 1)


class PartAgent(Agent):
    """An agent of a run while it is in one part."""

    part: "Part"

    def __new__(cls, part: "Part", own: int) -> "PartAgent":
        return super().__new__(cls, part.storage, own, True)

    def __init__(self, part: "Part", own: int) -> None:
        self.part, self.is_abandoned, self.is_by_turns, self._tries = part, False, False, 0
        self._base = part.base

    def begin(self) -> PartStep:
        """Begin a step."""
        self.is_by_turns = here.is_by_turns
        return PartStep(self)

    def count_receipts(self, receipts: int = 1) -> None:
        """Count the receipts that a call leaves."""
        self._tries += receipts
        if self._tries >= _EACH:
            self._tries, tries = 0, self._tries
            self.part.chain.count(self.part, tries)

    def _raise_why_returned(self) -> None:
        self.part.chain.expect_active()
        if self._is_withdrawn or self.part.has_ended():
            raise PastError(Code.EMPTY, detail="the part of the run has ended, so begin another step")
        raise Error(Code.EMPTY, detail="the agent was returned")


class Part:
    """A part: its storage, the agents that came into it, and the part after it."""

    def __init__(self, chain: "Chain", number: int, base: int, capacity: int, storage: Storage) -> None:
        self.chain, self.number, self.base, self.capacity, self.storage = chain, number, base, capacity, storage
        self.agents: dict[int, PartAgent] = {}
        # An agent that has seen this many moves continues in the next part: all moves of the part, or 0 if it ends at rest.
        self.most = capacity
        self.next: Part | None = None
        # How many calls left receipts; when its first move was noticed; when agents in steps are returned.
        self.tries, self.first_move_at, self.until = 0, 0.0, 0.0
        # Whether a move is missing, so that no part comes after it; whether it is on the disk; whether
        # it ends at rest though agents are played by turns.
        self.is_last = self.is_written = self.is_forced = False

    def moves(self) -> int:
        return self.storage.moves()

    def has_ended(self) -> bool:
        return self.is_written or self.next is not None

    def end_when_idle(self, is_forced: bool = False) -> None:
        """End the part before it is full.

        Agents that come wait, and those in steps are returned after a while.
        """
        if self.most > 0:
            self.most, self.until = 0, time.monotonic() + PATIENCE
        self.is_forced = self.is_forced or is_forced

    def cancel_end(self) -> None:
        """Continue the part until it is full."""
        self.most, self.tries, self.first_move_at, self.is_forced = self.capacity, 0, 0.0, False

    def missing(self, move: int) -> MissingError:
        abandoned = sorted(own for own, agent in self.agents.items() if agent.is_abandoned)
        were = "was" if len(abandoned) == 1 else "were"
        detail = f"agent{'s' * (len(abandoned) > 1)} {', '.join(map(str, abandoned))} {were} abandoned" if abandoned else ""
        return MissingError(Code.MISSING, (move,), detail)
