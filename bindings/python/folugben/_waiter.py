"""Agents of a shared run that wait for the answers to their calls."""
import threading

from ._log import Call
from ._replica import Answer


class Waiter:
    """An agent that waits for the answer to its call."""

    __slots__ = ("call", "may_lead", "is_sent", "is_over", "answer", "fault", "_woken")

    def __init__(self, call: Call, may_lead: bool) -> None:
        # Whether the call may be in the log, and whether all is known.
        self.call, self.may_lead, self.is_sent, self.is_over = call, may_lead, False, False
        self.answer: Answer | None = None
        self.fault: BaseException | None = None
        self._woken = threading.Lock()
        self._woken.acquire()

    def end(self, answer: Answer | None, fault: BaseException | None = None) -> None:
        self.answer, self.fault, self.is_over = answer, fault, True
        self.wake()

    def wake(self) -> None:
        """Wake it to check whether all is known, or whether it leads."""
        if self._woken.locked():
            self._woken.release()

    def wait(self, seconds: float = -1) -> None:
        self._woken.acquire(timeout=seconds)

    def result(self) -> Answer | None:
        """Return the answer; None if its segment had ended before its place."""
        if self.fault is not None:
            raise self.fault
        return self.answer
