"""Audits of runs of any length, checked as their bytes arrive."""
from typing import Any, NamedTuple

from ._core import Audit
from ._errors import BadJournalError, Error, Text, exact_bytes
from ._library import Code
from ._texts import to_python


class _Counts(NamedTuple):
    calls: int
    moves: int
    parts: int


class Counts(_Counts):
    """Counts of an audit: the checked calls, the fired moves, and the complete parts.

    If the first segments of a run were dropped, the audit begins at `first_segment`, after `moves_before` moves.
    """

    first_segment = 0
    moves_before = 0


class Auditor(Audit):
    """Checks a run of any length as it arrives.

    The parts of a run are journals, one after the other. Each opens with the state at the end of the part before it. The
    auditor holds that state and one line.

        auditor = Auditor()
        for chunk in chunks:
            auditor.feed(chunk)             # raises the first wrong answer at once
        calls, moves, parts = auditor.end() # raises if the last part isn't complete

    An error is a `BadJournalError` with the part, and the call or the line. Each further call raises it again.
    """

    def __init__(self) -> None:
        if hasattr(self, "_counts"):
            raise TypeError("this Auditor was made before")
        self._fault: BadJournalError | None = None
        self._counts = Counts(0, 0, 0)
        self._feed(b"")

    def feed(self, chunk: Text) -> Counts:
        """Check the next bytes or characters, any number; return the counts so far.

        After a `MemoryError` the input that wasn't checked is retained, and the next call begins with it: `feed(b"")` retries.

        Raises:
            BadJournalError: at the first wrong answer, the first fault, or the first part that opens with another state; a line
                of more than 1,073,741,824 bytes is such a fault too.
        """
        text = exact_bytes(chunk, "what an audit takes")
        self._expect_sound()
        code, parts, calls, moves = self._feed(text)
        if code != Code.DONE:
            self._fault = self._bad(code, parts, calls)
            raise self._fault
        self._counts = Counts(calls, moves, parts)
        return self._counts

    @property
    def counts(self) -> Counts:
        """Return the counts so far, including the calls and moves of an incomplete part."""
        self._expect_sound()
        return self._counts

    def end(self) -> Counts:
        """Return the counts at the end of the input.

        The audit is unchanged, and accepts further input.

        Raises:
            BadJournalError: the last part isn't complete.
        """
        self._expect_sound()
        code, parts, calls, moves = self._numbers()
        if code != Code.DONE:
            raise self._bad(code, parts, calls)
        return Counts(calls, moves, parts)

    def state(self) -> list[Any]:
        """Return the state after the moves so far, as a list of pairs.

        Raises:
            Error: no part has begun; the code is NO_PART.
        """
        self._expect_sound()
        pairs: list[Any] = to_python(self._state())
        return pairs

    @staticmethod
    def _bad(code: int, part: int, number: int) -> BadJournalError:
        bad = BadJournalError(code, (number,), "a line has more than 1,073,741,824 bytes" if code == Code.LONG_LINE else "")
        bad.part = part
        return bad

    def _expect_sound(self) -> None:
        if not self._is_full:
            raise Error(Code.EMPTY, detail="the audit was freed")
        if self._fault is not None:
            bad = BadJournalError(self._fault.code, self._fault.numbers, self._fault.detail)
            bad.part = self._fault.part
            raise bad

    def __repr__(self) -> str:
        if self._fault is not None:
            return f"<Auditor, {self._fault}>"
        return f"<Auditor, {', '.join(f'{count} {name}' for name, count in self._counts._asdict().items())}>"
