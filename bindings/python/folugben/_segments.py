"""The segments of a run, whose names and texts the library takes in their order, and checks."""
import os
from collections.abc import Iterable
from typing import NamedTuple

from ._auditor import Auditor, Counts
from ._core import RunCore
from ._errors import DamagedError, Error
from ._library import Code

SUFFIX = ".journal"
# The chain's value before the first segment's digest.
_NO_DIGEST = "0" * 64


class Segment(NamedTuple):
    """A complete segment: its number, the moves before it, its moves and events, and the name of its file."""

    number: int
    first: int
    moves: int
    events: int
    name: str

    @property
    def end(self) -> int:
        """The number of moves up to its end."""
        return self.first + self.moves

    @property
    def digest(self) -> str:
        """The digest of the chain up to its end."""
        return self.name[-72:-8] or _NO_DIGEST


# The end of a run that has no segment yet.
START = Segment(-1, 0, 0, 0, "")


class DroppedError(DamagedError):
    """A segment was dropped since the segments were listed, so they have to be read again from a later one on."""


class Trail:
    """Takes the segments of a run in their order, each name and each text once.

    The first one may have any number, as those before it may have been dropped.
    """

    def __init__(self) -> None:
        self.core = RunCore()
        # The first segment whose text was taken, and the last one; and the names of all, by their numbers.
        self.first, self.last, self.names = START, START, dict[int, str]()

    def name(self, name: str, length: int = 0) -> Segment:
        """Take the next name, of a text of this length: return its segment.

        Raises:
            DamagedError: it is no name of the next segment.
        """
        code, number, first, moves, events = self.core.name(os.fsencode(name), length)
        if code != Code.DONE:
            raise DamagedError(*_why_no_name(code, name, self.last))
        self.last, self.names[number] = Segment(number, first, moves, events, name), name
        return self.last

    def skip(self, names: Iterable[str]) -> list[Segment]:
        """Take the next names without their texts: return their segments.

        Raises:
            DamagedError: one of them is no name of the next segment.
        """
        segments = []
        for name in names:
            segments.append(self.name(name))
            self.core.skip()
        return segments

    def end(self) -> Counts:
        """End the text: return the counts of all texts.

        Raises:
            DamagedError: it isn't the one that was saved, or has other numbers than its name.
            BadJournalError: it isn't legal.
        """
        number = self.last.number
        code, parts, calls, moves = self.core.end()
        if code in _WHY_NO_TEXT:
            raise DamagedError(number, _WHY_NO_TEXT[code])
        if code != Code.DONE:
            raise Auditor._bad(code, number, calls)
        if self.first is START:
            self.first = self.last
        counts = Counts(calls, moves, parts)
        counts.first_segment, counts.moves_before = self.first.number, self.first.first
        return counts

    def end_unjudged(self) -> None:
        """End the text, which may be no legal journal.

        Raises:
            DamagedError: it isn't the one that was saved.
        """
        if self.core.end()[0] == Code.DAMAGED:
            raise DamagedError(self.last.number, _WHY_NO_TEXT[Code.DAMAGED])


_WHY_NO_TEXT: dict[int, str] = {
    Code.DAMAGED: "its text isn't the one that was saved",
    Code.COUNTS: "its text has other numbers of moves or events than its name",
    Code.LONG_RUN: "the run has too many moves or events",
}


def _why_no_name(code: int, name: str, last: Segment) -> tuple[int, str]:
    """Return the number of a segment, and why there is none with this name."""
    wanted = last.number + 1
    if code == Code.NOT_NEXT:
        number = number_of(name)
        return min(number, wanted), f"another file has this number too: {name}" if number == last.number else "its file is missing"
    if code == Code.OPENING:
        return 0, "the opening segment has no event, and nothing before it"
    if code == Code.PREVIOUS:
        return wanted, f"its name has another PREVIOUS or FIRST than the segments before it, of {last.end} moves"
    return wanted, "the run has too many moves" if code == Code.LONG_RUN else f"{name!r} is no name of a segment"


def segment_after(last: Segment, moves: int, events: int, text: bytes | memoryview) -> Segment:
    """Return the segment that comes next, with this text.

    Raises:
        Error: there are too many segments or moves.
    """
    trail = Trail()
    trail.skip([last.name] if last.name else [])
    trail.core.read()
    code, name = trail.core.hand(moves, events, text)
    if code != Code.DONE:
        raise Error(code)
    return Segment(last.number + 1, last.end, moves, events, name)


def number_of(name: str) -> int:
    """Return the number in the name of a segment."""
    return int(name.partition("-")[0])


def segment_of(row: tuple[int, int, int, int, str], before: Segment) -> Segment:
    """Return the segment of such numbers and such a digest, after another one."""
    number, first, moves, events, digest = row
    return Segment(number, first, moves, events, f"{number:08}-{first}-{moves}-{events}-{before.digest}-{digest}{SUFFIX}")
