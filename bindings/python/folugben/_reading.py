"""Read stored runs: audits, one part, and their content as one file."""
import contextlib
import io
import os
import time
from collections.abc import Callable, Iterable, Iterator
from typing import BinaryIO, Protocol

from ._auditor import Auditor, Counts
from ._database import is_server
from ._files import open_regular
from ._folder import CHUNK, RunFolder
from ._log import Behind, LogReader
from ._replica import unsaved
from ._segments import START, DroppedError, Segment, Trail
from ._sqlite import is_database

# How the header of a part begins; no line of an event begins so.
HEADER = b'{"agents":'
# How often `follow` checks for a further segment.
_POLL_PAUSE, _REST = 0.2, 4


class Readable(Protocol):
    """A file."""

    def read(self, size: int, /) -> bytes | str | None: ...


class Store(Protocol):
    """The segments of a run, in a folder or in a database."""

    def segments(self) -> list[Segment]:
        """Return the segments that are there now."""

    def names(self) -> list[str]:
        """Return the names that are there now, which aren't checked."""

    def length(self, name: str) -> int:
        """Return how many bytes the text of the segment with a name has."""

    def text(self, name: str) -> Iterator[bytes]:
        """Yield the text of the segment with a name, which isn't checked."""

    def unsaved(self, last: Segment) -> list[tuple[Segment, bytes]]:
        """Return what is after a segment, and isn't saved as one, with the texts.

        Raises:
            Behind: further segments were saved.
        """

    def close(self) -> None:
        """Close it; closing again has no effect."""


def open_store(target: str | os.PathLike[str]) -> Store:
    """Open a stored run for reading.

    It is a folder, a SQLite file, or a schema of a PostgreSQL server.
    """
    if is_server(target) or os.path.isfile(target):
        return LogStore(target)
    return RunFolder(target)


def is_stored_run(target: object) -> bool:
    """Return whether a target is a stored run, and not one file with a run."""
    if is_server(target):
        return True
    return isinstance(target, (str, os.PathLike)) and (os.path.isdir(target) or os.path.isfile(target) and is_database(target))


class LogStore:
    """A shared run, for reading."""

    def __init__(self, target: str | os.PathLike[str]) -> None:
        self._log = LogReader(target)
        self.length, self.text, self.close = self._log.length, self._log.text, self._log.close

    def segments(self) -> list[Segment]:
        self._log.refresh()
        return self._log.segments()

    def names(self) -> list[str]:
        return [it.name for it in self.segments()]

    def unsaved(self, last: Segment) -> list[tuple[Segment, bytes]]:
        return unsaved(self._log, last)


class Reading:
    """Reads a stored run segment by segment, and audits it: the names, the digests and the journals, each byte once."""

    def __init__(self, store: Store, progress: Callable[[int], None] | None = None, trail: Trail | None = None) -> None:
        self._store, self._progress, self._fed_bytes = store, progress, 0
        self.trail, self._counts = trail or Trail(), Counts(0, 0, 0)

    def audit(self, names: list[str]) -> Counts:
        """Audit the segments after those that were audited.

        Raises:
            DamagedError: a name isn't that of the next segment, or its text isn't the one that was saved.
            BadJournalError: a text isn't legal.
            DroppedError: a segment was dropped before it was audited.
        """
        if 0 <= self.trail.last.number < Trail().name(names[0]).number - 1:
            raise DroppedError(self.trail.last.number + 1, "it was dropped meanwhile, so begin again")
        for name in names:
            if name > self.trail.last.name:
                self._take(name, self._store.length(name), self._store.text(name))
        return self._counts

    def audit_all(self) -> Counts:
        """Audit all that is stored."""
        while True:
            self.audit(self._store.names())
            with contextlib.suppress(Behind):
                for segment, text in self._store.unsaved(self.trail.last):
                    self._take(segment.name, len(text), [text])
                return self._counts

    def audit_last(self, names: list[str], count: int = 1) -> Counts:
        """Audit only the last segments, as many as are asked for; of those before them the names are checked."""
        self.trail.skip(names[:-count])
        return self.audit(names)

    def _take(self, name: str, length: int, text: Iterable[bytes]) -> None:
        self.trail.name(name, length)
        for chunk in text:
            self.trail.core.text(chunk)
            self._fed_bytes += len(chunk)
            if self._progress is not None:
                self._progress(self._fed_bytes)
        self._counts = self.trail.end()


def audit(run: str | os.PathLike[str] | Readable, progress: Callable[[int], None] | None = None) -> Counts:
    """Check a run: return the numbers of its calls, moves and parts.

    The run is a folder, a file of any length with its journals one after the other, or a path to either. With `progress`,
    that is called with the number of bytes now and then.

    Raises:
        BadJournalError: it isn't legal, or isn't complete; raised as soon as that is read.
        DamagedError: a segment of a folder isn't the one that was saved.
    """
    if isinstance(run, (str, os.PathLike)):
        if is_stored_run(run):
            with contextlib.closing(open_store(run)) as store:
                return _audit_store(store, progress)
        with open_regular(run) as file:
            return _audit_file(file, progress)
    if not hasattr(run, "read"):
        raise TypeError(f"audit takes a path or a file, and not {type(run).__name__!r}: feed bytes to an Auditor")
    return _audit_file(run, progress)


def _audit_store(store: Store, progress: Callable[[int], None] | None) -> Counts:
    while True:
        # What was dropped meanwhile is no fault.
        with contextlib.suppress(DroppedError):
            return Reading(store, progress).audit_all()


def _audit_file(file: Readable, progress: Callable[[int], None] | None) -> Counts:
    # Whatever a pipe has is read at once, so that a wrong answer is reported when it arrives.
    read, fed_bytes = getattr(file, "read1", file.read), 0
    with Auditor() as auditor:
        while chunk := read(CHUNK):
            auditor.feed(chunk)
            fed_bytes += len(chunk)
            if progress is not None:
                progress(fed_bytes)
        return auditor.end()


def _checked(store: Store, segment: Segment) -> Iterator[bytes]:
    """Yield the text of a segment, legal or not.

    Raises:
        DamagedError: it isn't the one that was saved; raised at its end at the latest.
    """
    trail = Trail()
    trail.name(segment.name, store.length(segment.name))
    for chunk in store.text(segment.name):
        trail.core.text(chunk)
        yield chunk
    trail.end_unjudged()


def verify(target: str | os.PathLike[str]) -> list[Segment]:
    """Check the digests of all segments of a run: return the segments.

    The last segment has the digest of all.

    Raises:
        DamagedError: a text isn't the one that was saved.
    """
    with contextlib.closing(open_store(target)) as store:
        while True:
            with contextlib.suppress(DroppedError):
                trail, segments = Trail(), list[Segment]()
                for name in store.names():
                    segments += trail.skip([name])
                    for _ in _checked(store, segments[-1]):
                        pass
                return segments


def save(target: str | os.PathLike[str], output: BinaryIO) -> None:
    """Write a stored run as one file, which `audit` reads."""
    for piece in _pieces(target):
        output.write(piece)


def follow(target: str | os.PathLike[str]) -> Iterator[Counts]:
    """Audit a run while it is written.

    Yield the counts after what is there, and after each check that found more.
    """
    with contextlib.closing(open_store(target)) as store:
        reading = Reading(store)
        while True:
            begun = time.monotonic()
            segments = store.segments()
            took = time.monotonic() - begun
            try:
                if segments[-1].number > reading.trail.last.number:
                    yield reading.audit([it.name for it in segments])
            except DroppedError:
                # It begins with what is there now.
                reading = Reading(store)
                continue
            # A SQLite file that is written meanwhile is copied each time.
            time.sleep(max(_POLL_PAUSE, _REST * took))


def texts(target: str | os.PathLike[str]) -> Iterator[tuple[int, bytes]]:
    """Yield the journal of each segment of a stored run, and of what comes after, with the number of moves before it."""
    for segment, pieces in _journals(target):
        yield segment.first, b"".join(pieces)


def _pieces(target: str | os.PathLike[str]) -> Iterator[bytes]:
    """Yield the journals in pieces, so that none is in memory."""
    for _, pieces in _journals(target):
        yield from pieces


def _journals(target: str | os.PathLike[str]) -> Iterator[tuple[Segment, Iterable[bytes]]]:
    last = START
    with contextlib.closing(open_store(target)) as store:
        while True:
            for segment in store.segments():
                if segment.number > last.number:
                    yield segment, _checked(store, segment)
                    last = segment
            with contextlib.suppress(Behind):
                for segment, text in store.unsaved(last):
                    yield segment, [text]
                return


def part(run: str | os.PathLike[str] | BinaryIO, number: int) -> bytes:
    """Return the journal of one part of a run, counted from 0.

    The run is a folder, a file, or a path to either.

    Raises:
        IndexError: there are fewer parts.
    """
    if isinstance(run, (str, os.PathLike)):
        if is_stored_run(run):
            with contextlib.closing(open_store(run)) as store:
                return _part_of(store, number)
        with io.BufferedReader(open_regular(run), CHUNK) as file:
            return part(file, number)
    lines: list[bytes] = []
    at = -1
    for line in run:
        if line.startswith(HEADER):
            at += 1
        if at > number:
            break
        if at == number:
            lines.append(line)
    if at < number or number < 0:
        raise IndexError(f"there is no part {number}, as the run has {at + 1}")
    return b"".join(lines)


def _part_of(store: Store, number: int) -> bytes:
    segments = store.segments()
    first, last = segments[0].number, segments[-1].number
    if not first <= number <= last:
        raise IndexError(f"there is no part {number}, as the run has {f'the parts {first} to {last}' if first else last + 1}")
    return b"".join(_checked(store, segments[number - first]))
