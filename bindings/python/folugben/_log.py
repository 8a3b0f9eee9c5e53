"""The log of a shared run: ordered fire calls, and the segments made of them.

The segments are under the chain of digests.
"""
import contextlib
import os
import zlib
from collections.abc import Callable, Iterator
from typing import Any, NamedTuple

from ._database import Database, Source, connect, connect_to_read
from ._errors import DamagedError, MismatchError
from ._faults import database_errors
from ._files import shown
from ._segments import START, Segment, number_of, segment_after, segment_of
from ._tables import FORMAT, SINCE, TABLES, expect, expect_call, expect_run, expect_segment, is_count

# Text is compressed in pieces of this many bytes, each by itself.
_PIECE = 1 << 20
# How many calls are appended by one transaction, and read at once.
BATCH, READ = 500, 5_000
# The calls of this many saved segments stay in the log, for a process that is behind.
_SEGMENTS_KEPT = 2
_SEGMENT = "select number, first_move, moves, events, digest from {inside}segment"


class Call(NamedTuple):
    """A fire call: its agent, and the segment in which its step began.

    The numbers of that segment name what the call depends on.
    """

    token: bytes
    segment: int
    agent: int
    call: str
    scans: str


class PlacedCall(NamedTuple):
    """A call of the log at its place."""

    place: int
    call: Call


class Behind(Exception):
    """Calls that this process hasn't applied were dropped from the log.

    Their segments are saved.
    """


class LogReader:
    """The log of one run, for reading, over one connection.

    Raises:
        FileNotFoundError: there is no run.
        MismatchError: the run was made by another version.
        ConnectionError, OSError, DamagedError, ValueError: as of `connect`.
    """

    def __init__(self, target: str | os.PathLike[str]) -> None:
        self.target, self._source, self.moves = target, connect_to_read(target), 0
        try:
            with database_errors(target):
                self._check()
        except BaseException:
            self.close()
            raise

    def refresh(self) -> None:
        """Read what was written since the log was opened."""
        with database_errors(self.target):
            self._source.refresh()

    def _run(self, sql: str, *values: Any) -> list[Any]:
        """Run a statement, in which each table has {inside} before its name."""
        return self._source.run(sql.format(inside=self._source.inside), values)

    def _check(self) -> None:
        rows = self._run("select format, moves from {inside}run") if self._source.has_run() else []
        if not rows:
            raise FileNotFoundError(f"there is no run: {shown(self.target)}")
        expect_run(rows[0])
        if rows[0][0] != FORMAT:
            raise MismatchError(f"the tables are of version {rows[0][0]}, and this package reads {FORMAT}: {shown(self.target)}")
        self.moves = rows[0][1]

    def calls_after(self, applied: int) -> list[PlacedCall]:
        """Return the calls after a place.

        Raises:
            Behind: the log doesn't have the next one any more.
        """
        return self._placed(self._run(SINCE, applied, READ), applied, {})

    def _placed(self, rows: list[Any], applied: int, own: dict[bytes, Call]) -> list[PlacedCall]:
        placed: list[PlacedCall] = []
        for row in rows:
            expect_call(row)
            token = bytes(row[1])
            placed.append(PlacedCall(row[0], own[token] if token in own else Call(token, *row[2:])))
        # Of a call that was appended twice the later place stays empty.
        if placed and placed[0].place > applied + 1:
            self._expect_not_behind(applied)
        return placed

    def _expect_not_behind(self, applied: int) -> None:
        (dropped,) = self._run("select coalesce(max(last_place), 0) from {inside}segment where number <= "
                               "(select max(number) from {inside}segment) - ?", _SEGMENTS_KEPT)[0]
        if dropped > applied:
            raise Behind

    def last_place(self) -> int:
        """Return the last place of the log by now."""
        (place,) = self._run("select coalesce(max(place), 0) from {inside}call")[0]
        return int(place)

    def segments(self) -> list[Segment]:
        """Return the segments that are saved."""
        segments, last = list[Segment](), START
        for row in self._run(f"{_SEGMENT} order by number"):
            expect_segment(row, last.number + 1)
            segment = segment_of(row, last)
            expect((segment.number, segment.first) == (last.number + 1, last.end), last.number + 1, "its row is missing, or has other numbers")
            segments.append(segment)
            last = segment
        expect(bool(segments), 0, "its row is missing, or has other numbers")
        return segments

    def segment(self, number: int) -> Segment:
        """Return one segment."""
        rows = self._run(f"{_SEGMENT} where number between ? and ? order by number", number - 1, number)
        expect(len(rows) == min(number, 1) + 1, number, "its row is missing")
        segment = START
        for row in rows:
            expect_segment(row, number)
            segment = segment_of(row, segment)
        return segment

    def segment_end(self, segment: Segment | None = None) -> tuple[Segment, int]:
        """Return a segment, and the place at which it ended.

        Without a number it is the last segment.
        """
        which = "(select max(number) from {inside}segment)" if segment is None else str(segment.number)
        rows = self._run(f"select number, last_place from {{inside}}segment where number = {which}")
        expect(len(rows) == 1 and is_count(*rows[0]), 0, "the row of the last segment is missing, or has other numbers")
        ((number, place),) = rows
        return self.segment(number), place

    def length(self, name: str) -> int:
        """Return how many bytes the text of the segment with a name has."""
        number = number_of(name)
        rows = self._run("select length from {inside}segment where number = ?", number)
        expect(len(rows) == 1 and is_count(*rows[0]), number, "its row is missing, or has other numbers")
        return int(rows[0][0])

    def text(self, name: str) -> Iterator[bytes]:
        """Yield the text of the segment with a name, of which only the pieces are checked."""
        place, length, wanted, number = 0, 0, self.length(name), number_of(name)
        while length < wanted:
            data = self._run("select data from {inside}piece where segment = ? and place = ?", number, place)
            piece = _unpacked(data[0][0]) if data else b""
            expect(bool(piece), number, f"its piece {place} is missing or isn't the one that was saved")
            yield piece
            place, length = place + 1, length + len(piece)

    def close(self) -> None:
        """Close the connection; closing again has no effect."""
        self._source.close()


def _unpacked(data: object) -> bytes:
    """Return a piece of a text, or nothing if it is damaged; it takes no more memory than a piece has."""
    if not isinstance(data, (bytes, memoryview)):
        return b""
    unpacker = zlib.decompressobj()
    try:
        piece = unpacker.decompress(data, _PIECE)
        # What follows the last byte shows whether that was all.
        return piece if unpacker.eof or not unpacker.decompress(unpacker.unconsumed_tail, 1) and unpacker.eof else b""
    except zlib.error:
        return b""


class Log(LogReader):
    """The log of one run, for appending too."""

    def __init__(self, target: str | os.PathLike[str], opening: Callable[[int], bytes] | None, moves: int) -> None:
        """Open a run for writing, or create it if an opening is passed.

        The opening is a function that returns the opening journal for a capacity in moves.

        Raises:
            MismatchError: the run has another opening state, or was made by another version.
        """
        self.target, self.moves = target, 0
        self._use(connect(target, makes=opening is not None))
        try:
            with database_errors(target):
                self._join(opening, moves)
        except BaseException:
            self.close()
            raise

    def _use(self, database: Database) -> None:
        self.database = self._source = database

    def _join(self, opening: Callable[[int], bytes] | None, moves: int) -> None:
        if opening is None and not self.database.has_run():
            raise FileNotFoundError(f"there is no run: {shown(self.target)}")
        try:
            self._make_or_join(opening, moves)
        except FileExistsError:
            # Another process has made it meanwhile.
            self._make_or_join(opening, moves)
        if opening is not None and segment_after(START, 0, 0, opening(self.moves)) != self.segment(0):
            raise MismatchError(f"the run has another opening state: {shown(self.target)}")

    def _make_or_join(self, opening: Callable[[int], bytes] | None, moves: int) -> None:
        # This commit flushes what an earlier, killed process left unflushed.
        with self.database.transaction():
            if opening is not None and not self.database.has_run():
                self._make(opening(moves), moves)
            self._check()
            self._run("update {inside}run set joined = joined + 1")

    def _make(self, opening: bytes, moves: int) -> None:
        self.database.make()
        for statement in TABLES.split(";"):
            self._run(statement.replace("{blob}", self.database.blob))
        self._run("insert into {inside}run values (1, ?, ?, 0)", FORMAT, moves)
        self._insert(segment_after(START, 0, 0, opening), opening, 0)

    def reconnect(self) -> None:
        """Connect again."""
        self.database.close()
        self._use(connect(self.target))

    def exchange(self, calls: list[Call], applied: int) -> list[PlacedCall]:
        """Append calls at the next places, except those whose token is there.

        Return the calls after a place, which are durable.

        Raises:
            Behind: the log doesn't have the next one any more.
        """
        own = {call.token: call for call in calls}
        return self._placed(self.database.append(calls, applied, READ), applied, own)

    def save(self, segment: Segment, text: bytes, last_place: int) -> None:
        """Save a segment that ended at a place, and drop calls that nobody needs.

        Nothing is saved if another process has saved the segment.

        Raises:
            DamagedError: another process has saved another one.
        """
        with self.database.transaction():
            there = self._run("select digest from {inside}segment where number = ?", segment.number)
            if not there:
                self._insert(segment, text, last_place)
                self._run("delete from {inside}call where place <= (select last_place from {inside}segment where number = ?)",
                          segment.number - _SEGMENTS_KEPT)
            elif there[0][0] != segment.digest:
                raise DamagedError(segment.number, "another process has saved another text of it")

    def _insert(self, segment: Segment, text: bytes, last_place: int) -> None:
        inside = self.database.inside
        self.database.insert(f"{inside}segment", [(*segment[:4], segment.digest, len(text), last_place)])
        pieces = (zlib.compress(text[at : at + _PIECE], 1) for at in range(0, len(text), _PIECE))
        for place, piece in enumerate(pieces):
            self.database.insert(f"{inside}piece", [(segment.number, place, piece)])
