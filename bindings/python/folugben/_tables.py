"""The tables of a shared run, and what a row of each may hold.

run      one row: the format, 1; how many moves a segment has at most; how often a process has joined
call     place; token; the segment in which the step began; agent; {"fire":[..],"reads":[..]}; [[name, number], ..] of scans, with
         versions of the segment
segment  the saved segments, with their digests
piece    their texts, in pieces of at most 1,048,576 bytes, by zlib

Appends hold one lock (`begin immediate`; `lock table run`), so places become visible in their order; some may stay empty. Each
process applies the calls in that order:

1. A call with another segment than the current one is answered `PastError`.
2. One agent fires the other calls. Those that are fired, stale or clash are events of the segment's journal, with the agent of the
   call.
3. A segment ends with its last move, or after twice as many events. The next one opens with the state at that place. The first
   process to get there saves the journal, with its digest in the chain of docs/FORMATS.md, and drops the calls of the segment two
   before.

A process that joins takes the state from the last segment, whose digest it checks, and applies the calls after it.
"""
import re
from collections.abc import Iterable, Sequence
from typing import Any

from ._errors import DamagedError

FORMAT = 1
# How many agents a run has at most, and moves a segment.
_AGENTS, _MOVES = 256, 2**20
# The tables; before each name is the schema in which it is, with a point.
TABLES = """
create table {inside}run(one integer primary key check (one = 1), format integer not null, moves integer not null, joined bigint not null);
create table {inside}segment(number bigint primary key, first_move bigint not null, moves bigint not null, events bigint not null,
    digest text not null, length bigint not null, last_place bigint not null);
create table {inside}piece(segment bigint not null references {inside}segment, place integer not null, data {blob} not null,
    primary key (segment, place));
create table {inside}call(place bigint primary key, token {blob} not null unique, segment bigint not null, agent integer not null,
    call text not null, scans text not null)
"""
NAMES = ("run", "segment", "piece", "call")
# The calls after a place.
SINCE = "select place, token, segment, agent, call, scans from {inside}call where place > ? order by place limit ?"
_DIGEST = re.compile("[0-9a-f]{64}")


def expect_tables(rows: Iterable[Sequence[Any]]) -> bool:
    """Check that the schema of a SQLite file has nothing but the tables of a run; return whether it has them.

    The rows are type, name and text of each entry.

    Raises:
        DamagedError: there is another table, a view or a trigger.
    """
    found = {}
    for kind, name, text in rows:
        if kind == "index" and text is None and str(name).startswith("sqlite_autoindex_"):
            continue
        if kind != "table" or not isinstance(text, str):
            raise DamagedError(0, f"it has the {kind} {name!r}, which no run has")
        found[name] = " ".join(text.lower().split())
    wanted = [" ".join(it.split()) for it in TABLES.format(inside="", blob="blob").split(";")]
    if found and found != dict(zip(NAMES, wanted)):
        raise DamagedError(0, "it has other tables than a run")
    return bool(found)


def expect(is_so: bool, segment: int, detail: str) -> None:
    """Check a row.

    Raises:
        DamagedError: it isn't so.
    """
    if not is_so:
        raise DamagedError(segment, detail)


def is_count(*values: Any) -> bool:
    """Return whether values are whole numbers from 0."""
    return all(type(it) is int and 0 <= it < 2**63 for it in values)


def expect_run(row: Sequence[Any]) -> None:
    """Check the format and the number of moves of a run."""
    expect(is_count(*row) and 1 <= row[1] <= _MOVES, 0, "its row has no numbers of a run")


def expect_segment(row: Sequence[Any], number: int) -> None:
    """Check a row of a segment: four numbers and its digest."""
    is_right = is_count(*row[:4]) and isinstance(row[4], str) and _DIGEST.fullmatch(row[4])
    expect(bool(is_right), number, "its row is missing, or has other numbers")


def expect_call(row: Sequence[Any]) -> None:
    """Check a row of a call: place, token, segment, agent, call and scans.

    A call that this process has appended may have its place and token alone.
    """
    place, token, segment, agent, *texts = row
    is_own = segment is None and agent is None and texts == [None, None]
    is_right = is_count(place) and isinstance(token, (bytes, memoryview))
    is_whole = is_count(segment, agent) and agent < _AGENTS and all(isinstance(it, str) for it in texts)
    expect(is_right and (is_own or is_whole), 0, f"the row of the call {place!r} is no call of an agent below {_AGENTS}")
