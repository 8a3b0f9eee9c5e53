"""Databases of shared runs: a SQLite file, or a schema of a PostgreSQL server."""
import contextlib
import os
import pathlib
from collections.abc import Sequence
from typing import Any, Protocol

from ._postgres import Postgres
from ._sqlite import Sqlite, SqliteReader


class Source(Protocol):
    """A connection for reading, for one thread at a time.

    Its statements have ? for each value. Each call raises `ConnectionLost` if the connection is lost.
    """

    # The schema of the tables, with a point.
    inside: str

    def run(self, sql: str, values: Sequence[Any] = ()) -> list[Any]:
        """Run one statement and return its rows."""

    def has_run(self) -> bool:
        """Return whether the tables of a run are there.

        Raises:
            DamagedError: other tables are there.
        """

    def refresh(self) -> None:
        """Read what others have written since it was opened."""

    def close(self) -> None:
        """Close the connection; closing again has no effect."""


class Database(Source, Protocol):
    """A connection that writes too."""

    # The type of bytes.
    blob: str

    def insert(self, table: str, rows: Sequence[Sequence[Any]], more: str = "") -> None:
        """Insert rows by as few statements as possible."""

    def append(self, calls: Sequence[Sequence[Any]], since: int, most: int) -> list[Any]:
        """Append calls to the log, except those whose token is there; return later rows.

        Return at most the given number of rows after a place, once all is on the disk. A row of a call that this call appended
        may have only its place and its token.
        """

    def transaction(self) -> contextlib.AbstractContextManager[None]:
        """Run the body as one transaction, alone, that is on the disk at the end."""

    def make(self) -> None:
        """Create, in a transaction, what the tables require."""

    def hold(self, *agents: int) -> bool:
        """Reserve the numbers of agents for the lifetime of this process.

        Return whether no other process has one.
        """

    def release(self, agent: int) -> None:
        """Release the number for others."""

    def leave(self) -> None:
        """Drop the connection in the child of a fork.

        Closing it would end what the parent does.
        """


def connect(target: str | os.PathLike[str], makes: bool = False) -> Database:
    """Connect to postgresql://.. or to a SQLite file, which is created if `makes` is set.

    Raises:
        ConnectionError: the server doesn't answer.
        FileNotFoundError: there is no file.
        OSError: the file can't be opened or written, or the schema is of another role.
        DamagedError: the file is another one.
        ValueError: the name of the server or of the schema isn't valid.
    """
    if is_server(target):
        return Postgres(str(target), True)
    return Sqlite(pathlib.Path(os.path.realpath(target)), makes)


def connect_to_read(target: str | os.PathLike[str]) -> Source:
    """Connect without any right to write, as `connect` does."""
    if is_server(target):
        return Postgres(str(target), False)
    return SqliteReader(pathlib.Path(os.path.realpath(target)))


def is_server(target: object) -> bool:
    """Return whether a target is the name of a PostgreSQL server."""
    return isinstance(target, str) and target.startswith(("postgresql:", "postgres:"))
