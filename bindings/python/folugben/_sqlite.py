"""SQLite files that are runs: for agents that append, and for reading."""
import contextlib
import ctypes
import errno
import fcntl
import os
import pathlib
import shutil
import sqlite3
import stat
import struct
import tempfile
import time
from collections.abc import Iterator, Sequence
from typing import Any, Protocol

from ._errors import DamagedError
from ._faults import database_errors
from ._files import open_regular
from ._folder import CHUNK, sync_folder
from ._tables import SINCE, expect_tables

# The marker in the header of a SQLite file that is a run.
_APPLICATION = 0x466F6C75
# How long a transaction waits for those of other processes, and how long one may take that makes a run.
_SECONDS, _MAKING = 60.0, 1.0
# A lock on one byte of a file that belongs to the open file, as locks of Java's FileChannel belong to the process.
_OFD_SETLK = 37
# How often a copy is begun again that another process has made inconsistent.
_TRIES = 20
# A statement on a file takes at most this many steps of SQLite's machine, and that many for each byte; it asks after some.
_STEPS, _STEPS_A_BYTE, _MOMENT = 4_000_000, 20, 20_000
# How many bytes the rows of a statement may have besides those of the file.
_SLACK = 1 << 20
_HEADER, _PAGE = 32, 4096
_SINCE = SINCE.format(inside="")


def is_database(path: str | os.PathLike[str]) -> bool:
    """Return whether a file is a SQLite file, a run or not.

    SQLite alone opens it, as another close in this process would drop SQLite's locks. It looks at the file itself, and at none
    of those beside it.
    """
    try:
        if not stat.S_ISREG(os.stat(path).st_mode):
            return False
        connection = sqlite3.connect(_uri(path, "mode=ro&immutable=1"), uri=True)
        try:
            return bool(connection.execute("pragma page_count").fetchone() > (0,) and connection.execute("pragma schema_version").fetchone())
        finally:
            connection.close()
    except (OSError, ValueError, sqlite3.Error):
        return False


def _uri(path: str | os.PathLike[str], words: str) -> str:
    return f"{pathlib.Path(os.path.realpath(path)).as_uri()}?{words}"


def _beside(path: pathlib.Path, ending: str) -> pathlib.Path:
    return path.with_name(path.name + ending)


def _expect_own_files(path: pathlib.Path) -> None:
    """Check that what SQLite would read beside a file is a regular file of the same owner, and no rollback journal.

    A rollback journal may name any other file, which SQLite deletes when it plays the journal back. A run has none: it has a
    write-ahead log from its first table on.

    Raises:
        DamagedError: it isn't so.
    """
    # A process that makes the run just now has one for a moment, before there is more than one page.
    end = time.monotonic() + _MAKING
    while os.path.lexists(_beside(path, "-journal")):
        if os.stat(path).st_size > _PAGE or time.monotonic() > end:
            raise DamagedError(0, f"{path}-journal is there, which no run has, so {path} isn't opened")
        time.sleep(0.01)
    owner = os.stat(path).st_uid
    for log in _beside(path, "-wal"), _beside(path, "-shm"):
        with contextlib.suppress(FileNotFoundError):
            there = log.lstat()
            if not stat.S_ISREG(there.st_mode) or there.st_uid != owner:
                raise DamagedError(0, f"{log} is no regular file of the owner of {path}")


def leak(connection: object) -> None:
    """Prevent an object from ever being finalized."""
    ctypes.pythonapi.Py_IncRef(ctypes.py_object(connection))


class SqliteReader:
    """A SQLite file of anybody, for reading: nothing is written, and nothing is played back.

    If no file is beside it, SQLite opens the file itself, without locks. Otherwise it opens a private copy with the copy of
    the write-ahead log. What a statement costs is bounded by the size of the file.

    Raises:
        OSError: it can't be opened.
        DamagedError: it has other tables than a run, or what is beside it isn't of its owner.
    """

    blob, inside = "blob", ""

    def __init__(self, path: pathlib.Path) -> None:
        self._path, self._room = path, contextlib.ExitStack()
        with database_errors(path):
            self._open()

    def _open(self) -> None:
        self._room.close()
        if not stat.S_ISREG(os.stat(self._path).st_mode):
            raise OSError(errno.EINVAL, "no regular file", str(self._path))
        _expect_own_files(self._path)
        # What was there when it was opened, to know later whether it has changed.
        self._seen, self._is_copy = self._stamp(), _beside(self._path, "-wal").exists()
        try:
            uri = _uri(self._copy(), "mode=rw") if self._is_copy else _uri(self._path, "mode=ro&immutable=1")
            self._db = self._room.enter_context(contextlib.closing(_connection(uri)))
            size = self._seen[1] + self._seen[3]
            self._db.setlimit(sqlite3.SQLITE_LIMIT_LENGTH, size + _SLACK)
            self._size, self._most_steps, self._steps = size + _SLACK, _STEPS + _STEPS_A_BYTE * size, 0
            self._db.set_progress_handler(self._is_over, _MOMENT)
            self._db.execute("pragma query_only = on")
            self.has_run()
        except BaseException:
            self._room.close()
            raise

    def _stamp(self) -> tuple[int, int, int, int]:
        """Return what changes when the file or its write-ahead log does."""
        own, log = os.stat(self._path), None
        with contextlib.suppress(FileNotFoundError):
            log = _beside(self._path, "-wal").lstat()
        return own.st_mtime_ns, own.st_size, log.st_mtime_ns if log else 0, log.st_size if log else 0

    def _copy(self) -> pathlib.Path:
        """Copy the file and its write-ahead log to a private folder.

        The log is copied later. If it wasn't begun again meanwhile, it has each page that was written into the file meanwhile.
        """
        folder = pathlib.Path(self._room.enter_context(tempfile.TemporaryDirectory(prefix="folugben-")))
        copy, log = folder / "run", _beside(self._path, "-wal")
        for _ in range(_TRIES):
            begun, was = _header(log), self._stamp()[:2]
            with contextlib.closing(_connection(_uri(self._path, "mode=ro&immutable=1"))) as source:
                with contextlib.closing(_connection(_uri(copy, "mode=rwc"))) as target:
                    target.execute("pragma journal_mode = off")
                    target.execute("pragma synchronous = off")
                    source.backup(target)
            with _beside(copy, "-wal").open("wb") as out, contextlib.suppress(FileNotFoundError), open_regular(log) as file:
                shutil.copyfileobj(file, out, CHUNK)
            if begun == _header(_beside(copy, "-wal")) == _header(log) and (begun or was == self._stamp()[:2]):
                return copy
            copy.unlink()
        raise OSError(errno.EBUSY, "it is written all the time", str(self._path))

    def refresh(self) -> None:
        """Read what was written since it was opened."""
        if self._stamp() != self._seen:
            self._open()

    def run(self, sql: str, values: Sequence[Any] = ()) -> list[Any]:
        for _ in range(_TRIES):
            try:
                rows = self._rows(sql, values)
            except (sqlite3.Error, DamagedError):
                if not self._is_changed():
                    raise
            else:
                if not self._is_changed():
                    return rows
            self._open()
        raise OSError(errno.EBUSY, "it is written all the time", str(self._path))

    def _is_changed(self) -> bool:
        """Return whether somebody has written into the file that SQLite reads."""
        return not self._is_copy and self._stamp()[:2] != self._seen[:2]

    def _rows(self, sql: str, values: Sequence[Any]) -> list[Any]:
        rows, size, self._steps = list[Any](), 0, 0
        try:
            for row in self._db.execute(sql, values):
                size += sum(len(it) for it in row if isinstance(it, (str, bytes)))
                if size > self._size:
                    raise DamagedError(0, f"its rows have more bytes than the file: {self._path}")
                rows.append(row)
        except sqlite3.Error as error:
            code = getattr(error, "sqlite_errorcode", 0)
            if code == sqlite3.SQLITE_INTERRUPT and self._steps <= self._most_steps:
                # A signal handler has raised in what SQLite calls, which drops that.
                raise KeyboardInterrupt from None
            if code in (0, sqlite3.SQLITE_ERROR, sqlite3.SQLITE_INTERRUPT):
                raise DamagedError(0, f"its tables can't be read, or take too long: {error}: {self._path}") from error
            raise
        return rows

    def _is_over(self) -> bool:
        self._steps += _MOMENT
        return self._steps > self._most_steps

    def has_run(self) -> bool:
        """Do the same as any database."""
        return _has_run(self, self._path)

    def close(self) -> None:
        self._room.close()


class _Runs(Protocol):
    def run(self, sql: str, values: Sequence[Any] = ()) -> list[Any]: ...


def _has_run(database: _Runs, path: pathlib.Path) -> bool:
    """Return whether a file has the tables of a run, and nothing else.

    Raises:
        DamagedError: it has something else.
    """
    has_tables = expect_tables(database.run("select type, name, sql from sqlite_schema"))
    if has_tables and database.run("pragma application_id") != [(_APPLICATION,)]:
        raise DamagedError(0, f"{path} is another database than a run's")
    return has_tables


def _connection(uri: str) -> sqlite3.Connection:
    connection = sqlite3.connect(uri, _SECONDS, isolation_level=None, check_same_thread=False, uri=True)
    try:
        connection.execute("pragma trusted_schema = off")
    except BaseException:
        connection.close()
        raise
    return connection


def _header(log: pathlib.Path) -> bytes:
    """Return the header of a write-ahead log, which is another one each time that the log is begun again."""
    with contextlib.suppress(FileNotFoundError), open_regular(log) as file:
        return file.read(_HEADER)
    return b""


class Sqlite:
    """A file, with a write-ahead log that is flushed at the end of each transaction.

    Beside it is a file for agents' numbers.
    """

    blob, inside = "blob", ""

    def __init__(self, path: pathlib.Path, makes: bool) -> None:
        self._path, self._agents = path, -1
        if makes:
            with contextlib.suppress(FileExistsError):
                os.close(os.open(path, os.O_RDWR | os.O_CREAT | os.O_EXCL | os.O_CLOEXEC, 0o600))
                sync_folder(path.parent)
        self._file = os.stat(path)
        if stat.S_ISDIR(self._file.st_mode):
            raise IsADirectoryError(errno.EISDIR, "a shared run is a file or a server, and a folder may be a Run", str(path))
        if not stat.S_ISREG(self._file.st_mode):
            raise OSError(errno.EINVAL, "no regular file", str(path))
        with database_errors(path):
            _expect_own_files(path)
            self._db = _connection(_uri(path, "mode=rw"))
            if self.has_run() or makes:
                self._set_log()
            self._db.execute("pragma synchronous = full")
        flags = os.O_RDWR | os.O_CREAT | os.O_CLOEXEC | os.O_NOFOLLOW | os.O_NONBLOCK
        self._agents = os.open(_beside(path, "-agents"), flags, 0o600)

    def _set_log(self) -> None:
        """Switch to a write-ahead log.

        SQLite doesn't wait for another process that is about to do the same.
        """
        end = time.monotonic() + _SECONDS
        while True:
            try:
                self._db.execute("pragma journal_mode = wal")
                return
            except sqlite3.OperationalError as error:
                if error.sqlite_errorcode & 0xFF != sqlite3.SQLITE_BUSY or time.monotonic() > end:
                    raise
                time.sleep(0.01)

    def run(self, sql: str, values: Sequence[Any] = ()) -> list[Any]:
        return self._db.execute(sql, values).fetchall()

    def insert(self, table: str, rows: Sequence[Sequence[Any]], more: str = "") -> None:
        places = ", ".join("?" * len(rows[0]))
        self._db.executemany(f"insert into {table} values ({places}) {more}", rows)

    def append(self, calls: Sequence[Sequence[Any]], since: int, most: int) -> list[Any]:
        if not calls:
            return self.run(_SINCE, (since, most))
        self._begin()
        try:
            ((last,),) = self._db.execute("select coalesce(max(place), 0) from call")
            rows: list[Any] = [(last + at, *call) for at, call in enumerate(calls, 1)]
            added = self._db.executemany("insert into call values (?, ?, ?, ?, ?, ?) on conflict (token) do nothing", rows)
            # If that place was the last one, and no call was there, these are all the rows after it.
            if last != since or added.rowcount != len(rows):
                rows = self.run(_SINCE, (since, most))
            self._db.execute("commit")
            return rows[:most]
        except BaseException:
            self._roll_back()
            raise

    @contextlib.contextmanager
    def transaction(self) -> Iterator[None]:
        self._begin()
        try:
            yield
            self._db.execute("commit")
        except BaseException:
            self._roll_back()
            raise

    def _begin(self) -> None:
        # Neither SQLite nor a new connection notices a file that was removed.
        if not os.path.samestat(os.stat(self._path), self._file):
            raise DamagedError(0, f"{self._path} was removed or replaced")
        self._db.execute("begin immediate")

    def _roll_back(self) -> None:
        if self._db.in_transaction:
            self._db.execute("rollback")

    def has_run(self) -> bool:
        return _has_run(self, self._path)

    def refresh(self) -> None:
        """Do nothing: each statement reads what is there."""

    def make(self) -> None:
        self.run(f"pragma application_id = {_APPLICATION}")

    def hold(self, *agents: int) -> bool:
        return all(self._lock(fcntl.F_WRLCK, it) for it in agents)

    def release(self, agent: int) -> None:
        self._lock(fcntl.F_UNLCK, agent)

    def _lock(self, kind: int, agent: int) -> bool:
        try:
            fcntl.fcntl(self._agents, _OFD_SETLK, struct.pack("hhxxxxqqixxxx", kind, os.SEEK_SET, agent, 1, 0))
        except OSError as error:
            if error.errno not in (errno.EAGAIN, errno.EACCES):
                raise
            return False
        return True

    def close(self) -> None:
        self._db.close()
        if self._agents >= 0:
            os.close(self._agents)
            self._agents = -1

    def leave(self) -> None:
        leak(self._db)
        if self._agents >= 0:
            os.close(self._agents)
            self._agents = -1
