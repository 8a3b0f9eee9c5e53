"""The errors of databases, as errors of this package."""
import contextlib
import errno
import sqlite3
from collections.abc import Iterator

from ._errors import DamagedError
from ._files import shown


class ConnectionLost(Exception):
    """The connection to a server is lost; it is unknown whether what was sent is done."""


@contextlib.contextmanager
def database_errors(target: object) -> Iterator[None]:
    """Convert errors of the database.

    Raises:
        ConnectionError: the connection is lost.
        OSError, DamagedError: the file can't be used.
    """
    try:
        yield
    except ConnectionLost as error:
        raise ConnectionError(errno.ECONNREFUSED, f"the server doesn't answer: {error}") from error
    except sqlite3.Error as error:
        raise as_os_error(error, target) from error


def as_os_error(error: sqlite3.Error, target: object) -> OSError | DamagedError:
    """Return the error of a file that SQLite can't open or write."""
    code = getattr(error, "sqlite_errorcode", 0) & 0xFF
    if code in (sqlite3.SQLITE_NOTADB, sqlite3.SQLITE_CORRUPT, sqlite3.SQLITE_TOOBIG):
        return DamagedError(0, f"{error}: {shown(target)}")
    number = {sqlite3.SQLITE_FULL: errno.ENOSPC, sqlite3.SQLITE_READONLY: errno.EROFS, sqlite3.SQLITE_PERM: errno.EACCES,
              sqlite3.SQLITE_BUSY: errno.EBUSY, sqlite3.SQLITE_CANTOPEN: errno.EACCES}
    return OSError(number.get(code, errno.EIO), f"SQLite: {error}", str(target))
