"""Files that others may have made: how they are read, named on a terminal, and replaced by an output."""
import contextlib
import errno
import io
import os
import pathlib
import re
import secrets
import stat
from collections.abc import Iterator
from typing import BinaryIO
from urllib.parse import unquote

# What reads a file that may be anything: it neither waits for a writer nor takes a terminal.
_CAREFULLY = os.O_RDONLY | os.O_NONBLOCK | os.O_NOCTTY | os.O_CLOEXEC
# The password of a user of a server, and a word after the ? of its name.
_PASSWORD, _WORD = re.compile(r"(?<=://)([^/:@]*):[^/]*@"), re.compile(r"(?<=[?&])([^=&#]*)=[^&#]*")


def open_regular(path: str | os.PathLike[str], folder: int | None = None) -> io.FileIO:
    """Open a regular file for reading, without a buffer; in a folder no link is followed.

    Raises:
        OSError: it is a pipe, a folder or a device.
    """
    fd = os.open(path, _CAREFULLY | (os.O_NOFOLLOW if folder is not None else 0), dir_fd=folder)
    try:
        mode = os.fstat(fd).st_mode
        if stat.S_ISDIR(mode):
            raise IsADirectoryError(errno.EISDIR, os.strerror(errno.EISDIR), os.fspath(path))
        if not stat.S_ISREG(mode):
            raise OSError(errno.EINVAL, "no regular file; pass it as standard input", os.fspath(path))
        return io.FileIO(fd, "rb")
    except BaseException:
        os.close(fd)
        raise


def plain(text: str) -> str:
    """Return a text with escapes for characters that a terminal would obey."""
    return "".join(it if it.isprintable() else ascii(it)[1:-1] for it in text)


def shown(target: object) -> str:
    """Return the name of a run without the password that the name of a server may have."""
    text = str(target)
    if "://" not in text:
        return text
    return _WORD.sub(lambda it: f"{it[1]}=***" if "password" in unquote(it[1]).lower() else it[0], _PASSWORD.sub(r"\1:***@", text, count=1))


@contextlib.contextmanager
def replacing(path: pathlib.Path) -> Iterator[BinaryIO]:
    """Write a file that has the name only once it is complete.

    It is written beside, and renamed if the body raises nothing. Otherwise an earlier file is as it was.

    Raises:
        FileExistsError: there is a link, a pipe, a folder or a device by that name.
    """
    mode = _mode_of(path)
    beside = path.with_name(f".folugben-{secrets.token_hex(8)}")
    fd = os.open(beside, os.O_WRONLY | os.O_CREAT | os.O_EXCL | os.O_CLOEXEC | os.O_NOFOLLOW, 0o666 if mode is None else 0o600)
    try:
        with open(fd, "wb") as out:
            yield out
            out.flush()
            if mode is not None:
                os.fchmod(fd, mode)
            os.fsync(fd)
        os.replace(beside, path)
    except BaseException:
        with contextlib.suppress(FileNotFoundError):
            os.unlink(beside)
        raise


def _mode_of(path: pathlib.Path) -> int | None:
    """Return the mode of the file that a new one replaces, if there is one."""
    try:
        there = path.lstat()
    except FileNotFoundError:
        return None
    if not stat.S_ISREG(there.st_mode):
        raise FileExistsError(errno.EEXIST, "is there, and is no regular file: name another output", str(path))
    return stat.S_IMODE(there.st_mode)


def expect_other_output(output: pathlib.Path, inputs: list[str]) -> None:
    """Check that an output is none of the inputs, nor in one of the folders that are read.

    The input - is standard input. The files beside a database belong to it.

    Raises:
        OSError: it is.
    """
    there = output.stat() if output.exists() else None
    for name in inputs:
        if there is not None and _is_input(name, there):
            raise OSError(f"{name} is read, so it can't be written: name another output")
        if os.path.isdir(name) and output.resolve().parent == pathlib.Path(name).resolve():
            raise OSError(f"{output} is in the folder of the run that is read: name another output")
        if str(output.resolve()) in [os.path.realpath(name) + ending for ending in ("-wal", "-shm", "-journal", "-agents")]:
            raise OSError(f"{output} belongs to the run that is read: name another output")


def _is_input(name: str, there: os.stat_result) -> bool:
    try:
        return os.path.samestat(os.fstat(0) if name == "-" else os.stat(name), there)
    except OSError:
        return False
