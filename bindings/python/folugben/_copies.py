"""Copies of runs, and runs without their first segments."""
import errno
import os
import pathlib
import secrets
import shutil
from collections.abc import Iterator

from ._auditor import Counts
from ._folder import RunFolder, RunWriter, sync_folder
from ._reading import Reading
from ._refusals import expect_keep
from ._segments import DroppedError


def prune_run(path: str | os.PathLike[str], keep: int) -> Counts:
    """Remove the first segments of a run in a folder, so that the last ones stay, as many as `keep` says.

    Return the counts of an audit of those that stay, which comes first. They are removed one after the other: if that is cut
    off, the folder has a run.

    Raises:
        ValueError: `keep` is no whole number from 1.
        FileNotFoundError: there is no run.
        BlockingIOError: a run uses the folder.
        DamagedError, BadJournalError: what would stay is damaged or illegal; nothing is removed.
    """
    expect_keep(keep)
    writer, names = RunWriter.resume(path)
    try:
        counts = Reading(writer, trail=writer.trail).audit_last(names, keep)
        writer.begin()
        writer.keep(keep)
    finally:
        writer.close()
    return counts


class _Copied(RunFolder):
    """A folder, the texts of which are also written into another one."""

    def __init__(self, path: str | os.PathLike[str], to: pathlib.Path) -> None:
        super().__init__(path)
        self._to = to

    def text(self, name: str) -> Iterator[bytes]:
        flags = os.O_WRONLY | os.O_CREAT | os.O_EXCL | os.O_CLOEXEC
        with open(os.open(self._to / name, flags, 0o600), "wb") as file:
            for chunk in super().text(name):
                file.write(chunk)
                yield chunk
            file.flush()
            os.fsync(file.fileno())


def copy_run(path: str | os.PathLike[str], to: str | os.PathLike[str]) -> Counts:
    """Copy the complete segments of a run, also while it is written, into another folder.

    Return the counts of an audit, which they pass meanwhile. The copy is complete, or isn't made.

    Raises:
        FileExistsError: there is something else than an empty folder.
        FileNotFoundError: there is no run.
        DamagedError, BadJournalError: the run is damaged or illegal.
    """
    real = pathlib.Path(os.path.realpath(to))
    if real.is_relative_to(os.path.realpath(path)):
        raise OSError(errno.EINVAL, "the copy would be in the folder of the run: name another folder", str(real))
    if real.exists() and not (real.is_dir() and not os.listdir(real)):
        raise FileExistsError(errno.EEXIST, "there is something already", str(real))
    temporary = real.with_name(f".{real.name}.{secrets.token_hex(4)}")
    try:
        counts = _copy(path, temporary)
        sync_folder(temporary)
        os.rename(temporary, real)
        sync_folder(real.parent)
    finally:
        shutil.rmtree(temporary, ignore_errors=True)
    return counts


def _copy(path: str | os.PathLike[str], to: pathlib.Path) -> Counts:
    while True:
        with _Copied(path, to) as folder:
            names = folder.names()
            os.mkdir(to, 0o700)
            try:
                return Reading(folder).audit(names)
            except DroppedError:
                # The run has dropped it meanwhile: the copy begins later.
                shutil.rmtree(to)
