"""The folder of a run: one text file for each segment."""
import contextlib
import errno
import fcntl
import os
import pathlib
import stat
from collections.abc import Iterator
from enum import IntEnum

from ._errors import DamagedError, expect
from ._files import open_regular
from ._library import Code
from ._segments import START, SUFFIX, DroppedError, Segment, Trail

# How many bytes of a file are read at once.
CHUNK = 1 << 20
_NEW, _LOCK = "new", "lock"


class Request(IntEnum):
    """The call of the system that comes next, as the library says."""

    REST = 0
    REMOVE_NEW = 1
    CREATE_NEW = 2
    WRITE_NEW = 3
    FLUSH_NEW = 4
    RENAME_NEW = 5
    FLUSH_FOLDER = 6
    REMOVE_OLDEST = 7


class RunFolder:
    """A run's folder, for reading, also while another process writes there."""

    def __init__(self, path: str | os.PathLike[str]) -> None:
        self.path = pathlib.Path(os.path.realpath(path))
        self._fd = _open_folder(self.path)

    def segments(self) -> list[Segment]:
        """Return the segments that are there now.

        Raises:
            FileNotFoundError: there is none.
            DamagedError: the names aren't those of a run.
        """
        while names := self._names():
            try:
                return Trail().skip(names)
            except DamagedError:
                # Another process may have saved and dropped some while they were listed.
                if names == self._names():
                    raise
        raise FileNotFoundError(errno.ENOENT, "the folder has no run", str(self.path))

    def names(self) -> list[str]:
        """Return the names that are there now, also if they aren't those of a run: whoever takes them finds the first fault.

        Raises:
            FileNotFoundError: there is none.
        """
        try:
            return [it.name for it in self.segments()]
        except DamagedError:
            if names := self._names():
                return names
            raise

    def _names(self) -> list[str]:
        return sorted(it for it in os.listdir(self._fd) if it.endswith(SUFFIX))

    def length(self, name: str) -> int:
        """Return how many bytes the text of the segment with a name has."""
        with self._no_file(name):
            return os.stat(name, dir_fd=self._fd, follow_symlinks=False).st_size

    def text(self, name: str) -> Iterator[bytes]:
        """Yield the text of the segment with a name, which isn't checked."""
        with self._no_file(name):
            file = open_regular(name, self._fd)
        with file:
            while chunk := file.read(CHUNK):
                yield chunk

    @contextlib.contextmanager
    def _no_file(self, name: str) -> Iterator[None]:
        """Report a segment whose file can't be opened as one."""
        try:
            yield
        except FileNotFoundError:
            number = Trail().name(name).number
            if any(number < Trail().name(it).number for it in self._names()[:1]):
                raise DroppedError(number, "it was dropped meanwhile, so begin again") from None
            raise DamagedError(number, "its file is missing") from None
        except OSError as error:
            if error.errno not in (errno.EINVAL, errno.EISDIR, errno.ELOOP, errno.ENXIO):
                raise
            raise DamagedError(Trail().name(name).number, "its file is no regular file") from None

    def unsaved(self, last: Segment) -> list[tuple[Segment, bytes]]:
        """Return what is after the last segment: nothing."""
        return []

    def close(self) -> None:
        """Close the folder; closing again has no effect."""
        if self._fd >= 0:
            fd, self._fd = self._fd, -1
            os.close(fd)

    def __enter__(self) -> "RunFolder":
        return self

    def __exit__(self, *_: object) -> None:
        self.close()


class RunWriter(RunFolder):
    """A run's folder to which only this process writes."""

    def __init__(self, path: pathlib.Path) -> None:
        super().__init__(path)
        self._lock = self._new = -1
        # What was read and saved.
        self.trail = Trail()
        # What the file of the last segment was when it was written or found.
        self._last_file: os.stat_result | None = None
        try:
            if os.fstat(self._fd).st_uid != os.geteuid():
                raise PermissionError(errno.EPERM, "the folder belongs to another user", str(path))
            self._lock = os.open(_LOCK, os.O_RDWR | os.O_CREAT | os.O_CLOEXEC | os.O_NOFOLLOW, 0o600, dir_fd=self._fd)
            fcntl.flock(self._lock, fcntl.LOCK_EX | fcntl.LOCK_NB)
            self._expect_unmoved()
            # An earlier, killed run may have renamed files: the folder is flushed before it is read.
            self._make(self.trail.core.request(), "")
            sync_folder(self.path.parent)
        except BaseException as error:
            self.close()
            if isinstance(error, BlockingIOError):
                raise BlockingIOError(error.errno, "another run uses the folder", str(path)) from None
            raise

    @classmethod
    def create(cls, path: str | os.PathLike[str], opening: memoryview) -> "RunWriter":
        """Create a run with an opening segment.

        Raises:
            FileExistsError: the path leads to a run, or to something other than an empty folder.
            BlockingIOError: another process creates a run there.
            OSError: the path is a link, or the folder belongs to another user.
        """
        real = _unlinked(path)
        with contextlib.suppress(FileExistsError):
            os.mkdir(real, 0o700)
        _expect_empty(real)
        writer = cls(real)
        try:
            _expect_empty(real)
            writer.begin()
            writer.save(opening, 0, 0)
        except BaseException:
            writer.close()
            raise
        return writer

    @classmethod
    def resume(cls, path: str | os.PathLike[str]) -> tuple["RunWriter", list[str]]:
        """Open an earlier run to continue it.

        Return it with the names in its folder, which its trail has to take before it begins to save.

        Raises:
            FileNotFoundError: there is no run.
            BlockingIOError: another run uses the folder.
            OSError: the path is a link, or the folder belongs to another user.
        """
        with RunFolder(_unlinked(path)) as folder:
            folder.names()  # nothing is created in a folder without a run
        writer = cls(folder.path)
        try:
            names = writer.names()
            writer._last_file = os.stat(names[-1], dir_fd=writer._fd, follow_symlinks=False)
            writer._remove_new()
        except BaseException:
            writer.close()
            raise
        return writer, names

    def begin(self) -> None:
        """Begin to save, after what its trail has taken."""
        expect(self.trail.core.read())

    @property
    def last(self) -> Segment:
        """The last segment that is saved."""
        return self.trail.last

    def saved(self) -> tuple[int, int]:
        """Return how many segments and moves are on the disk, with those that were dropped."""
        _, segments, moves, _ = self.trail.core.saved()
        return segments, moves

    def save(self, text: memoryview, moves: int, events: int) -> None:
        """Save the next segment; it is on the disk when this returns.

        After an error nothing more may be saved.
        """
        self._expect_unmoved()
        code, name = self.trail.core.hand(moves, events, text)
        if code == Code.LONG_RUN:
            raise OSError(errno.EFBIG, "a run has at most 100,000,000 segments, and less than 2^64 moves", str(self.path))
        expect(code)
        self._work(name, text)
        self.trail.last = Segment(self.last.number + 1, self.last.end, moves, events, name)
        self.trail.names[self.last.number] = name
        self._expect_unmoved()

    def keep(self, most: int) -> None:
        """Remove the oldest segments, one after the other, until there are at most so many."""
        while len(self.trail.names) > most:
            code, number = self.trail.core.drop()
            expect(code)
            self._work(self.trail.names.pop(number))

    def _work(self, name: str, text: memoryview = memoryview(b"")) -> None:
        """Make each call of the system that the library asks for.

        They save a segment with this name and text, or drop the one with this name. After an error nothing more is done.
        """
        try:
            while request := self.trail.core.request():
                self._make(request, name, text)
                self.trail.core.done()
        except BaseException:
            self.trail.core.failed()
            # The disk may be full of it.
            with contextlib.suppress(OSError):
                self._remove_new()
            raise
        finally:
            self._close_new()

    def _make(self, request: int, name: str, text: memoryview = memoryview(b"")) -> None:
        match request:
            case Request.REMOVE_NEW:
                self._remove_new()
            case Request.CREATE_NEW:
                flags = os.O_WRONLY | os.O_CREAT | os.O_EXCL | os.O_CLOEXEC
                self._new = os.open(_NEW, flags, 0o600, dir_fd=self._fd)
            case Request.WRITE_NEW:
                self._write_new(text)
            case Request.FLUSH_NEW:
                os.fsync(self._new)
                self._last_file = os.fstat(self._new)
                self._close_new()
            case Request.RENAME_NEW:
                os.rename(_NEW, name, src_dir_fd=self._fd, dst_dir_fd=self._fd)
            case Request.FLUSH_FOLDER:
                os.fsync(self._fd)
            case Request.REMOVE_OLDEST:
                os.unlink(name, dir_fd=self._fd)

    def _write_new(self, text: memoryview) -> None:
        while text:
            written = os.write(self._new, text)
            if written == 0:
                raise OSError(errno.EIO, "a write took no byte", str(self.path / _NEW))
            text = text[written:]

    def _remove_new(self) -> None:
        with contextlib.suppress(FileNotFoundError):
            os.unlink(_NEW, dir_fd=self._fd)

    def _close_new(self) -> None:
        if self._new >= 0:
            new, self._new = self._new, -1
            os.close(new)

    def _expect_unmoved(self) -> None:
        """Check that the path leads to this folder, with the lock and the last segment.

        Raises:
            DamagedError: something was moved, removed, replaced or truncated.
        """
        number = self.last.number + 1
        try:
            if not _same(os.stat(self.path), os.fstat(self._fd)):
                raise DamagedError(number, f"{self.path} was moved or replaced")
            if not _same(os.stat(_LOCK, dir_fd=self._fd, follow_symlinks=False), os.fstat(self._lock)):
                raise DamagedError(number, f"the lock in {self.path} was replaced")
            if self._last_file is not None:
                found = os.stat(self.last.name, dir_fd=self._fd, follow_symlinks=False)
                if not _same(found, self._last_file) or found.st_size != self._last_file.st_size:
                    raise DamagedError(self.last.number, "its file was replaced, or has another size")
        except FileNotFoundError as error:
            raise DamagedError(number, f"{self.path}: what the run has written was removed") from error

    def close(self) -> None:
        """Release the folder to other runs; releasing again has no effect."""
        if self._lock >= 0:
            lock, self._lock = self._lock, -1
            # A child of a fork may have a copy, which would hold the lock.
            fcntl.flock(lock, fcntl.LOCK_UN)
            os.close(lock)
        super().close()

    def leave(self) -> None:
        """Close the copies in the child of a fork; the parent's run continues."""
        if self._lock >= 0:
            lock, self._lock = self._lock, -1
            os.close(lock)
        super().close()


def _same(one: os.stat_result, other: os.stat_result) -> bool:
    return (one.st_dev, one.st_ino) == (other.st_dev, other.st_ino)


def _open_folder(path: pathlib.Path) -> int:
    try:
        return os.open(path, os.O_RDONLY | os.O_DIRECTORY | os.O_CLOEXEC)
    except NotADirectoryError as error:
        detail = "a run is a folder; a run in one file is imported by: folugben import"
        raise NotADirectoryError(error.errno, detail, str(path)) from None


def _unlinked(path: str | os.PathLike[str]) -> pathlib.Path:
    """Return the absolute path of a folder in which a run is written, which is no link: somebody else may change where that leads."""
    if os.path.islink(pathlib.Path(path)):
        raise OSError(errno.ELOOP, "a link leads to the folder: name the folder itself", str(path))
    return pathlib.Path(os.path.realpath(path))


def _expect_empty(path: pathlib.Path) -> None:
    """Check that a folder has nothing but the remains of a run killed during creation."""
    if not stat.S_ISDIR(os.stat(path).st_mode):
        raise FileExistsError(errno.EEXIST, "there is a file", str(path))
    names = set(os.listdir(path)) - {_NEW, _LOCK}
    if any(name.endswith(SUFFIX) for name in names):
        raise FileExistsError(errno.EEXIST, "there is a run, which Run.resume continues", str(path))
    if names:
        raise FileExistsError(errno.EEXIST, "the folder isn't empty", str(path))


def sync_folder(folder: pathlib.Path) -> None:
    """Flush the names in a folder."""
    fd = os.open(folder, os.O_RDONLY | os.O_DIRECTORY | os.O_CLOEXEC)
    try:
        os.fsync(fd)
    finally:
        os.close(fd)
