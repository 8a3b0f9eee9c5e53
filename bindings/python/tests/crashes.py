"""States that a power failure may leave of a run's folder.

They are built from a log of the calls by which the folder was written.
"""
import contextlib
import os
import stat
from unittest import mock

from folugben import _folder


class Log:
    """The calls that write, name and flush, in their order.

    Between them is how many segments were reported as saved.
    """

    def __init__(self, path, notes_folder=True):
        self.calls, self._path, self._notes_folder, self._names = [], str(path), notes_folder, {}

    @contextlib.contextmanager
    def noting(self):
        """Log what this process does."""
        real = {name: getattr(os, name) for name in ("open", "close", "write", "fsync", "rename", "unlink", "mkdir")}

        def record_open(path, flags, mode=0o777, *, dir_fd=None):
            fd = real["open"](path, flags, mode, dir_fd=dir_fd)
            self._names[fd] = path if dir_fd is not None else None
            if dir_fd is not None and flags & os.O_EXCL:
                self.calls.append(("create", path))
            return fd

        def record_close(fd):
            self._names.pop(fd, None)
            real["close"](fd)

        def record_write(fd, data):
            count = real["write"](fd, data)
            if self._names.get(fd) is not None:
                self.calls.append(("write", self._names[fd], bytes(data[:count])))
            return count

        def record_flush(fd):
            real["fsync"](fd)
            if not stat.S_ISDIR(os.fstat(fd).st_mode):
                self.calls.append(("flush", self._names[fd]))
            elif os.path.samestat(os.fstat(fd), os.stat(self._path)):
                self.calls.extend([("flush folder",)] * self._notes_folder)
            else:
                self.calls.append(("flush parent",))

        def record_rename(old, new, **folders):
            real["rename"](old, new, **folders)
            self.calls.append(("rename", old, new))

        def record_unlink(path, **folder):
            real["unlink"](path, **folder)
            self.calls.append(("unlink", path))

        def record_mkdir(path, *mode):
            real["mkdir"](path, *mode)
            self.calls.append(("mkdir",))

        def record_save(writer, *words):
            save(writer, *words)
            self.calls.append(("saved", writer.last.number + 1))

        save, own = _folder.RunWriter.save, (record_open, record_close, record_write, record_flush, record_rename, record_unlink, record_mkdir)
        with contextlib.ExitStack() as stack:
            for name, call in zip(real, own):
                stack.enter_context(mock.patch.object(os, name, call))
            stack.enter_context(mock.patch.object(_folder.RunWriter, "save", record_save))
            yield


class _File:
    def __init__(self):
        self.durable, self.pending = b"", []


def _content_after(file, rng):
    """Return a possible content of a file after the failure.

    It is what was flushed, and of the rest all, nothing, a beginning, or blocks of it.
    """
    style, text = rng.choice(("none", "all", "beginning", "blocks", "zeros")), file.durable
    pending = b"".join(file.pending)
    if style == "all":
        return text + pending
    if style == "beginning":
        return text + pending[: rng.randint(0, len(pending))]
    if style == "blocks":
        return text + b"".join(pending[at : at + 64] if rng.random() < 0.5 else bytes(len(pending[at : at + 64])) for at in range(0, len(pending), 64))
    return text + bytes(len(pending)) if style == "zeros" else text


def crash_state(calls, rng):
    """Return a state that these calls may leave, and how many segments were saved.

    The state is the files by their names, or None without the folder.
    """
    now, names, pending, record_save, is_there, is_made = {}, {}, [], 0, False, False
    for call, *words in calls:
        if call == "create":
            now[words[0]] = _File()
            pending.append((call, words[0], now[words[0]]))
        elif call == "write":
            now[words[0]].pending.append(words[1])
        elif call == "flush":
            file = now[words[0]]
            file.durable, file.pending = file.durable + b"".join(file.pending), []
        elif call in ("rename", "unlink"):
            file = now.pop(words[0])
            if call == "rename":
                now[words[1]] = file
            pending.append((call, *words))
        elif call == "flush folder":
            _apply(names, pending)
            pending = []
        elif call == "saved":
            record_save = words[0]
        elif call == "mkdir":
            is_made = True
        else:
            is_there = is_made
    if not is_there and rng.random() < 0.5:
        return None, record_save
    _apply(names, pending[: rng.choice((0, len(pending), rng.randint(0, len(pending))))])
    return {name: _content_after(file, rng) for name, file in names.items()}, record_save


def _apply(names, changes):
    for call, name, *more in changes:
        if call == "create":
            names[name] = more[0]
        else:
            file = names.pop(name, None)
            if call == "rename" and file is not None:
                names[more[0]] = file
