"""Runs in one file, and their import into a folder."""
import errno
import io
import json
import os
import pathlib
import secrets
import shutil
from collections.abc import Iterator
from typing import BinaryIO

from ._auditor import Auditor, Counts
from ._core import Storage
from ._errors import BadJournalError
from ._files import open_regular
from ._folder import CHUNK, RunWriter, sync_folder
from ._library import Code
from ._reading import HEADER


def import_run(file: str | os.PathLike[str], folder: str | os.PathLike[str]) -> tuple[Counts, int]:
    """Import a run that is one file into a new folder.

    Return the counts of its complete parts, and how many bytes of an incomplete last part were left out. The file isn't
    changed. The import creates the complete folder or nothing.

    Raises:
        BadJournalError: a part isn't legal, or none is complete.
        FileExistsError: there is something at the folder's path.
    """
    path = pathlib.Path(os.path.realpath(folder))
    if path.exists():
        raise FileExistsError(errno.EEXIST, "there is something already", str(path))
    temporary = path.with_name(f".{path.name}.{secrets.token_hex(4)}")
    try:
        with io.BufferedReader(open_regular(file), CHUNK) as source:
            result = _import_parts(source, temporary)
        os.rename(temporary, path)
        sync_folder(path.parent)
    finally:
        shutil.rmtree(temporary, ignore_errors=True)
    return result


def _import_parts(source: BinaryIO, temporary: pathlib.Path) -> tuple[Counts, int]:
    writer, counts, complete = None, Counts(0, 0, 0), 0
    try:
        for text, now in _parts(source):
            moves, events = now.moves - counts.moves, now.calls - counts.calls
            if writer is None:
                writer = RunWriter.create(temporary, memoryview(_opening(text)))
            # What opens the run is there by now.
            if events > 0 or counts.parts > 0:
                writer.save(memoryview(text), moves, events)
            counts, complete = now, complete + len(text)
    except BadJournalError as bad:
        if not complete or bad.code not in (Code.CUT, Code.NOT_JSON, Code.SHAPE) or _has_header(source, complete + 1):
            raise
    finally:
        if writer is not None:
            writer.close()
    return counts, os.fstat(source.fileno()).st_size - complete


def _parts(source: BinaryIO) -> Iterator[tuple[bytes, Counts]]:
    """Yield each complete part with the counts up to its end."""
    with Auditor() as auditor:
        lines: list[bytes] = []
        parts = 0
        while line := source.readline(CHUNK):
            lines.append(line)
            counts = auditor.feed(line)
            if counts.parts > parts:
                yield b"".join(lines), counts
                lines, parts = [], counts.parts
        auditor.end()


def _opening(text: bytes) -> bytes:
    """Return the journal without a call that opens as this one does."""
    # It may have spaces, which the library's own texts haven't.
    header = json.loads(text.split(b"\n", 1)[0])
    with Storage(header["init"], header["capacity"]) as storage:
        return storage.close_journal()


def _has_header(source: BinaryIO, start: int) -> bool:
    """Return whether a line after this place begins as the header of a part does."""
    source.seek(start)
    source.readline()
    return any(line.startswith(HEADER) for line in source)
