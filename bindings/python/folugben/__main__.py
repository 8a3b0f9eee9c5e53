"""Run the commands on runs and journals: folugben COMMAND .. (--help), or python3 -P -m folugben where there is none."""
import argparse
import contextlib
import io
import json
import os
import sys
import time
from collections.abc import Callable
from functools import partial
from pathlib import Path
from typing import BinaryIO, NoReturn, TextIO

from . import Counts, __version__, audit, copy_run, import_run, part, prune_run, replay, trace
from ._errors import BadJournalError, DamagedError, Error
from ._exports import verdict, write_csv, write_itf, write_page, write_perfetto
from ._files import expect_other_output, open_regular, plain, replacing, shown
from ._reading import follow, is_stored_run, save, verify
from ._texts import encode


def _check(journal: bytes, out: TextIO) -> bool:
    is_legal, line = verdict(journal)
    out.write(line + "\n")
    return is_legal


class _Progress:
    """Show on a terminal how much of a file was read, once a second."""

    def __init__(self, file: str) -> None:
        self._size = os.path.getsize(file) if os.path.isfile(file) else 0
        self._file, self._next, self._is_shown = plain(shown(file)), time.monotonic() + 1, False

    def __call__(self, done: int) -> None:
        if time.monotonic() >= self._next:
            self._next, self._is_shown = time.monotonic() + 1, True
            of = f"{100 * done // self._size:3} % of " if self._size else ""
            sys.stderr.write(f"\r{self._file}: {of}{max(done, self._size):,} bytes ")
            sys.stderr.flush()

    def end(self) -> None:
        if self._is_shown:
            sys.stderr.write("\r\033[K")


def _audit(file: str, _: int | None, out: TextIO) -> bool:
    """Check a file of any length, with one line in memory at a time."""
    progress = _Progress(file) if sys.stderr.isatty() else None
    try:
        counts = audit(sys.stdin.buffer if file == "-" else file, progress)
    except BadJournalError as bad:
        line = str(bad)
    else:
        line = f"legal {_numbers(counts)}"
    finally:
        if progress is not None:
            progress.end()
    out.write(line + "\n")
    return line.startswith("legal")


def _numbers(counts: Counts) -> str:
    """Return such counts, and from where on they are, if the first segments of a run were dropped."""
    calls, moves, parts = counts
    since = f" from segment {counts.first_segment} move {counts.moves_before}" if counts.first_segment else ""
    return f"{calls} {moves} {parts}{since}"


def _verify(target: str, _: int | None, out: TextIO) -> bool:
    segments = verify(target)
    first, last = segments[0], segments[-1]
    since = f", from segment {first.number} move {first.first}" if first.number else ""
    out.write(f"{len(segments)} segments, {last.end - first.first} moves, digest {last.digest}{since}\n")
    return True


def _save(target: str, _: int | None, out: TextIO) -> bool:
    out.flush()
    save(target, getattr(out, "buffer"))
    return True


def _follow(target: str, _: int | None, out: TextIO) -> bool:
    try:
        for counts in follow(target):
            out.write(f"legal so far {_numbers(counts)}\n")
            out.flush()
    except KeyboardInterrupt:
        pass
    return True


def _replay(journal: bytes, out: TextIO) -> bool:
    for at, value in replay(journal):
        out.write(f"[{encode(at, 'place').decode()},{encode(value, 'value').decode()}]\n")
    return True


def _trace(journal: bytes, out: TextIO) -> bool:
    for line in trace(journal):
        out.write(json.dumps(line, ensure_ascii=False, separators=(",", ":")) + "\n")
    return True


def _writer(write: Callable[[bytes, TextIO], None]) -> Callable[[bytes, TextIO], bool]:
    def work(journal: bytes, out: TextIO) -> bool:
        write(journal, out)
        return True

    return work


def _part(journal: bytes, out: TextIO) -> bool:
    out.write(journal.decode())
    return True


# What a command does with a run or a file, or with one part of it.
_Work = Callable[[str, int | None, TextIO], bool]


def _on_journal(work: Callable[[bytes, TextIO], bool]) -> _Work:
    """Return the command that does some work on a journal, read completely."""

    def on_file(file: str, number: int | None, out: TextIO) -> bool:
        if number is None and is_stored_run(file):
            raise IsADirectoryError(f"{shown(file)} is a run, of which this command takes one part: --part 0 and so on")
        source: str | BinaryIO = sys.stdin.buffer if file == "-" else file
        if number is not None:
            return work(part(source, number), out)
        if not isinstance(source, str):
            return work(source.read(), out)
        with open_regular(source) as opened:
            return work(opened.read(), out)

    return on_file


COMMANDS: dict[str, tuple[_Work, str]] = {
    "audit": (_audit, "check whether each answer is right, in a run of any number of parts"),
    "verify": (_verify, "check by their digests whether the segments of a run are those that were saved"),
    "save": (_save, "write a run as one file; --output names it"),
    "follow": (_follow, "audit a run while it is written, with a line for each poll that found more; Ctrl-C ends it"),
    "check": (_on_journal(_check), "check whether each answer is the one that a sequential storage gives there"),
    "part": (_on_journal(_part), "write a part of a run, as a journal; --part names it"),
    "replay": (_on_journal(_replay), "write the state after the moves, a location and its value on each line"),
    "trace": (_on_journal(_trace), "write what each call did"),
    "csv": (_on_journal(_writer(write_csv)), "write a table of all changes"),
    "itf": (_on_journal(_writer(write_itf)), "write the run in the Informal Trace Format of Apalache and Quint"),
    "perfetto": (_on_journal(_writer(write_perfetto)), "write the run as Chrome's trace events, for Perfetto"),
    "view": (_on_journal(_writer(write_page)), "write a page that shows the run in a browser; --output names its file"),
}
# Commands that accept only stored runs.
ON_RUNS = ("verify", "save", "follow")


class _Parser(argparse.ArgumentParser):
    def error(self, message: str) -> NoReturn:
        super().error(plain(message))


class _Incomplete(Exception):
    """Something was refused, so that an output lacks it."""


def _words() -> argparse.ArgumentParser:
    parser = _Parser(prog="folugben", description="Audit, read and convert runs and their journals.")
    parser.add_argument("--version", action="version", version=f"folugben {__version__}")
    commands = parser.add_subparsers(dest="command", required=True, metavar="COMMAND")
    for name, (_, text) in COMMANDS.items():
        command = commands.add_parser(name, help=text, description=text[0].upper() + text[1:] + ".")
        what = "a run" if name in ON_RUNS else "a run, or a journal; - is standard input"
        command.add_argument("files", nargs="+", metavar="FILE", help=what)
        if name != "audit" and name not in ON_RUNS:
            only = "take only the part with this number, counted from 0"
            command.add_argument("-p", "--part", type=int, metavar="N", default=0 if name == "part" else None, help=only)
        if name == "itf":
            command.add_argument("--from", type=int, metavar="N", dest="first", default=0, help="the first state, counted from 0")
            command.add_argument("--to", type=int, metavar="N", dest="last", help="the last state")
        command.add_argument("-o", "--output", type=Path, metavar="FILE", help="write this file, once all is done, in place of standard output")
    for name, (_, text, words) in ON_FOLDERS.items():
        command = commands.add_parser(name, help=text, description=text[0].upper() + text[1:] + ".")
        for word in words:
            command.add_argument(word.lower(), metavar=word)
        if name == "prune":
            command.add_argument("--keep", type=int, metavar="N", required=True, help="how many segments stay, at least 1")
    return parser


def _import(arguments: argparse.Namespace) -> None:
    counts, left = import_run(arguments.file, arguments.folder)
    print(f"{counts.moves} moves in {counts.parts} parts")
    if left:
        _warn(f"{arguments.file}: {left:,} bytes of an incomplete last part were left out")


def _prune(arguments: argparse.Namespace) -> None:
    print(f"legal {_numbers(prune_run(arguments.folder, arguments.keep))}")


def _copy(arguments: argparse.Namespace) -> None:
    print(f"legal {_numbers(copy_run(arguments.folder, arguments.to))}")


# Commands that make a folder or change one, with the names of their arguments.
ON_FOLDERS: dict[str, tuple[Callable[[argparse.Namespace], None], str, tuple[str, ...]]] = {
    "import": (_import, "import a run that is one file into a new folder", ("FILE", "FOLDER")),
    "prune": (_prune, "remove the first segments of a run, after an audit of those that stay", ("FOLDER",)),
    "copy": (_copy, "copy the complete segments of a run, also while it is written, and audit them", ("FOLDER", "TO")),
}


def _work_on_folder(arguments: argparse.Namespace) -> int:
    work, _, (word, *_) = ON_FOLDERS[arguments.command]
    try:
        work(arguments)
    except (BadJournalError, DamagedError) as bad:
        _warn(f"{getattr(arguments, word.lower())}: {bad}")
        return 1
    return 0


def _warn(text: str) -> None:
    print(f"folugben: {plain(text)}", file=sys.stderr)


def _work_on(arguments: argparse.Namespace, out: TextIO) -> int:
    work, status, is_complete = COMMANDS[arguments.command][0], 0, True
    if arguments.command == "itf":
        work = _on_journal(_writer(partial(write_itf, first=arguments.first, last=arguments.last)))
    for file in arguments.files:
        if len(arguments.files) > 1 and arguments.command in ("audit", "check", "verify"):
            out.write(f"{plain(shown(file))}: ")
        try:
            status = status if work(file, getattr(arguments, "part", None), out) else 1
        except (BadJournalError, DamagedError, Error, IndexError, ValueError) as refused:
            _warn(f"{shown(file)}: {refused}")
            status, is_complete = 1, False
    out.flush()
    if arguments.output is not None and not is_complete:
        raise _Incomplete
    return status


def _write(arguments: argparse.Namespace) -> int:
    """Write the output, which replaces an earlier file only if nothing was refused."""
    expect_other_output(arguments.output, arguments.files)
    status = 1
    with contextlib.suppress(_Incomplete), replacing(arguments.output) as file:
        out = io.TextIOWrapper(file, encoding="utf-8", newline="", write_through=True)
        try:
            status = _work_on(arguments, out)
        finally:
            out.detach()
    return status


def main(words: list[str] | None = None) -> int:
    """Return the exit status: 0, 1 or 2.

    It is 1 if a run or a journal is illegal, damaged or none, and 2 if a file or an argument is refused.
    """
    arguments = _words().parse_args(words)
    try:
        if arguments.command in ON_FOLDERS:
            return _work_on_folder(arguments)
        if arguments.output is None:
            return _work_on(arguments, sys.stdout)
        return _write(arguments)
    except (OSError, ValueError) as fault:
        _warn(str(fault))
        return 2


if __name__ == "__main__":
    sys.exit(main())
