"""A run that grows, for ./view --follow: its trace as far as an audit accepts it, and the page of it on this computer alone."""
import http.server
import json
import os
import stat
import subprocess
import threading
from collections.abc import Iterator
from pathlib import Path
from typing import Any

# The most that the program reads of one journal, and that a storage has of moves.
MOST_JOURNAL, MOST_CAPACITY = 2**24, 2**20
SUFFIX = ".journal"
# How long a connection may be silent, in s, and how many may be open at once.
SECONDS, CONNECTIONS = 10, 32


class Refused(Exception):
    """A segment or a journal isn't shown, for the reason that this says."""


def plain(text: str) -> str:
    """Return a text with escapes for characters that a terminal would obey.

    Characters that change the direction of writing are escaped too, as Python escapes them.
    """
    return "".join(it if it.isprintable() else ascii(it)[1:-1] for it in text)


def last_line(text: bytes) -> str:
    """Return the last line that a program wrote, for a terminal."""
    return plain(text.decode(errors="replace").strip().rpartition("\n")[2][:1000])


def open_regular(path: Path, flags: int = 0, folder: int | None = None) -> int:
    """Open a regular file to read; a pipe isn't waited for, and a terminal isn't taken."""
    handle = os.open(path, os.O_RDONLY | os.O_NONBLOCK | os.O_NOCTTY | os.O_CLOEXEC | flags, dir_fd=folder)
    if not stat.S_ISREG(os.fstat(handle).st_mode):
        os.close(handle)
        raise OSError(f"{path} is no regular file; standard input may be any")
    return handle


def read_journal(path: Path, folder: int | None = None) -> bytes:
    with os.fdopen(open_regular(path, 0 if folder is None else os.O_NOFOLLOW, folder), "rb") as file:
        text = file.read(MOST_JOURNAL + 1)
    if len(text) > MOST_JOURNAL:
        raise Refused(f"it has more than {MOST_JOURNAL:,} bytes, which are the most that the program reads")
    return text


def line_of(value: Any) -> bytes:
    return json.dumps(value, sort_keys=True, separators=(",", ":"), ensure_ascii=False).encode() + b"\n"


def later(line: dict[str, Any], events: int, moves: int) -> dict[str, Any]:
    """Return the line of an event after a number of events and moves."""
    def answer(reply: Any) -> Any:
        return {key: it + moves if key in ("fired", "number") else it for key, it in reply.items()} if isinstance(reply, dict) else reply

    call = line["call"]
    if "reads" in call:
        call = {**call, "reads": [[at, number + moves] for at, number in call["reads"]]}
    return {**line, "event": line["event"] + events, "call": call, **{key: answer(line[key]) for key in ("reply", "right") if key in line}}


class Growing:
    """The trace of what a run has so far, and where that ends.

    Of a folder it has the segments that `asm_driver audit` accepts, so all are one run. Its events and moves count from the first
    segment that is left.
    """

    def __init__(self, run: Path, program: Path, room: Path) -> None:
        self._run, self._program, self._room = run, program, room
        # The last segment that is shown: its copy, alone in a folder.
        self._last: Path | None = None
        (room / "last").mkdir()
        self._lock = threading.Lock()
        # What changes with the text.
        self.version, self._stamp, self._where = 0, (0, 0), ""
        self._begin()

    def _begin(self) -> None:
        self._lines, self._header = list[bytes](), dict[str, Any]()
        self._events = self._moves = 0
        # After how many moves a segment was full, though the run continues.
        self._ends: list[int] = []

    def pieces(self) -> tuple[int, list[bytes]]:
        """Return the version and the text: a line on the run, and its trace.

        Raises:
            Refused: nothing can be shown yet.
        """
        with self._lock:
            was = self._last, self._stamp, self._where
            self._where = ""
            try:
                self._take_folder() if self._run.is_dir() else self._take_file()
            except (Refused, OSError) as fault:
                self._where = plain(str(fault))
            self.version += was != (self._last, self._stamp, self._where)
            if not self._header:
                raise Refused(self._where or f"{plain(str(self._run))} has no segment yet")
            header = line_of({**self._header, "events": self._events})
            return self.version, [line_of({"ends": self._ends, "where": self._where}), header, *self._lines]

    def _take_folder(self) -> None:
        folder = os.open(self._run, os.O_RDONLY | os.O_DIRECTORY | os.O_CLOEXEC)
        try:
            for name in sorted(it for it in os.listdir(folder) if it.endswith(SUFFIX)):
                if self._last is None or name > self._last.name:
                    self._take_segment(folder, name)
        finally:
            os.close(folder)

    def _take_segment(self, folder: int, name: str) -> None:
        copy = self._room / "last" / name
        try:
            copy.write_bytes(read_journal(Path(name), folder))
            # The folder has the segment before it too, so that it is judged as its successor.
            self._asked("audit", copy.parent)
            self._add(self._trace(copy))
        except (Refused, OSError) as fault:
            copy.unlink(missing_ok=True)
            number = name.partition("-")[0]
            segment = f"segment {int(number)}" if number.isdecimal() else name
            raise Refused(f"{segment} isn't shown, and none after it: {fault}") from fault
        if self._last is not None:
            self._last.unlink()
        self._last = copy

    def _take_file(self) -> None:
        found = os.stat(self._run)
        stamp = found.st_mtime_ns, found.st_size
        if stamp != self._stamp:
            copy = self._room / "journal"
            copy.write_bytes(read_journal(self._run))
            lines = self._trace(copy)
            self._begin()
            self._add(lines)
            self._stamp = stamp

    def _trace(self, copy: Path) -> list[dict[str, Any]]:
        return [json.loads(it) for it in self._asked("trace", copy).splitlines()]

    def _asked(self, command: str, copy: Path) -> bytes:
        """Return what the program writes of our own copy of a journal or of segments."""
        ran = subprocess.run([self._program, command, copy], stdin=subprocess.DEVNULL, capture_output=True, check=False)
        if ran.returncode:
            raise Refused(f"asm_driver {command} refuses it: {last_line(ran.stdout) or last_line(ran.stderr)}")
        return ran.stdout

    def _add(self, lines: list[dict[str, Any]]) -> None:
        header, *events = lines
        first = self._header or header
        self._header = {**first, "agents": max(first["agents"], header["agents"]), "capacity": min(MOST_CAPACITY, self._moves + header["capacity"])}
        self._lines += [line_of(later(line, self._events, self._moves)) for line in events]
        self._events += len(events)
        self._ends.append(self._moves + header["capacity"])
        self._moves += sum("updates" in it for it in events)


class Server(http.server.ThreadingHTTPServer):
    """Serves on the loopback address, each connection on a thread of its own, and only some at once."""

    daemon_threads = True

    def __init__(self, handler: type[http.server.BaseHTTPRequestHandler]) -> None:
        super().__init__(("127.0.0.1", 0), handler)
        self._free = threading.BoundedSemaphore(CONNECTIONS)

    def process_request(self, request: Any, client_address: Any) -> None:
        if not self._free.acquire(blocking=False):
            return self.shutdown_request(request)
        super().process_request(request, client_address)

    def process_request_thread(self, request: Any, client_address: Any) -> None:
        try:
            super().process_request_thread(request, client_address)
        finally:
            self._free.release()

    def handle_error(self, request: Any, client_address: Any) -> None:
        """Write nothing on the terminal of a connection that was cut."""


def handler_of(growing: Growing, token: str, page: bytes) -> type[http.server.BaseHTTPRequestHandler]:
    class Handler(http.server.BaseHTTPRequestHandler):
        timeout = SECONDS

        def do_GET(self) -> None:  # noqa: N802
            if self.path == f"/{token}/":
                return self.answer(200, [page], "text/html")
            if self.path != f"/{token}/trace":
                return self.answer(404, [b"not found"])
            try:
                version, pieces = growing.pieces()
            except (Refused, OSError, ValueError) as fault:
                return self.answer(503, [str(fault).encode("utf-8", "replace")])
            tag = f'"{version}"'
            if self.headers.get("If-None-Match") == tag:
                return self.answer(304, [], tag=tag)
            self.answer(200, pieces, tag=tag)

        def answer(self, status: int, pieces: list[bytes], kind: str = "text/plain", tag: str = "") -> None:
            self.send_response(status)
            for name, value in self.headers_of(pieces, kind, tag):
                if value:
                    self.send_header(name, value)
            self.end_headers()
            for piece in pieces:
                self.wfile.write(piece)

        def headers_of(self, pieces: list[bytes], kind: str, tag: str) -> Iterator[tuple[str, str]]:
            yield "Content-Type", f"{kind}; charset=utf-8"
            yield "Content-Length", str(sum(map(len, pieces)))
            yield "ETag", tag
            yield "Cache-Control", "no-store"
            yield "X-Content-Type-Options", "nosniff"
            yield "Referrer-Policy", "no-referrer"
            yield "Cross-Origin-Resource-Policy", "same-origin"

        def log_message(self, *_: object) -> None:
            """Write nothing on the terminal."""

    return Handler
