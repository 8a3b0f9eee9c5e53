"""The audit of a run, and the trace of a window of it, from docs/FORMATS.md.

The parts of a run are journals one after the other, each of which opens with the state at the end of the one before it.
"""

from collections.abc import Iterator
from typing import NamedTuple

import jsontext
from journal import BadJournal, Fired, Header, Storage, read_event, read_header
from jsontext import Json
from tracing import event_line
from values import pairs_json

MAX_LINE = 2**30
WINDOW_VERSION = 2


class AuditEnd(Exception):
    """The audit ends with this status and this line."""

    def __init__(self, status: int, line: str) -> None:
        super().__init__(line)
        self.status, self.line = status, line


class Audit:
    """What was read of a run: its counts, and the current part.

    The counts are how many calls, moves and complete parts it has.
    """

    def __init__(self, part: int = 0) -> None:
        """Begin an audit whose first part has this number."""
        self.calls = self.moves = self.parts = 0
        self.current_part = part - 1
        self.header: Header | None = None
        self.storage = Storage({}, 0)
        self.lines = 0

    def is_between(self) -> bool:
        """Return whether the next line is a header.

        It is if no part was begun, or the last one has all its events.
        """
        return self.header is None or self.lines > self.header.events

    def take(self, line: bytes, is_ended: bool = True) -> None:
        """Read a line of the run, without its line feed.

        Only the last one may have none, and no event or header is that.
        """
        number = self.current_part + self.is_between()
        if len(line) > MAX_LINE:
            raise AuditEnd(2, "input too large")
        try:
            self._take(line, is_ended)
        except BadJournal as error:
            raise AuditEnd(2, f"part {number} {error}") from error

    def _take(self, line: bytes, is_ended: bool) -> None:
        number = 1 if self.is_between() else self.lines + 1
        try:
            value = jsontext.read(line)
        except jsontext.NotJson as error:
            raise BadJournal(f"journal line {number}: not JSON") from error
        if not is_ended:
            raise BadJournal("journal cut")
        if self.is_between():
            self._begin(value)
        else:
            self._judge(value)
        if self.is_between():
            self.parts += 1

    def _begin(self, value: Json) -> None:
        header = read_header(value)
        if self.header is not None and header.init != self.storage.state:
            raise AuditEnd(2, f"part {self.current_part + 1} apart")
        self.header, self.lines = header, 1
        self.current_part += 1
        self.storage = Storage(header.init, header.capacity)

    def _judge(self, value: Json) -> None:
        assert self.header is not None
        event = read_event(value, self.header, self.lines + 1)
        right = self.storage.reply(event.call)
        if type(right) is not type(event.reply) or right != event.reply:
            raise AuditEnd(1, f"illegal {self.current_part} {self.lines - 1}")
        self.lines += 1
        self.calls += 1
        self.moves += isinstance(event.reply, Fired)


def lines_of(text: bytes, every: int | None) -> Iterator[str]:
    """Yield the lines that are written while the run is audited.

    Raise the end of the audit if it isn't legal.
    """
    audit = Audit()
    *ended, last = text.split(b"\n")
    for line in ended:
        before = audit.calls
        audit.take(line)
        if every is not None and audit.calls > before and audit.calls % every == 0:
            yield f"so far {audit.calls} {audit.moves} {audit.parts}"
    if last:
        audit.take(last, is_ended=False)
    if audit.header is None or not audit.is_between():
        raise AuditEnd(2, f"part {max(audit.current_part, 0)} journal cut")
    yield f"legal {audit.calls} {audit.moves} {audit.parts}"


def audit(text: bytes, every: int | None) -> tuple[int, str]:
    """Return the status, and the complete output.

    The output is how the audit ends, and its progress after every so many calls.
    """
    output: list[str] = []
    status = 0
    try:
        for line in lines_of(text, every):
            output.append(line)
    except AuditEnd as ended:
        status = ended.status
        output.append(ended.line)
    return status, "".join(f"{it}\n" for it in output)


# ---- windows
class Window(NamedTuple):
    """Some calls of a part: from the first one on, up to the end.

    The end is before the call with the number `to`, or the part's end.
    """

    part: int
    start: int
    to: int | None


class WindowPart:
    """The window's part, of which the header was read and perhaps some events."""

    def __init__(self, window: Window, header: Header) -> None:
        self.window, self.header = window, header
        self.end = header.events if window.to is None else window.to
        if not window.start <= self.end <= header.events:
            raise AuditEnd(2, f"part {window.part} has {header.events} calls")
        self.storage = Storage(header.init, header.capacity)
        self.events = 0
        self.lines: list[str] = []

    def is_over(self) -> bool:
        return self.events == self.end

    def note(self, line: bytes) -> None:
        """Record the next event, if it is one of the window."""
        self.begin()
        event = read_event(jsontext.read(line), self.header, self.events + 2)
        traced = event_line(self.storage, self.events, event)
        if self.events >= self.window.start:
            self.lines.append(jsontext.write(traced))
        self.events += 1

    def begin(self) -> None:
        """Write the header, once the window begins."""
        if self.events == self.window.start and not self.lines:
            header = {
                "agents": self.header.agents,
                "capacity": self.header.capacity,
                "events": self.end - self.window.start,
                "from": self.window.start,
                "init": pairs_json(self.storage.state),
                "moves": self.storage.number,
                "part": self.window.part,
                "trace": WINDOW_VERSION,
            }
            self.lines.append(jsontext.write(header))

    def text(self) -> str:
        self.begin()
        return "".join(f"{it}\n" for it in self.lines)


def text_after_parts(text: bytes, number: int) -> bytes:
    """Return the text behind the first parts of a run, as many as the number.

    Each is a header and as many lines as it counts events, which are not read.
    """
    for part in range(number):
        if not text:
            raise AuditEnd(2, f"the run has {part} parts" if part else "part 0 journal cut")
        line, feed, rest = text.partition(b"\n")
        audit = Audit(part)
        audit.take(line, is_ended=bool(feed))
        assert audit.header is not None
        for _ in range(audit.header.events):
            event, feed, rest = rest.partition(b"\n")
            if len(event) > MAX_LINE:
                raise AuditEnd(2, "input too large")
            if not feed:
                raise AuditEnd(2, f"part {part} journal cut")
        text = rest
    if number and not text:
        raise AuditEnd(2, f"the run has {number} parts")
    return text


def part_lines(text: bytes, window: Window) -> str:
    """Return what is written of the part with which the text begins."""
    audit = Audit(window.part)
    opened: WindowPart | None = None
    *ended, last = text.split(b"\n")
    for line in ended:
        audit.take(line)
        if opened is not None:
            opened.note(line)
        else:
            assert audit.header is not None
            opened = WindowPart(window, audit.header)
        if opened.is_over():
            return opened.text()
    if last:
        audit.take(last, is_ended=False)
    raise AuditEnd(2, f"part {window.part} journal cut")


def trace_lines(text: bytes, window: Window) -> str:
    """Return what is written; raise how it ends otherwise."""
    return part_lines(text_after_parts(text, window.part), window)


def trace_window(text: bytes, window: Window) -> tuple[int, str]:
    """Return the status, and the complete output."""
    try:
        return 0, trace_lines(text, window)
    except AuditEnd as ended:
        return ended.status, f"{ended.line}\n"
