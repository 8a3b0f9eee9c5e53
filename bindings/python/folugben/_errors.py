"""Exceptions of calls that weren't answered, or whose move wasn't fired or pushed."""
import json
import operator
from collections.abc import Iterable
from typing import Any, TypeAlias

from . import _core
from ._library import Code, ERROR_TEXT, EXPLAIN, TextForm

CODES = frozenset(Code)
# The codes whose own line says less than what an error says.
_DETAIL_SUFFICES = frozenset({
    Code.NOT_JSON, Code.SHAPE, Code.CAPACITY, Code.AGENTS, Code.AHEAD, Code.OPERAND, Code.NO_FORM, Code.MANY, Code.LONG_MOVE,
    Code.EMPTY,
})

# A text in UTF-8, or as a Python str.
Text: TypeAlias = bytes | bytearray | memoryview | str

# The meaning of an error's numbers, for the codes that have numbers.
NUMBERS: dict[int, str] = {
    Code.BUSY: "the agent had seen {} moves at the start of the call and {} at its end",
    Code.MISSING: "move {}",
    Code.ILLEGAL: "call {}, counted from 0",
    Code.NOT_JSON: "line {}",
    Code.SHAPE: "line {}",
}

# Why the updates of a location clash.
_CAUSES = {
    "Two": "two different values are put",
    "Mixed": "instructions of two of these: sets, bags, numbers",
    "Kind": "add and remove need a set, bag_add and bag_remove a bag, and inc a number",
    "Both": "an element is added to a set and removed from it",
    "Against": "a value is put that the other instructions don't agree with",
    "Short": "more of an element is removed than the bag has",
    "Large": "a count is above 4,294,967,295, or a number is none of 64 bits",
}


def error_text(code: int) -> str:
    """Return the meaning of a code, in one line."""
    code = int.__index__(operator.index(code))
    return _core.text_call(ERROR_TEXT, code if -(2**31) <= code < 2**31 else -1)[1].decode()


class Error(Exception):
    """A call that wasn't answered, with its code, and its numbers if the code has any.

    All errors of the package are of this class. `code` is None of one that no call of the library reports.
    `detail` reports, for a refused text, where and why, as `explain` does; for a refused move, at which location; and for
    refused declared reads and scans, which one is named at a number that the agent hasn't seen.
    """

    _detail_suffices = _DETAIL_SUFFICES
    code: Code | int | None

    def __init__(self, code: int, numbers: Iterable[int] = (), detail: str = "") -> None:
        self.code = Code(code) if code in CODES else code
        self.numbers = tuple(numbers) if code in NUMBERS else ()
        self.detail = detail
        super().__init__(self.code, self.numbers, self.detail)

    def __str__(self) -> str:
        code = -1 if self.code is None else self.code
        text = error_text(code)
        if self.detail:
            text = self.detail if code in self._detail_suffices else f"{text}: {self.detail}"
        where = NUMBERS[code].format(*self.numbers) if self.numbers else ""
        return text if text.endswith(where) else f"{text} ({where})"


class PackageError(Error):
    """An error that no call of the library reports: it has no code."""

    code = None
    numbers = ()
    detail = ""

    def __init__(self, *words: object) -> None:
        Exception.__init__(self, *words)

    def __str__(self) -> str:
        return Exception.__str__(self)


class ConflictError(Error):
    """Other agents were faster: begin what was attempted again, as `Agent.play` does.

    A retry loop written by hand catches this one. A clash of a push, or of an agent's fire, is not a `ConflictError`.
    """


class StaleError(ConflictError):
    """A named location was written since it was read; `at` is the smallest one."""

    at: tuple[Any, ...]
    cause = None


class ClashError(Error):
    """The updates of the move clash; `at` is the location and `cause` the cause."""

    at: tuple[Any, ...]
    cause: str
    # The present value, if it is of another kind.
    there: str | None = None

    def __str__(self) -> str:
        there = "" if self.there is None else f", and there is {self.there}"
        return f"{super().__str__()}: {_CAUSES.get(getattr(self, 'cause', ''), '')}{there}"


class CommitClashError(ClashError, ConflictError):
    """The commit of a step clashes: another agent wrote there since the step began."""


class LargeError(Error):
    """A number is too large.

    Either an amount or a sum of composed updates is too large, at the location `at`, or a journal has too many calls.
    """

    at: tuple[Any, ...] | None = None


class FullError(Error):
    """The storage is full: the number of fired moves has reached the capacity."""


class BusyError(ConflictError):
    """64 attempts to append were lost.

    `numbers` are how many moves had been seen at the start and at the end.
    """


class ManyError(Error):
    """More than 256 locations are read, tracked, scanned by name or named in one call.

    Or a composed move has more than 4,096 instructions.
    """


class DeepError(Error):
    """64 moves are pushed already."""


class MovedError(Error):
    """The agent has moved past the number of the step: begin another step."""


class PastError(ConflictError):
    """The part of the step or of a declared read has ended: begin again.

    It is the part of the run in which the step was begun, or a location was read that a fire names.
    """


class BrokenError(PackageError, RuntimeError):
    """A run has ended, as its part with the number `part` couldn't be written.

    What comes before that part in its file is complete. The cause is `MissingError` if an agent was abandoned that had fired,
    and an `OSError` if a write failed.
    """

    def __init__(self, part: int, cause: BaseException) -> None:
        super().__init__(part, cause)
        self.part, self.__cause__ = part, cause

    def __str__(self) -> str:
        reason = str(self.__cause__) or type(self.__cause__).__name__
        return f"the run has ended, as its part {self.part} couldn't be written: {reason}"


class DamagedError(PackageError, RuntimeError):
    """What is stored of a run isn't what the run has written.

    `segment` is the number of the first segment concerned.
    """

    def __init__(self, segment: int, detail: str) -> None:
        super().__init__(segment, detail)
        self.segment, self.detail = segment, detail

    def __str__(self) -> str:
        return f"segment {self.segment}: {self.detail}"


class MismatchError(PackageError, ValueError):
    """A shared run has another opening state, or tables of another version.

    The opening state is compared with the given one.
    """


class UnknownError(PackageError, RuntimeError):
    """It is unknown whether a move of a shared run was fired.

    The process was away while others saved several segments.
    """

    def __str__(self) -> str:
        return "whether the move was fired isn't known, as this process was away while others saved several segments"


class TooLongError(Error):
    """A line of the journal would be longer than an audit reads; nothing was done.

    An audit reads lines of 1,073,741,824 bytes.
    """


class OverError(Error):
    """The step is over: it was fired, or freed as at the end of its `with`."""

    def __str__(self) -> str:
        return "the step is over: it was fired, or freed as at the end of its `with`"


class MissingError(Error):
    """A move has no receipt among the agents that were returned to the storage.

    `numbers` has its number, and `detail` names the agents that weren't returned.
    """


class BadJournalError(Error):
    """The journal is illegal, or is none.

    `numbers` has the number of the call or of the line, if there is one. An audit also reports the number of the part, counted
    from 0.
    """

    # Its message is of a line of JSON.
    _detail_suffices = _DETAIL_SUFFICES - {Code.SHAPE}
    part: int | None = None

    @property
    def call(self) -> int | None:
        """The first call with a wrong answer, from 0 in its part, if it is illegal."""
        return self.numbers[0] if self.code == Code.ILLEGAL else None

    @property
    def line(self) -> int | None:
        """The faulty line, counted from 1 in its part, if the fault is in one line."""
        return self.numbers[0] if self.code in (Code.NOT_JSON, Code.SHAPE) else None

    def __str__(self) -> str:
        return super().__str__() if self.part is None else f"part {self.part}: {super().__str__()}"


# Codes that have an exception of their own.
KINDS: dict[int, type[Error]] = {
    Code.STALE: StaleError, Code.CLASH: ClashError, Code.FULL: FullError, Code.BUSY: BusyError, Code.MANY: ManyError,
    Code.LONG_LINE: TooLongError, Code.LONG_MOVE: ManyError, Code.MISSING: MissingError, Code.LARGE: LargeError, Code.MOVED: MovedError, Code.DEEP: DeepError,
}


def expect(code: int, kind: type[Error] | None = None, numbers: Iterable[int] = (), detail: str = "") -> None:
    """Raise the error of a code, unless it is DONE.

    The exception is of the given kind, or else of the kind of the code.
    """
    if code == Code.MEMORY:
        raise MemoryError
    if code != Code.DONE:
        raised = KINDS.get(code, Error) if kind is None else kind
        raise raised(code, numbers, detail)


def refusal(code: int, text: bytes, clash: type[ClashError] = ClashError) -> StaleError | ClashError | LargeError:
    """Return the exception of a code whose text is a location, for a clash with cause."""
    ((kind, answer),) = _core.to_python(text).items()
    at, *cause = answer if kind == "clash" else (answer,)
    detail = ", ".join([_core.encode(at, "place").decode(), *cause])
    raised: StaleError | ClashError | LargeError
    if kind == "clash":
        raised = clash(code, detail=detail)
        raised.cause = cause[0]
    else:
        raised = StaleError(code, detail=detail) if kind == "stale" else LargeError(code, detail=detail)
    raised.at = at
    return raised


def as_conflict(error: Error) -> Error:
    """Return the error of a commit that was answered as a fire."""
    if type(error) is not ClashError:
        return error
    clash = CommitClashError(Code.CLASH, detail=error.detail)
    clash.at, clash.cause = error.at, error.cause
    return clash


def ahead(reads: Iterable[Any], seen: int, scans: Iterable[Any] = ()) -> Error:
    """Return the exception of declared reads and scans with a number that is too high.

    One of them has a number above that of the moves that the agent has seen.
    """
    for kind, those in ("read", reads), ("scan", scans):
        for place, (at, number) in enumerate(those, 1):
            if number > seen:
                detail = f"{kind} {place}: {json.dumps(at)} is named at {number}, and the agent has seen {seen}"
                return Error(Code.AHEAD, detail=detail)
    return Error(Code.AHEAD)


def exact_bytes(text: Text, name: str) -> bytes:
    """Return the bytes of a text, ignoring a subclass's own length and encoding."""
    if isinstance(text, str):
        try:
            return str.encode(text)
        except UnicodeEncodeError as error:
            raise Error(Code.SHAPE, detail=f"{name} has {text[error.start]!r} at {error.start}, which isn't Unicode") from None
    if isinstance(text, (bytes, bytearray, memoryview)):
        return b"".join((text,))
    raise TypeError(f"{name} is bytes or a str, and not {type(text).__name__!r}")


def explain(form: int, text: Text) -> str:
    """Return where and why a text isn't of a form; empty for a text that is.

    The form is LOCATIONS, MOVE, STATE, EVENT or SCRIPT.
    """
    form, text = int.__index__(operator.index(form)), exact_bytes(text, "a text")
    if form not in frozenset(TextForm):
        raise Error(Code.NO_FORM, detail=f"a form is one of TextForm, 0 to {len(TextForm) - 1}, and not {form}")
    code, detail, *_ = _core.text_call(EXPLAIN, form, text)
    expect(code)
    return detail.decode()
