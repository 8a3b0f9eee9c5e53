"""The numbers that the compiled part and the library use."""
from enum import IntEnum

from . import _core

# The version of the library that this package was written for.
LIBRARY_VERSION = 2000


class Code(IntEnum):
    """What a call of the library answers."""

    DONE = 0
    STALE = 1
    CLASH = 2
    MEMORY = 3
    FULL = 4
    EMPTY = 5
    CAPACITY = 6
    SMALL = 7
    BUSY = 8
    MANY = 9
    NO_ANSWER = 10
    TAKEN = 11
    NUMBER = 12
    MISSING = 13
    OTHER = 14
    ILLEGAL = 15
    NOT_JSON = 16
    SHAPE = 17
    VERSION = 18
    CUT = 19
    LARGE = 20
    MOVED = 21
    DEEP = 22
    APART = 23
    AGENTS = 24
    AHEAD = 25
    OPERAND = 26
    NO_FORM = 27
    NO_JOURNAL = 28
    NO_PUSH = 29
    NO_AGENT = 30
    NO_PART = 31
    NOT_FULL = 32
    MANY_CALLS = 33
    LONG_LINE = 34
    LONG_MOVE = 35
    NAME = 36
    ORDER = 37
    NOT_NEXT = 38
    OPENING = 39
    PREVIOUS = 40
    DAMAGED = 41
    COUNTS = 42
    LONG_RUN = 43
    ONE_SEGMENT = 44
    NO_INSTRUCTION = 45


class TextForm(IntEnum):
    """The forms of texts that `explain` knows."""

    LOCATIONS, MOVE, STATE, EVENT, SCRIPT = range(5)


# The kinds of values: those above TEXT are passed as texts of JSON. What an instruction does.
UNDEF, BOOL, NUM, TEXT, LIST, SET, BAG = range(7)
PUT, ADD, REMOVE, BAGADD, BAGREMOVE, INC = range(6)
# The calls of `_core.text_call`.
CHECK, REPLAY, TRACE, AGGREGATE, COMPOSE, EXPLAIN, ERROR_TEXT = range(7)


def expect_version() -> None:
    """Check that the library has the version that this package was written for."""
    if _core.version() != LIBRARY_VERSION:
        raise ImportError(f"the library has version {_core.version()}, and this package was written for {LIBRARY_VERSION}")


expect_version()
