"""Functions on journals and on moves, without a storage."""
from collections.abc import Iterable, Iterator, Sequence
from typing import Any

from . import _core
from ._errors import BadJournalError, Text, exact_bytes, expect, explain, refusal
from ._library import AGGREGATE, CHECK, COMPOSE, REPLAY, TRACE, Code, TextForm
from ._text_errors import INSTRUCTIONS, expect_part, expect_read
from ._texts import Form, decode, encode, to_python


def version() -> int:
    """Return the version of the library.

    It is a million for each major one, a thousand for each minor one.
    """
    return _core.version()


def _journal_answer(call: int, journal: Text) -> tuple[bytes, int, int]:
    """Return the answer of a call on a journal: a text, and two numbers."""
    text = exact_bytes(journal, "a journal")
    code, answer, number, moves = _core.text_call(call, 0, text)
    detail = ""
    if code in (Code.NOT_JSON, Code.SHAPE) and number > 1:
        detail = explain(TextForm.EVENT, text.split(b"\n", number)[number - 1])
    expect(code, BadJournalError, (number,), detail)
    return answer, number, moves


def check(journal: Text) -> tuple[int, int]:
    """Return the numbers of calls and of moves of a legal journal.

    Raises:
        BadJournalError: the journal isn't legal, or is none.
    """
    return _journal_answer(CHECK, journal)[1:]


def replay(journal: Text) -> list[Any]:
    """Return the state after the moves of a journal, as a list of pairs."""
    pairs: list[Any] = to_python(_journal_answer(REPLAY, journal)[0])
    return pairs


def trace(journal: Text) -> Iterator[dict[str, Any]]:
    """Return what each call of a journal did, whether it is legal or not.

    The result is the objects of its trace as JSON, the header first. An event has `right` if a sequential storage returns
    another answer, and `updates` if its move was fired (docs/FORMATS.md).

    Raises:
        BadJournalError: it is no journal; raised before the first object.
    """
    return map(decode, _journal_answer(TRACE, journal)[0].split(b"\n")[:-1])


def aggregate(state: Iterable[Form], instructions: Sequence[Form]) -> list[Any]:
    """Return the updates of a move on a state: written locations and their new values.

    The result is a list of pairs, ascending. The value None leaves a location empty. The state, a list of pairs, needs only the
    locations of partial updates.

    Raises:
        ClashError: the updates clash; the error has the smallest location that does.
    """
    old, move = encode(list(state), "state"), encode(instructions, "instructions")
    code, answer, *_ = _core.text_call(AGGREGATE, 0, old, move)
    # The code is that of the state if the fault is there.
    if code in (Code.NOT_JSON, Code.SHAPE) and explain(TextForm.STATE, old):
        expect_read(code, TextForm.STATE, old)
    return _move_answer(code, answer, move)


def compose(first: Sequence[Form], second: Sequence[Form]) -> list[Any]:
    """Return one move that does what the first and then the second do.

    It does so wherever the first fires.

    Raises:
        ClashError, LargeError: on no state do both fire: updates clash, or an amount or a sum of increments is too large.
        ManyError: it would have more than 4,096 instructions.
    """
    one, two = encode(first, "first"), encode(second, "second")
    code, answer, *_ = _core.text_call(COMPOSE, 0, one, two)
    if code in (Code.NOT_JSON, Code.SHAPE) and explain(TextForm.MOVE, INSTRUCTIONS % one):
        expect_part(code, INSTRUCTIONS, one)
    return _move_answer(code, answer, two)


def _move_answer(code: int, text: bytes, move: bytes) -> list[Any]:
    """Return the answer of a call on a move, or raise the error of its code."""
    expect(code, detail="the one move would have more than 4,096 instructions") if code == Code.LONG_MOVE else None
    if code in (Code.CLASH, Code.LARGE):
        raise refusal(code, text)
    expect_part(code, INSTRUCTIONS, move)
    answer: list[Any] = to_python(text)
    return answer
