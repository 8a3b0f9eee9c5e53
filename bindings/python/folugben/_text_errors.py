"""Errors of refused texts and values, with the place of the refusal."""
import json
from collections.abc import Iterable
from typing import Any

from ._errors import expect, explain
from ._library import Code, TextForm

# The library's message about a text, and the message about the values from which the text was made.
_OF_VALUES = {
    "are an array": "are a list or a tuple", "is an array of": "is a tuple or a list of", "an object is": "a dict is",
    'a list is written {"list":[..]}': 'a list is a tuple, or written {"list":[..]}',
}

# A MOVE that contains the instructions, or the declared reads.
INSTRUCTIONS = b'{"fire":%b,"reads":[]}'
READS = b'{"fire":[],"reads":%b}'


def large_number_path(text: bytes) -> str:
    """Return where a text has its first number outside 64 bits, as [0][2]["set"][1].

    The result is empty if there is none.
    """

    def find(value: Any, path: str) -> str:
        if isinstance(value, float) or isinstance(value, int) and not -(2**63) <= value < 2**63:
            return f"{path} is {value}"
        inner = value.items() if isinstance(value, dict) else enumerate(value) if isinstance(value, list) else ()
        return next((where for key, it in inner if (where := find(it, f"{path}[{json.dumps(key)}]"))), "")

    where = find(json.loads(text), "")
    return where.replace('["fire"]', "instructions", 1).replace('["reads"]', "reads", 1)


def is_json(text: bytes) -> bool:
    """Return whether a text is JSON; the library doesn't read it if it nests too deep."""
    try:
        json.loads(text)
    except (ValueError, RecursionError) as error:
        return isinstance(error, RecursionError)
    return True


def expect_read(code: int, form: int, text: bytes) -> None:
    """Raise the error of a call that was passed values as a text of this form.

    Nothing is raised for the code DONE.
    """
    if code == Code.NOT_JSON and is_json(text):
        expect(Code.SHAPE, detail="lists nest at most 8 deep")
    if code in (Code.NOT_JSON, Code.SHAPE):
        detail = explain(form, text)
        for its, of_values in _OF_VALUES.items():
            detail = detail.replace(its, of_values)
        if " is whole, from " in detail and (at := large_number_path(text)):
            detail += f", and {at}"
        expect(code, detail=detail)
    expect(code)


def expect_scans(code: int, scans: Iterable[Any]) -> None:
    """Raise the error of a fire whose move is read.

    For SHAPE, the error names the first of the scans that is none.
    """
    if code == Code.SHAPE:
        for place, scan in enumerate(scans, 1):
            if not is_scan(scan):
                expect(code, detail=f"scan {place}: a scan is a tuple or a list of a function's name and a number, from 0 to 4,294,967,295")
    expect(code)


def is_scan(value: Any) -> bool:
    """Return whether the value of a text is a function's name with a number of moves."""
    if not isinstance(value, list) or len(value) != 2:
        return False
    name, number = value
    return isinstance(name, str) and type(number) is int and 0 <= number < 2**32


def expect_part(code: int, move: bytes, part: bytes) -> None:
    """The same for a text that is a part of a MOVE: INSTRUCTIONS or READS."""
    # If it isn't JSON, the byte is reported, counted from its own beginning.
    expect_read(code, TextForm.MOVE, move % part if code == Code.SHAPE else part)
