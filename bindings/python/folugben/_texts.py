"""The texts that calls read and write, as JSON."""
import numbers
from collections.abc import Sequence
from enum import Enum
from typing import Any, NoReturn, TypeAlias

from ._core import decode, encode, to_python
from ._errors import Error, exact_bytes
from ._library import Code

# A location, an instruction, or a pair: of a location and its value or number, or of a name and a number.
Form: TypeAlias = Sequence[Any]

__all__ = ["Form", "decode", "encode", "not_a_value", "to_python", "utf_8"]


def utf_8(text: str) -> bytes:
    """Return the text in UTF-8; it must not contain half of a surrogate pair."""
    return exact_bytes(text, "a text")


def expect_name(text: str, path: str) -> NoReturn:
    """Raise why a text is no value, or no name if a name is expected."""
    exact_bytes(text, path)
    raise Error(Code.SHAPE, detail=f"{path} is {text!r:.60}: a name has 1 to 64 letters, digits and _, and begins with no digit")


def not_a_value(value: object, path: str) -> NoReturn:
    """Raise why something at a path is no value."""
    if isinstance(value, str):
        expect_name(value, path)
    not_integer = "is no whole number" if isinstance(value, numbers.Number) and not hasattr(value, "__index__") else ""
    way = next((way for is_so, way in (
        (isinstance(value, Enum), "pass its .value or its .name"),
        (hasattr(value, "item") and hasattr(value, "dtype"), "pass .item() of it"),
        (isinstance(value, list), "pass a list as a tuple"),
        (bool(not_integer), "pass int(..) of it, or str(..)"),
        (hasattr(value, "__index__"), "pass int(..) of it"),
        (isinstance(value, (bytes, bytearray)), "pass .decode() or .hex() of it"),
    ) if is_so), "")
    detail = f"{path} is {value!r:.60}, which {not_integer or 'is no value'}: " + (way or "values are None, True, False, whole numbers, "
           "texts, tuples of these, and sets and Counters of all that")
    raise Error(Code.SHAPE, detail=detail) if isinstance(value, float) else TypeError(detail)
