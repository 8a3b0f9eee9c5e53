"""JSON texts as serde_json reads and writes them.

This is a separate reader, as Python's `json` accepts what serde_json refuses (lone surrogates, NaN, any depth) and makes
integers of what serde_json treats as floats.
"""

import json
import re
from typing import Union

Json = Union[None, bool, int, float, str, list["Json"], dict[str, "Json"]]

MAX_DEPTH = 127
I64 = range(-(2**63), 2**63)
U64 = range(2**64)
U32 = range(2**32)

SPACE = re.compile(rb"[ \t\n\r]*")
WORD = re.compile(rb"null|true|false")
NUMBER = re.compile(rb"-?(?:0|[1-9][0-9]*+)(\.[0-9]++)?([eE][+-]?[0-9]++)?")
STRING = re.compile(rb'"((?:[^"\\\x00-\x1f]++|\\(?:["\\/bfnrt]|u[0-9a-fA-F]{4}))*+)"')
# Two escapes that make a pair of surrogates are one match, so a surrogate that is matched alone is a lone one.
ESCAPE = re.compile(
    r"\\u([dD][89abAB][0-9a-fA-F]{2})\\u([dD][c-fC-F][0-9a-fA-F]{2})|\\u([0-9a-fA-F]{4})|\\(.)"
)
SHORT = {"b": "\b", "f": "\f", "n": "\n", "r": "\r", "t": "\t"}
WORDS: dict[bytes, Json] = {b"null": None, b"true": True, b"false": False}


class NotJson(Exception):
    """The text is one that serde_json refuses."""


def read(text: bytes) -> Json:
    """Return the one value of the text."""
    reader = _Reader(text)
    value = reader.value(0)
    reader.skip()
    if reader.at != len(text):
        raise NotJson("something follows the value")
    return value


def write(value: Json) -> str:
    """Return the compact text.

    The keys of each object are in the order of their bytes.
    """
    return json.dumps(value, ensure_ascii=False, separators=(",", ":"), sort_keys=True)


def is_integer(value: Json, within: range) -> bool:
    """Return whether the value is an integer of the range.

    `True` is no number, though Python counts with it.
    """
    return type(value) is int and value in within


class _Reader:
    def __init__(self, text: bytes) -> None:
        self.text = text
        self.at = 0

    def skip(self) -> None:
        self.at = SPACE.match(self.text, self.at).end()

    def next_byte(self) -> bytes:
        """Return the first byte that is no space, and stay before it."""
        self.skip()
        return self.text[self.at : self.at + 1]

    def take(self, byte: bytes) -> bool:
        found = self.next_byte() == byte
        self.at += found
        return found

    def match(self, pattern: re.Pattern[bytes]) -> re.Match[bytes]:
        found = pattern.match(self.text, self.at)
        if found is None:
            raise NotJson(f"byte {self.at}")
        self.at = found.end()
        return found

    def value(self, depth: int) -> Json:
        byte = self.next_byte()
        if byte == b'"':
            return self.string()
        if byte == b"[":
            return self.array(depth + 1)
        if byte == b"{":
            return self.object(depth + 1)
        if byte in (b"n", b"t", b"f"):
            return WORDS[self.match(WORD)[0]]
        return _number(self.match(NUMBER))

    def string(self) -> str:
        try:
            text = self.match(STRING)[1].decode("utf-8")
        except UnicodeDecodeError as error:
            raise NotJson("no UTF-8") from error
        return ESCAPE.sub(_unescape, text) if "\\" in text else text

    def enter(self, depth: int) -> None:
        if depth > MAX_DEPTH:
            raise NotJson("nested too deeply")
        self.at += 1

    def more(self, close: bytes) -> bool:
        """Return whether a comma follows an item, and so another item must follow."""
        if self.take(b","):
            return True
        if self.take(close):
            return False
        raise NotJson(f"byte {self.at}: no comma and no end")

    def array(self, depth: int) -> Json:
        self.enter(depth)
        items: list[Json] = []
        if self.take(b"]"):
            return items
        while True:
            items.append(self.value(depth))
            if not self.more(b"]"):
                return items

    def object(self, depth: int) -> Json:
        self.enter(depth)
        entries: dict[str, Json] = {}
        if self.take(b"}"):
            return entries
        while True:
            if self.next_byte() != b'"':
                raise NotJson(f"byte {self.at}: no key")
            key = self.string()
            if not self.take(b":"):
                raise NotJson(f"byte {self.at}: no colon")
            entries[key] = self.value(depth)
            if not self.more(b"}"):
                return entries


def _number(found: re.Match[bytes]) -> Json:
    """Return an integer, or a float.

    It is a float for what is written as one, for -0, and beyond the ranges of i64 and u64.
    """
    text = found[0].decode("ascii")
    # (no number of more digits is in range, and Python refuses to read very long ones)
    if found[1] is None and found[2] is None and text != "-0" and len(text) <= 20:
        integer = int(text)
        if integer in I64 or integer in U64:
            return integer
    real = float(text)
    if real in (float("inf"), float("-inf")):
        raise NotJson("a number beyond every float")
    return real


def _unescape(found: re.Match[str]) -> str:
    if found[4]:
        return SHORT.get(found[4], found[4])
    if found[1]:
        high, low = int(found[1], 16), int(found[2], 16)
        return chr(0x10000 + ((high - 0xD800) << 10) + (low - 0xDC00))
    code = int(found[3], 16)
    if code in range(0xD800, 0xE000):
        raise NotJson("a lone surrogate")
    return chr(code)
