"""Random spellings of JSON values, and random changes of them, for `fuzz.py`.

Changes apply to the values and to their texts.
"""

import json
from copy import deepcopy
from dataclasses import dataclass
from random import Random
from typing import Any

from jsontext import MAX_DEPTH, NotJson, read
from values import MAX_ITEMS, MAX_LIST_DEPTH


@dataclass(frozen=True)
class Raw:
    """A text that is used unchanged in the place of a value."""

    text: str


RAWS = [
    *["-0", "0", "-1", "1.0", "1e0", "1E2", "0.5e-3"],
    *["01", "1.", ".5", "-", "+1", "0x1", "1e", "--1", "NaN", "Infinity"],
    *["9223372036854775807", "9223372036854775808", "-9223372036854775808", "-9223372036854775809"],
    *["18446744073709551615", "18446744073709551616", "4294967295", "4294967296", "1048576", "1048577"],
    *["1e400", "-1e400", "0e999999999999", "1e-999999999999", "1e999999999999", "1" + 400 * "0", "1" + 30 * "0"],
    *['"\\ud800"', '"\\udc00"', '"\\ud83d\\ude00"', '"\\ud83d\\ud83d\\ude00"', '"\\ud83d\\u0041"', '"\\ud83dx"'],
    *['"\\u00e9"', '"\\u0000"', '"\\x41"', '"\\u12"', '"\t"', '"\x7f"', '"', "'a'", '"a', "nul", "True", ""],
    *["[1,]", "[,1]", "[1 2]", '{"a":1,}', '{"a"}', "{a:1}", '{"a":1 "b":2}', "[", "]", "{", "}", "{}", "[]", "// x"],
    *["true", "false", "null", '"full"', '{"set":[]}', '{"bag":[]}'],
    *['{"set":[1,1]}', '{"bag":[[1,0]]}', '{"bag":[[1]]}'],
    *['{"set":[],"bag":[]}', '{"set":[1],"set":[2]}', '{"set":7,"set":[2]}', '{"val":["x"]}'],
    *['{"list":[]}', '{"list":[1,0]}', '{"list":[1,1]}', '{"list":[{"list":[]},null]}', '["x",{"list":[]}]'],
    *['{"list":7}', '{"list":{}}', '{"list":[[1]]}', '{"list":[1.0]}', '{"list":[{"val":["x"]}]}', '{"list":[{"set":[]}]}'],
    *['{"list":[],"set":[]}', '{"list":[],"x":1}', '{"list":[1],"list":[2]}', '{"list":7,"list":[2]}', '{"List":[]}'],
    *['{"set":[{"list":[1]},{"list":[1]}]}', '{"sum":[{"list":[]},1]}', '["put",["x"],{"list":[]}]'],
    *[(MAX_LIST_DEPTH + by) * '{"list":[' + (MAX_LIST_DEPTH + by) * "]}" for by in (-1, 0, 1)],
    *['{"list":[' + ",".join((MAX_ITEMS + by) * "0") + "]}" for by in (0, 1)],
    *['{"sum":[1,2]}', '{"sum":[1]}', '{"sum":[1,2,3]}', '["x"]', '["x",1.0]', '["1x"]', '["é"]', '["x\\n"]', "[[]]"],
    *[(MAX_DEPTH + by) * "[" + (MAX_DEPTH + by) * "]" for by in (-9, -4, -3, -2, -1, 0, 1)],
]


def _is_json(text: str) -> bool:
    try:
        read(text.encode())
    except NotJson:
        return False
    return True


GOOD_RAWS = [it for it in RAWS if _is_json(it)]
HEADER_RAWS = [
    *["0", "1", "2", "3", "-1", "1.0", "-0", "true", '"1"', "null", "256", "257", "1048576", "1048577"],
    *["4294967295", "4294967296", "9223372036854775808", "18446744073709551615", "18446744073709551616"],
]
KEYS = [
    *["init", "agents", "set", "bag", "list", "val", "sum", "agent", "call", "reply", "read", "fire", "reads"],
    *["version", "capacity", "events", "number", "values", "fired", "stale", "clash", "x", ""],
]
WORDS = [
    *["put", "add", "remove", "bagadd", "bagremove", "inc", "Put", "full", "Full"],
    *["Two", "Mixed", "Kind", "Both", "Against", "Short", "Large", "Three", "x", "_", "9"],
]
BYTES = [
    *[b"", b" ", b"\n", b"\r\n", b"\x0b", b"\x0c", b"\xc2\xa0", b"\x00", b",", b"\xef\xbb\xbf"],
    *[b"\xff", b"\xc3", b"\xed\xa0\x80", b"\xf0\x9f\x98\x80"],
]


def raw(random: Random) -> Raw:
    """Return a text that mostly is JSON, since one that isn't hides all other faults."""
    return Raw(random.choice(RAWS if random.random() < 0.1 else GOOD_RAWS))


def spell(value: Any, random: Random, is_plain: bool) -> str:
    """Return a text of the value.

    It is the compact one, or one with spaces, escapes, and keys in any order or repeated.
    """
    if isinstance(value, Raw):
        return value.text
    space = "" if is_plain else random.choice(["", "", "", " ", "\t", " \r "])
    if isinstance(value, list):
        inner = f",{space}".join(spell(it, random, is_plain) for it in value)
        return f"[{space}{inner}{space}]"
    if isinstance(value, dict):
        parts = [
            f"{spell(key, random, is_plain)}{space}:{spell(it, random, is_plain)}"
            for key, it in value.items()
        ]
        if not is_plain:
            random.shuffle(parts)
        if parts and not is_plain and random.random() < 0.1:
            key = random.choice(list(value))
            parts.insert(0, f"{json.dumps(key)}:{raw(random).text}")
        return "{" + f"{space},".join(parts) + f"{space}}}"
    is_escaped = not is_plain and random.random() < 0.5
    return json.dumps(value, ensure_ascii=is_escaped)


def changed(value: Any, random: Random) -> Any:
    """Return the value with one to three changes."""
    value = [deepcopy(value)]
    for _ in range(random.choice([1, 1, 1, 2, 3])):
        _change_once(value, random)
    return value[0]


def _change_once(root: list[Any], random: Random) -> None:
    holder: Any = root
    # Goes down to any depth, as a value inside a script shows more than one at its top.
    while True:
        key = random.randrange(len(holder)) if isinstance(holder, list) else random.choice(list(holder))
        inner = holder[key]
        if not isinstance(inner, (list, dict)) or not inner or random.random() < 0.12:
            break
        holder = inner
    _change_at(holder, key, random, is_top=holder is root)


def _change_at(holder: Any, key: Any, random: Random, is_top: bool) -> None:
    inner = holder[key]
    kind = random.randrange(7)
    if kind == 0 and type(inner) is int:
        holder[key] = inner + random.choice([-1, 1, 2**32, -(2**33)])
    elif kind == 1 and isinstance(inner, str):
        word = random.choice([*WORDS, *KEYS])
        holder[key] = random.choice([word, inner + "a", inner[:-1], 64 * "n", 65 * "n", "a" + 63 * "é"])
    elif kind == 2 and not is_top:
        del holder[key]
    elif kind == 3 and isinstance(holder, dict):
        holder[random.choice(KEYS)] = holder.pop(key)
    elif kind == 4 and not is_top:
        other = random.choice(list(holder.values())) if isinstance(holder, dict) else random.choice(holder)
        _add(holder, deepcopy(other), random)
    elif kind == 5 and not is_top:
        _add(holder, raw(random), random)
    else:
        holder[key] = raw(random)


def _add(holder: Any, value: Any, random: Random) -> None:
    if isinstance(holder, dict):
        holder[random.choice(KEYS)] = value
    else:
        holder.insert(random.randint(0, len(holder)), value)


def cut(text: bytes, random: Random) -> bytes:
    """Return the text with its end cut off, or some bytes removed, added or replaced."""
    if random.random() < 0.3:
        return text[: random.randint(0, len(text))]
    for _ in range(random.choice([1, 1, 2, 4])):
        at = random.randint(0, len(text))
        until = min(len(text), at + random.choice([0, 0, 1, 1, 1, 2, 9]))
        put = random.choice([*BYTES, text[at:until] * 2, bytes([random.randrange(256)])])
        text = text[:at] + put + text[until:]
    return text


def change_journal(text: bytes, random: Random) -> bytes:
    """Return a journal with a change in a line, in their order, or in its bytes."""
    kind = random.randrange(8)
    lines = text.split(b"\n")
    at = random.randrange(len(lines))
    if kind == 0:
        return cut(text, random)
    if kind == 1:
        del lines[at]
    elif kind == 2:
        lines.insert(random.randint(0, len(lines)), lines[at])
    elif kind == 3:
        lines.insert(at, random.choice([b"", b" ", b"{}", b"null", b"[", b"\xff"]))
    elif kind == 4:
        other = random.randrange(len(lines))
        lines[at], lines[other] = lines[other], lines[at]
    else:
        lines[at] = _change_line(lines[at], random, is_header=at == 0)
    return b"\n".join(lines)


def _change_line(line: bytes, random: Random, is_header: bool) -> bytes:
    try:
        value: Any = read(line)
    except NotJson:
        return line
    if is_header and isinstance(value, dict) and random.random() < 0.7:
        key = random.choice(["agents", "capacity", "events", "version", "version"])
        value[key] = Raw(random.choice(HEADER_RAWS))
    elif random.random() < 0.9:
        value = changed(value, random)
    return spell(value, random, random.random() < 0.7).encode()
