#!/usr/bin/env python3
"""A second implementation of the program, for comparison.

It is slow, plain, and written from docs/FORMATS.md.

usage: model.py COMMAND [OPTIONS] < INPUT

It accepts the program's words, reads its standard input, and ends with its status: `run [--capacity N] [--journal] [--terms]`,
`check`, `rewrite`, `trace [--part N] [--from N] [--to N]` and `audit [--every N]`. It plays one agent after the other, and so
refuses, with status 70, a script of several agents whose output may depend on the order of their moves. It has neither the
program's help nor its version.
"""

import re
import sys
from typing import NamedTuple

from audit import Window, audit, trace_window
from journal import CAPACITIES, BadJournal, first_illegal, read_journal, write_journal
from play import SeveralAgents, play, report
from script import BadScript, read_script
from tracing import write_trace

MAX_INPUT = 2**24
EVERY = range(1, 2**32)
NUMBERS = range(2**32)
WINDOW_OPTIONS = ["--part", "--from", "--to"]
DEFAULT_CAPACITY = 4096
REFUSED = 70


class Answer(NamedTuple):
    status: int
    output: bytes


class RunWords(NamedTuple):
    capacity: int
    is_journal: bool
    has_terms: bool


class AuditWords(NamedTuple):
    every: int | None


def answer(words: list[str], text: bytes) -> Answer:
    """Return what the program does with these words and this input.

    Its own name is not among the words.
    """
    request = read_words(words)
    if request is None:
        return line(2, "bad words")
    if isinstance(request, AuditWords):
        status, output = audit(text, request.every)
        return Answer(status, output.encode())
    if isinstance(request, Window):
        status, output = trace_window(text, request)
        return Answer(status, output.encode())
    if len(text) > MAX_INPUT:
        return line(2, "input too large")
    try:
        if isinstance(request, RunWords):
            return run(request, text)
        return READING[request](text)
    except BadScript as error:
        return line(2, f"bad script: {error}")
    except BadJournal as error:
        return line(2, str(error))


def line(status: int, text: str) -> Answer:
    return Answer(status, f"{text}\n".encode())


def run(request: RunWords, text: bytes) -> Answer:
    played = play(read_script(text), request.capacity, request.is_journal)
    return Answer(0, write_journal(played.history) if request.is_journal else report(played, request.has_terms))


def check(text: bytes) -> Answer:
    history = read_journal(text)
    illegal = first_illegal(history)
    if illegal is not None:
        return line(1, f"illegal {illegal}")
    return line(0, f"legal {len(history.events)} {history.moves()}")


def rewrite(text: bytes) -> Answer:
    return Answer(0, write_journal(read_journal(text)))


def trace(text: bytes) -> Answer:
    return Answer(0, write_trace(read_journal(text)))


# The commands that read a journal, by word.
READING = {"check": check, "rewrite": rewrite, "trace": trace}


def read_words(words: list[str]) -> RunWords | AuditWords | Window | str | None:
    """Return what the words ask for, or None if they are refused.

    An option may be given once.
    """
    if len(words) == 1 and words[0] in READING:
        return words[0]
    if words[:1] == ["audit"]:
        return read_audit_words(words[1:])
    if words[:1] == ["trace"]:
        return read_window_words(words[1:])
    if words[:1] != ["run"]:
        return None
    capacity, is_journal, has_terms = None, False, False
    remaining = iter(words[1:])
    for word in remaining:
        name, equals, text = word.partition("=")
        if name == "--capacity" and capacity is None:
            capacity = read_number(text if equals else next(remaining, ""), CAPACITIES)
            if capacity is None:
                return None
        elif word == "--journal" and not is_journal:
            is_journal = True
        elif word == "--terms" and not has_terms:
            has_terms = True
        else:
            return None
    return RunWords(DEFAULT_CAPACITY if capacity is None else capacity, is_journal, has_terms)


def read_audit_words(words: list[str]) -> AuditWords | None:
    if not words:
        return AuditWords(None)
    name, equals, text = words[0].partition("=")
    values = [text, *words[1:]] if equals else words[1:]
    if name != "--every" or len(values) != 1:
        return None
    every = read_number(values[0], EVERY)
    return None if every is None else AuditWords(every)


def read_window_words(words: list[str]) -> Window | None:
    numbers: dict[str, int] = {}
    remaining = iter(words)
    for word in remaining:
        name, equals, text = word.partition("=")
        number = read_number(text if equals else next(remaining, ""), NUMBERS)
        if name not in WINDOW_OPTIONS or name in numbers or number is None:
            return None
        numbers[name] = number
    part, start, to = (numbers.get(it) for it in WINDOW_OPTIONS)
    window = Window(part or 0, start or 0, to)
    return None if to is not None and to < window.start else window


def read_number(text: str, within: range) -> int | None:
    if not re.fullmatch(r"\+?[0-9]{1,4000}", text, re.ASCII):
        return None
    return int(text) if int(text) in within else None


def main() -> int:
    if sys.argv[1:] == ["--help"]:
        print(__doc__)
        return 0
    try:
        # Except for an audit and a window, one byte more than the most is as good as all.
        is_long = sys.argv[1:2] == ["audit"] or sys.argv[1:2] == ["trace"] and sys.argv[2:]
        most = -1 if is_long else MAX_INPUT + 1
        result = answer(sys.argv[1:], sys.stdin.buffer.read(most))
    except SeveralAgents:
        print("model: the output may depend on the order of the agents' moves", file=sys.stderr)
        return REFUSED
    sys.stdout.buffer.write(result.output)
    return result.status


if __name__ == "__main__":
    sys.exit(main())
