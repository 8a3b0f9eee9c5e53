"""Export journals to other tools: tables, ITF, Chrome trace events, and the page.

ITF is the Informal Trace Format.
"""
import csv
import html
import pathlib
import re
import subprocess
import sys
from collections.abc import Iterator
from typing import Any, TextIO

from ._errors import BadJournalError, TooLongError
from ._functions import check, trace
from ._library import Code
from ._texts import encode

# The largest number of characters of the states in the Informal Trace Format.
ITF_LIMIT = 1 << 30
# The page that shows a run, in an installed package, and what makes it in a checkout.
PAGE = pathlib.Path(__file__).with_name("run.html")
_HERE = pathlib.Path(__file__).resolve()
JOIN = _HERE.parents[3] / "viewer" / "join" if _HERE.parts[-4:-2] == ("bindings", "python") else None


def _text(value: Any) -> str:
    return encode(value, "value").decode()


def _cell(value: Any) -> str:
    """Return the value as JSON without a semicolon, at which some tables split cells.

    A semicolon occurs only in texts, where JSON can escape it.
    """
    return _text(value).replace(";", "\\u003b")


def write_csv(journal: bytes, out: TextIO) -> None:
    """Write a table with a row for each change of each move.

    A row has the move's number, its agent, the function, its arguments, and the old and the new value as JSON. For a set or a
    bag that stays one, the new value is the change, as in a trace (`added` and `removed`, or `counts`), and the old value is
    left out. The opening state comes first, as move 0 of no agent.
    """
    lines, table = trace(journal), csv.writer(out, lineterminator="\n")
    table.writerow(["move", "agent", "function", "arguments", "old", "new"])
    for at, value in next(lines)["init"]:
        table.writerow([0, "", at[0], _cell(at[1:]), _cell(None), _cell(value)])
    move = 0
    for event in lines:
        if "updates" in event:
            move += 1
            for at, *change in event["updates"]:
                old, new = map(_cell, change) if len(change) == 2 else ("", _cell(change[0]))
                table.writerow([move, event["agent"], at[0], _cell(at[1:]), old, new])


def _itf(value: Any) -> Any:
    """Return the value as in the Informal Trace Format.

    The format has no undef, so undef is a record without fields.
    """
    if value is None:
        return {}
    if isinstance(value, int) and not isinstance(value, bool):
        return {"#bigint": str(value)}
    if not isinstance(value, dict):
        return value
    (kind, members), = value.items()
    if kind == "list":
        return list(map(_itf, members))
    if kind == "set":
        return {"#set": list(map(_itf, members))}
    return {"#map": [[_itf(element), _itf(count)] for element, count in members]}


class _ItfValue:
    """The value of a location in the Informal Trace Format.

    Each member of a set or a bag is held as a text, so that a change costs time in proportion to its size.
    """

    def __init__(self, at: list[Any], value: Any) -> None:
        self._at, self._value = _text({"#tup": list(map(_itf, at[1:]))}), value
        self._members: dict[str, str] = {}
        # Its text, until it changes.
        self._entry = ""
        if isinstance(value, dict) and "list" not in value:
            (_, members), = value.items()
            for it in members:
                self._put(it, 1) if "set" in value else self._put(*it)

    def _put(self, element: Any, count: int) -> None:
        key = _text(element)
        self._members.pop(key, None)
        if count:
            self._members[key] = _text(_itf(element) if "set" in self._value else [_itf(element), _itf(count)])

    def change(self, difference: dict[str, Any]) -> None:
        self._entry = ""
        for element, _, count in difference.get("counts", ()):
            self._put(element, count)
        for count, side in enumerate(("removed", "added")):
            for element in difference.get(side, ()):
                self._put(element, count)

    def entry(self) -> str:
        self._entry = self._entry or f"[{self._at},{self._value_text()}]"
        return self._entry

    def _value_text(self) -> str:
        if not isinstance(self._value, dict) or "list" in self._value:
            return _text(_itf(self._value))
        return f'{{"#{"set" if "set" in self._value else "map"}":[{",".join(self._members.values())}]}}'


def _moments(journal: bytes) -> Iterator[tuple[dict[str, Any], dict[str, dict[str, _ItfValue]]]]:
    """Yield the metadata of each state, and its content by function and location.

    The content is one dict, which each move changes.
    """
    lines = trace(journal)
    contents: dict[str, dict[str, _ItfValue]] = {}

    def put(at: list[Any], value: Any) -> None:
        places = contents.setdefault(at[0], {})
        places.pop(_text(at), None)
        if value is not None:
            places[_text(at)] = _ItfValue(at, value)

    for at, value in next(lines)["init"]:
        put(at, value)
    yield {"index": 0}, contents
    index = 0
    for event in lines:
        if "updates" in event:
            index += 1
            for at, *change in event["updates"]:
                put(at, change[1]) if len(change) == 2 else contents[at[0]][_text(at)].change(change[0])
            yield {"index": index, "agent": event["agent"]}, contents


def write_itf(journal: bytes, out: TextIO, source: str = "", first: int = 0, last: int | None = None) -> None:
    """Write the run in the Informal Trace Format of Apalache and Quint.

    The output has one state for each move, from the first to the last. In a state each function is a map from the tuples of
    its arguments to its values. Each state is complete, as the format requires, so the output grows with the number of moves
    times the size of the state.

    Raises:
        TooLongError: the states have more than 1,073,741,824 characters.
    """
    names = sorted({at[0] for line in trace(journal) for at, *_ in line.get("init", line.get("updates", ()))})
    meta = {"format": "ITF", "format-description": "https://apalache-mc.org/docs/adr/015adr-trace.html", "source": source}
    out.write(f'{{"#meta":{_text(meta)},"vars":{_text(names)},"states":[')
    written = 0
    for state, contents in _moments(journal):
        if state["index"] < first or last is not None and state["index"] > last:
            continue
        entries = (",".join(it.entry() for it in contents.get(name, {}).values()) for name in names)
        members = [f'"#meta":{_text(state)}', *(f'{_text(name)}:{{"#map":[{it}]}}' for name, it in zip(names, entries))]
        text = ",\n" * (written > 0) + "{" + ",".join(members) + "}"
        written += len(text)
        if written > ITF_LIMIT:
            detail = f"the states of moves {first} to {state['index']} have more than {ITF_LIMIT:,} characters"
            raise TooLongError(Code.LONG_LINE, detail=f"{detail}: take fewer by --from and --to")
        out.write(text)
    out.write("]}\n")


def _slices(journal: bytes) -> Iterator[dict[str, Any]]:
    lines = trace(journal)
    header = next(lines)
    for agent in range(header["agents"]):
        yield {"ph": "M", "name": "thread_name", "pid": 1, "tid": agent, "args": {"name": f"agent {agent}"}}
    last: dict[str, tuple[int, int]] = {}
    for event in lines:
        number, agent, reply = event["event"], event["agent"], event["reply"]
        kind = reply if isinstance(reply, str) else next(iter(reply))
        name = {"number": "read", "fired": f"move {reply['fired']}" if kind == "fired" else ""}.get(kind, kind)
        arguments = {key: event[key] for key in ("call", "reply", "right", "updates") if key in event}
        yield {"ph": "X", "name": name, "cat": kind, "pid": 1, "tid": agent, "ts": 10 * number, "dur": 8, "args": arguments}
        if kind == "stale" and _text(reply["stale"]) in last:
            mover, moved = last[_text(reply["stale"])]
            flow = {"name": "stale", "cat": "stale", "id": number, "pid": 1}
            yield {"ph": "s", "tid": mover, "ts": 10 * moved + 4, **flow}
            yield {"ph": "f", "bp": "e", "tid": agent, "ts": 10 * number + 4, **flow}
        for change in event.get("updates", ()):
            last[_text(change[0])] = (agent, number)


def write_perfetto(journal: bytes, out: TextIO) -> None:
    """Write the run as Chrome's trace events, which Perfetto shows.

    An agent is a thread, and a call a slice. An arrow goes from the move that made a fire stale to that fire. A call takes ten
    microseconds, as the journal has no times.
    """
    out.write('{"traceEvents":[\n')
    for i, it in enumerate(_slices(journal)):
        out.write(",\n" * (i > 0) + _text(it))
    out.write("\n]}\n")


def _page() -> str:
    """Return the page without a run."""
    if PAGE.is_file():
        return PAGE.read_text(encoding="utf-8")
    if JOIN is None or not JOIN.is_file():
        raise FileNotFoundError("this package has no page that shows runs")
    made = subprocess.run([sys.executable, str(JOIN), "-"], capture_output=True, check=False)
    if made.returncode:
        raise ValueError(f"the page can't be made: {made.stderr.decode(errors='replace').strip().rpartition(chr(10))[2]}")
    return made.stdout.decode()


def write_page(journal: bytes, out: TextIO, name: str = "run") -> None:
    """Write the page that shows the run in a browser: one file, which loads nothing."""
    page = _page()
    lines = "".join(_text(it) + "\n" for it in trace(journal))
    # In JSON a < is only in texts, where \u003c means the same; so nothing in a trace ends the element that holds it.
    script = f'<script id="trace" type="application/jsonl" data-name="{html.escape(name)}" data-by="libfolugben">\n' + lines.replace("<", "\\u003c")
    place = re.search(r'^<script id="trace"[^>]*>', page, re.M)
    if place is None:
        raise ValueError("the page has no place for a trace")
    out.write(page[: place.start()] + script + page[place.end() :])


def verdict(journal: bytes) -> tuple[bool, str]:
    """Return whether a journal is legal, and the line that reports it."""
    try:
        calls, moves = check(journal)
    except BadJournalError as bad:
        return False, str(bad)
    return True, f"legal {calls} {moves}"
