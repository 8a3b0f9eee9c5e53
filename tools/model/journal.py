"""Histories and their journals: writing, reading, and the check of each answer.

Reading finds every fault in order.
"""

from dataclasses import dataclass, field
from typing import NamedTuple, Union

import jsontext
from jsontext import I64, U32, U64, Json, is_integer
from moves import (
    MAX_INSTRUCTIONS,
    Clash,
    Move,
    instruction_json,
    read_instruction,
    updates_on,
)
from script import MAX_AGENTS, MAX_READS
from values import (
    UNDEF,
    Location,
    State,
    Value,
    WrongShape,
    entries,
    has_key,
    location_json,
    members,
    pairs_json,
    read_all,
    read_location,
    read_state,
    read_value,
    value_json,
    integer,
    write_to,
)

# The version that is written, and those that are read.
VERSION = 2
VERSIONS = (1, 2)
# The version that has no lists.
WITHOUT_LISTS = 1
CAPACITIES = range(1, 2**20 + 1)
CAUSES = ("Two", "Mixed", "Kind", "Both", "Against", "Short", "Large")


class Read(NamedTuple):
    places: list[Location]


class Fire(NamedTuple):
    move: Move
    reads: list[tuple[Location, int]]


class Values(NamedTuple):
    number: int
    values: list[Value]


class Fired(NamedTuple):
    number: int


class Stale(NamedTuple):
    at: Location


class Clashed(NamedTuple):
    at: Location
    cause: str


class Full(NamedTuple):
    """The number of fired moves has reached the capacity."""


Call = Union[Read, Fire]
Reply = Union[Values, Fired, Stale, Clashed, Full]


class Event(NamedTuple):
    agent: int
    call: Call
    reply: Reply


@dataclass
class History:
    init: State
    capacity: int
    agents: int
    events: list[Event] = field(default_factory=list)

    def moves(self) -> int:
        return sum(isinstance(event.reply, Fired) for event in self.events)


class BadJournal(Exception):
    """The journal is refused, for the given fault."""


class Storage:
    """The sequential storage: its answer to each call, and the state after its moves."""

    def __init__(self, init: State, capacity: int) -> None:
        self.state = dict(init)
        self.capacity = capacity
        self.number = 0
        self.writers: dict[Location, int] = {}

    def reply(self, call: Call) -> Reply:
        """Return the answer to the call; a move with the answer Fired is fired."""
        given = self.judge(call)
        if isinstance(given, Fired):
            assert isinstance(call, Fire)
            self.follow(call.move)
        return given

    def judge(self, call: Call) -> Reply:
        """Return the answer to the call here, and fire nothing."""
        if isinstance(call, Read):
            return Values(self.number, [self.state.get(at, UNDEF) for at in call.places])
        stale = [at for at, number in call.reads if self.writers.get(at, 0) > number]
        if stale:
            return Stale(min(stale))
        try:
            updates_on(self.state, call.move)
        except Clash as clash:
            return Clashed(clash.at, clash.cause)
        return Fired(self.number + 1) if self.number < self.capacity else Full()

    def follow(self, move: Move) -> None:
        """Count a move as fired, whatever its answer would be; a clash changes nothing."""
        self.number += 1
        try:
            written = updates_on(self.state, move)
        except Clash:
            return
        for at, value in written.items():
            write_to(self.state, at, value)
            self.writers[at] = self.number


def first_illegal(history: History) -> int | None:
    """Return the first event whose answer differs from the sequential storage.

    It is the number of the event.
    """
    storage = Storage(history.init, history.capacity)
    for number, event in enumerate(history.events):
        given = storage.reply(event.call)
        if type(given) is not type(event.reply) or given != event.reply:
            return number
    return None


def write_journal(history: History) -> bytes:
    header = {
        "agents": history.agents,
        "capacity": history.capacity,
        "events": len(history.events),
        "init": pairs_json(history.init),
        "version": VERSION,
    }
    lines = [header, *map(event_json, history.events)]
    return "".join(jsontext.write(line) + "\n" for line in lines).encode()


def event_json(event: Event) -> Json:
    call: Json
    if isinstance(event.call, Read):
        call = {"read": [location_json(at) for at in event.call.places]}
    else:
        reads: Json = [[location_json(at), number] for at, number in event.call.reads]
        call = {"fire": [instruction_json(it) for it in event.call.move], "reads": reads}
    return {"agent": event.agent, "call": call, "reply": reply_json(event.reply)}


def reply_json(reply: Reply) -> Json:
    if isinstance(reply, Values):
        return {"number": reply.number, "values": [value_json(it) for it in reply.values]}
    if isinstance(reply, Fired):
        return {"fired": reply.number}
    if isinstance(reply, Stale):
        return {"stale": location_json(reply.at)}
    if isinstance(reply, Clashed):
        return {"clash": [location_json(reply.at), reply.cause]}
    return "full"


class Header(NamedTuple):
    """The content of the first line of a journal."""

    version: Json
    init: State
    capacity: int
    agents: int
    events: int


def read_journal(text: bytes) -> History:
    """Read a journal, or raise its first fault."""
    lines = _Lines(text)
    header = read_header(lines.next())
    history = History(header.init, header.capacity, header.agents)
    for number in range(2, header.events + 2):
        history.events.append(read_event(lines.next(), header, number))
    if lines.has_more():
        raise _no_shape(header.events + 2)
    return history


def read_header(value: Json) -> Header:
    """Read the first line of a journal, or raise its fault."""
    version = value.get("version") if isinstance(value, dict) else None
    if (is_integer(version, I64) or is_integer(version, U64)) and version not in VERSIONS:
        raise BadJournal("journal version")
    try:
        return _header(_check_version(value, version))
    except WrongShape as error:
        raise _no_shape(1) from error


def read_event(value: Json, header: Header, number: int) -> Event:
    """Read a line of a journal with this header, by its number, or raise its fault."""
    try:
        return _event(_check_version(value, header.version), header.agents)
    except WrongShape as error:
        raise _no_shape(number) from error


def _check_version(value: Json, version: Json) -> Json:
    """Return the line; a list anywhere in the first version is a wrong shape."""
    if version == WITHOUT_LISTS and _has_list(value):
        raise WrongShape
    return value


def _has_list(value: Json) -> bool:
    if isinstance(value, dict):
        return "list" in value or any(map(_has_list, value.values()))
    return isinstance(value, list) and any(map(_has_list, value))


def _no_shape(number: int) -> BadJournal:
    return BadJournal(f"journal line {number}: shape")


class _Lines:
    """The lines of a journal, one after the other."""

    def __init__(self, text: bytes) -> None:
        *self.ended, self.last = text.split(b"\n")
        self.number = 0

    def has_more(self) -> bool:
        return self.number < len(self.ended) or bool(self.last)

    def next(self) -> Json:
        """Return the value of the next line, or raise its fault.

        The fault is the one that the line has whatever is expected there.
        """
        if not self.has_more():
            raise BadJournal("journal cut")
        has_feed = self.number < len(self.ended)
        line = self.ended[self.number] if has_feed else self.last
        self.number += 1
        try:
            value = jsontext.read(line)
        except jsontext.NotJson as error:
            raise BadJournal(f"journal line {self.number}: not JSON") from error
        if not has_feed:
            raise BadJournal("journal cut")
        return value


def _header(value: Json) -> Header:
    agents, capacity, events, init, version = entries(
        value, "agents", "capacity", "events", "init", "version"
    )
    if not any(is_integer(version, range(it, it + 1)) for it in VERSIONS):
        raise WrongShape
    state, most = read_state(init), range(MAX_AGENTS + 1)
    return Header(version, state, integer(capacity, CAPACITIES), integer(agents, most), integer(events, U32))


def _event(value: Json, agents: int) -> Event:
    agent, call, reply = entries(value, "agent", "call", "reply")
    number = integer(agent, range(agents))
    if has_key(call, "read"):
        places = read_all(call["read"], read_location, MAX_READS)
        at, values = entries(reply, "number", "values")
        read = Values(integer(at, U32), [read_value(it) for it in members(values, len(places))])
        return Event(number, Read(places), read)
    fire, reads = entries(call, "fire", "reads")
    move = read_all(fire, read_instruction, MAX_INSTRUCTIONS)
    return Event(number, Fire(move, read_all(reads, _read_named, MAX_READS)), _read_reply(reply))


def _read_named(value: Json) -> tuple[Location, int]:
    at, number = members(value, 2)
    return read_location(at), integer(number, U32)


def _read_reply(value: Json) -> Reply:
    if value == "full":
        return Full()
    if has_key(value, "fired"):
        return Fired(integer(value["fired"], U32))
    if has_key(value, "stale"):
        return Stale(read_location(value["stale"]))
    if not has_key(value, "clash"):
        raise WrongShape
    at, cause = members(value["clash"], 2)
    if cause not in CAUSES:
        raise WrongShape
    return Clashed(read_location(at), cause)
