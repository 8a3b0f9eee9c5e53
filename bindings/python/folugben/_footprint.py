"""What the calls of an agent read and write.

A search derives from it which calls depend on each other.
"""
import hashlib
from collections.abc import Iterable, Iterator
from contextlib import contextmanager
from typing import Any

from ._errors import ClashError, Error, FullError
from ._texts import encode
from ._turns import ADDITIONS, WRITES, Player, TurnProxy, Turns

# The calls that see what other agents did, or write. All others depend only on what their agent has seen.
_COMMITS = frozenset({"commit", "try_commit", "fire", "try_fire"})
_POLLS = _COMMITS | {"step", "read", "follow", "stands", "learn"}


class Footprint:
    """The locations that an event reads and writes, and the functions that it scans.

    All are texts. The event may also read everything.
    """

    def __init__(self) -> None:
        self.reads, self.scans = set[str](), set[str]()
        self.writes, self.written_names = set[str](), set[str]()
        self.reads_all = False

    def read(self, places: Iterable[Any]) -> None:
        self.reads.update(map(text_of, places))

    def write(self, places: Iterable[Any]) -> None:
        for place in places:
            self.writes.add(text_of(place))
            self.written_names.add(name_of(place))

    def meets(self, other: "Footprint") -> bool:
        """Return whether the order matters: one writes what the other reads or writes."""
        return self._disturbs(other) or other._disturbs(self) or not self.writes.isdisjoint(other.writes)

    def _disturbs(self, other: "Footprint") -> bool:
        is_read = not self.writes.isdisjoint(other.reads) or not self.written_names.isdisjoint(other.scans)
        return is_read or other.reads_all and bool(self.writes)

    def union(self, other: "Footprint") -> "Footprint":
        """Return what either of the two reads and writes."""
        both = Footprint()
        for name, own in vars(self).items():
            setattr(both, name, own | vars(other)[name])
        return both

    def __eq__(self, other: object) -> bool:
        return isinstance(other, Footprint) and vars(self) == vars(other)


def name_of(place: Any) -> str:
    """Return the name of a location's function."""
    name: str = place if isinstance(place, str) else getattr(place, "place", place)[0]
    return name


def text_of(place: Any) -> str:
    """Return the text of a location, prepared or not."""
    return encode(getattr(place, "place", place), "place").decode()


def _without_number(name: str, is_step: bool, answer: Any) -> Any:
    """Return the answer of a call, except numbers of moves."""
    if name in ("read", "peek", "state") or name == "scan" and not is_step:
        return answer[1]
    if name in _COMMITS:
        return answer > 0
    return answer if name in ("get", "see", "has", "count_of", "size", "scan", "any", "count", "stands", "__getitem__") else None


class RecordingPlayer(Player):
    """Takes a turn only at each poll and each fire, and records events.

    An event is what is done from one such turn to the next one.
    """

    def __init__(self, turns: Turns, number: int) -> None:
        super().__init__(turns, number)
        # The current event, its number of calls, and whether it has fired; before the first one it is the beginning.
        self.now, self.calls, self.is_move = Footprint(), 1, False
        # A digest of all answers to the agent before this event, and of those by now: the program's next action depends on it.
        self.key = self._digest = b""
        # Whether everything recorded for an event was recorded within it.
        self.is_exact = True
        # The step that is open, and the functions that it scanned.
        self._step: TurnProxy | None = None
        self._scanned: list[str] = []

    def call(self, it: TurnProxy, name: str, words: tuple[Any, ...], named: dict[str, Any]) -> Any:
        is_step = type(it) is TurnProxy
        if name not in _POLLS:
            self._turns.count()
            self.calls += 1
            if is_step and it is not self._step:
                self._depend()
        else:
            # Whether a step continues after another poll of its agent depends on everything that others do.
            is_mixed = self._step is not None and it is not self._step
            self.now.reads_all |= is_mixed
            self._turns.wait(self.number)
            self.now, self.calls, self.is_move, self.key = Footprint(), 1, False, self._digest
            self.now.reads_all = is_mixed
        with self._expecting():
            answer = self._step_call(it, name, words, named) if is_step else self._agent_call(it, name, *words, **named)
            self._add_answer(_without_number(name, is_step, answer))
            return answer

    def _add_answer(self, answer: Any) -> None:
        self._digest = hashlib.blake2b(self._digest + encode(answer, "answer")).digest()

    def _depend(self) -> None:
        self.now.reads_all, self.is_exact = True, False

    @contextmanager
    def _expecting(self) -> Iterator[None]:
        """Record what a refusal depends on."""
        try:
            yield
        except Error as error:
            if isinstance(error, ClashError):
                self.now.read([error.at])
            self.now.reads_all |= isinstance(error, FullError)
            self._add_answer([type(error).__name__, getattr(error, "at", None)])
            raise

    def _agent_call(self, it: TurnProxy, name: str, *words: Any, **named: Any) -> Any:
        call = getattr(it.own, name)
        if name == "fire":
            return self._fire(it, *words, **named)
        if name in ("read", "peek"):
            places = words[0] if words else named["places"]
            self.now.read([places] if hasattr(places, "place") else places)
        elif name == "stands":
            reads = list(words[0] if words else named["reads"])
            self.now.read(at for at, _ in reads)
            return call(reads)
        elif name == "scan":
            self.now.scans.add(*words, **named)
        elif name == "state":
            self.now.reads_all = True
        elif name == "learn":
            self._depend()
        answer = call(*words, **named)
        if name == "step":
            answer = self._step = TurnProxy(answer, self)
            self._scanned = []
        return answer

    def _fire(self, it: TurnProxy, instructions: Any, reads: Iterable[Any] = (), scans: Iterable[Any] = ()) -> Any:
        named, over = list(reads), list(scans)
        self.now.read(at for at, _ in named)
        self.now.scans.update(name for name, _ in over)
        return self._record_fire([it[1] for it in instructions], lambda: it.own.fire(instructions, named, over))

    def _record_fire(self, places: list[Any], fire: Any) -> Any:
        # It counts as written even if the fire is refused: an event must have the same footprint wherever it comes.
        self.now.write(places)
        number = fire()
        self.is_move = number > 0
        return number

    def _step_call(self, it: TurnProxy, name: str, words: tuple[Any, ...], named: dict[str, Any]) -> Any:
        call = getattr(it.own, name)
        if name in _COMMITS:
            self._step = None
            offer = it.own.offer()
            self.now.read(at for at, _ in offer["reads"])
            self.now.scans.update(self._scanned)
            return self._record_fire([it[1] for it in offer["fire"]], call)
        if name in ("get", "see"):
            places = words[0] if words else named["places"]
            self.now.read([places] if hasattr(places, "place") else places)
        elif name in ("has", "count_of", "size", "__getitem__"):
            self.now.read(words[:1])
        elif name in ("scan", "any", "count"):
            self._scanned += [*words, *named.values()]
            self.now.scans.update(self._scanned)
        answer = call(*words, **named)
        if name in ADDITIONS:
            # An offer would end those that wait.
            self.now.read(words[:1])
        elif name in ("push", "extend", *WRITES):
            # A partial update is accepted or refused by the value that it changes.
            self.now.read(at for word, at, *_ in it.own.offer()["fire"] if word != "put")
        return answer

    def on_attribute(self, it: TurnProxy, name: str) -> None:
        if it is self._step and name in ("free", "__exit__"):
            self._step = None
        if name in ("seen", "misses") or name == "number" and type(it) is TurnProxy:
            # The number of all moves by now.
            self.now.reads_all = True
