"""Agents that are played by turns: one at a time runs, up to its next call."""
import random
import threading
from collections.abc import Callable, Sequence
from types import TracebackType
from typing import Any, Self, TypeVar

from ._core import Played
from ._errors import PackageError
from ._play import play

_A = TypeVar("_A")
_R = TypeVar("_R")

# The calls of a step that write one location, and all calls of agents and of steps that take a turn.
WRITES = frozenset({"put", "add", "remove", "bag_add", "bag_remove", "inc"})
# Those that become one move's instructions if they come in a row.
ADDITIONS = frozenset({"add", "bag_add", "inc"})
CALLS = WRITES | {
    "step", "read", "fire", "try_fire", "commit", "try_commit", "follow", "stands", "peek", "state", "scan", "learn", "answer", "give", "get", "see",
    "has", "count_of", "size", "any", "count", "push", "extend", "pop", "pop_move", "offer",
}
# How long to wait after Ctrl-C for those that play.
_GRACE = 5.0


class EndlessError(PackageError, RuntimeError):
    """A schedule has not ended after the allowed number of turns.

    For example, an agent waits for another one forever.
    """


class _Here(threading.local):
    """Whether this thread plays by turns."""

    is_by_turns = False


here = _Here()


class _Stop(BaseException):
    """Ends a work at its next turn."""


class Turns:
    """Threads of which one at a time runs, until its next turn.

    `choose` names the thread that runs next, of those that have not ended.
    """

    def __init__(self, count: int, choose: Callable[[list[int]], int], most: int) -> None:
        self._choice, self._most, self._lock = choose, most, threading.Lock()
        self._alive, self._waiting = set(range(count)), set[int]()
        # A thread waits until its gate is released.
        self._gates = [threading.Lock() for _ in range(count)]
        for gate in self._gates:
            gate.acquire()
        self._now: int | None = None
        self._turns_taken, self._is_stopped = 0, False
        # What ended all of them, unless it is one of their own errors.
        self.fault: BaseException | None = None

    def wait(self, number: int) -> None:
        with self._lock:
            self._leave(number)
            self._waiting.add(number)
            self._choose()
        self._gates[number].acquire()
        if self._is_stopped:
            raise _Stop

    def count(self) -> None:
        """Count a turn that the current work takes without waiting."""
        with self._lock:
            self._turns_taken += 1
            if self._turns_taken > self._most:
                self._stop(self._endless(sorted(self._alive)))
            if self._is_stopped:
                raise _Stop

    def end(self, number: int) -> None:
        with self._lock:
            self._leave(number)
            self._alive.discard(number)
            self._choose()

    def stop(self, fault: BaseException | None = None) -> None:
        """End each work at its next turn."""
        with self._lock:
            self._stop(fault)

    def _stop(self, fault: BaseException | None) -> None:
        self.fault, self._is_stopped = self.fault or fault, True
        for number in self._waiting:
            self._gates[number].release()
        self._waiting.clear()

    def _leave(self, number: int) -> None:
        if self._now == number:
            self._now = None

    def _choose(self) -> None:
        # The current work waits or ends before the next is chosen, so the order depends only on the choice.
        if self._is_stopped:
            self._stop(None)
        elif self._now is None and self._waiting == self._alive:
            try:
                chosen = self._next()
            except BaseException as error:
                self._stop(error)
            else:
                if chosen is not None:
                    self._waiting.discard(chosen)
                    self._now = chosen
                    self._gates[chosen].release()

    def _next(self) -> int | None:
        alive = sorted(self._alive)
        if self._turns_taken >= self._most and alive:
            raise self._endless(alive)
        self._turns_taken += 1
        return self._choice(alive) if alive else None

    def _endless(self, alive: list[int]) -> EndlessError:
        who = f"agent {alive[0]} is" if len(alive) == 1 else f"agents {', '.join(map(str, alive))} are"
        return EndlessError(f"{who} still running after {self._most:,} turns: does one wait for another?")


class Player:
    """The player of a work: each call waits for its turn."""

    def __init__(self, turns: Turns, number: int) -> None:
        self._turns, self.number = turns, number

    def begin(self) -> None:
        """Wait for the first turn, before anything is done."""
        self._turns.wait(self.number)

    def call(self, it: "TurnProxy", name: str, words: tuple[Any, ...], named: dict[str, Any]) -> Any:
        """Do one call of an agent or a step."""
        self._turns.wait(self.number)
        answer = getattr(it.own, name)(*words, **named)
        return TurnProxy(answer, self) if name == "step" else answer

    def on_attribute(self, it: "TurnProxy", name: str) -> None:
        """Do nothing: an attribute that is no call takes no turn."""


class TurnProxy:
    """A step or an agent whose calls take turns; otherwise the same as the original."""

    def __init__(self, own: Any, player: Player) -> None:
        self.own, self.player = own, player

    @property  # type: ignore[misc]
    def __class__(self) -> type[Any]:
        return type(self.own)

    def __getattr__(self, name: str) -> Any:
        if name in ("own", "player"):
            raise AttributeError(name)  # a copy is being made
        attribute = getattr(self.own, name)
        if name not in CALLS:
            self.player.on_attribute(self, name)
            return attribute
        return lambda *words, **named: self.player.call(self, name, tuple(map(_bare, words)), named)

    def __getitem__(self, place: Any) -> Any:
        return self.player.call(self, "__getitem__", (place,), {})

    def __setitem__(self, place: Any, value: Any) -> None:
        self.player.call(self, "put", (place, value), {})

    def __delitem__(self, place: Any) -> None:
        self.player.call(self, "put", (place, None), {})

    def __enter__(self) -> Self:
        self.own.__enter__()
        return self

    def __exit__(self, kind: type[BaseException] | None, error: BaseException | None, traced: TracebackType | None) -> None:
        self.player.on_attribute(self, "__exit__")
        self.own.__exit__(kind, error, traced)

    def __repr__(self) -> str:
        return repr(self.own)


class AgentProxy(TurnProxy):
    """An agent whose calls take turns, and those of its steps."""

    def step(self) -> TurnProxy:
        step: TurnProxy = self.player.call(self, "step", (), {})
        return step

    def play(
        self, rule: Callable[[Any], _R], /, *, tries: int | None = None, timeout: float | None = None
    ) -> Played[_R]:
        return play(self, rule, tries=tries, timeout=timeout)


def _bare(word: Any) -> Any:
    return word.own if type(word) in (TurnProxy, AgentProxy) else word


def play_all(
    turns: Turns, agents: Sequence[_A], works: Sequence[Callable[[_A], _R]], players: Sequence[Player]
) -> tuple[list[Any], dict[int, BaseException]]:
    """Play each work on its own thread; return the works' results and their errors."""
    results: list[Any] = [None] * len(works)
    errors = dict[int, BaseException]()

    def play(number: int) -> None:
        here.is_by_turns = True
        agent: Any = AgentProxy(agents[number], players[number])
        try:
            players[number].begin()
            results[number] = works[number](agent)
        except _Stop:
            pass
        except BaseException as error:
            errors[number] = error
        finally:
            turns.end(number)

    threads = [threading.Thread(target=play, args=(number,), daemon=True) for number in range(len(works))]
    try:
        for thread in threads:
            thread.start()
        for thread in threads:
            thread.join()
    except BaseException:
        # Ctrl-C arrives here. A work that waits for something other than its turn can't be ended.
        turns.stop()
        for thread in threads:
            if thread.ident is not None:
                thread.join(_GRACE)
        raise
    return results, errors


def _by_seed(seed: int) -> Callable[[list[int]], int]:
    """Draw the next thread by a seed."""
    return random.Random(seed).choice


def _by_list(turns: Sequence[int]) -> Callable[[list[int]], int]:
    """Choose the next thread by a list.

    Each number counts round those that haven't ended. After the end of the list the current work continues.
    """
    remaining, last = list(turns)[::-1], -1

    def choose(alive: list[int]) -> int:
        nonlocal last
        if remaining:
            last = alive[remaining.pop() % len(alive)]
        elif last not in alive:
            last = alive[0]
        return last

    return choose


def interleave(
    agents: Sequence[_A], works: Sequence[Callable[[_A], _R]], seed: int | Sequence[int], *, most: int = 1_000_000
) -> list[_R]:
    """Play each work with its agent, one at a time up to its next call.

    Return what the works returned. The seed draws the work that runs next.

    Each call of the agent that the work is passed, and of its steps, takes a turn; what only reads a number, such as `won`,
    takes none. The same seed produces the same journal, byte for byte, if the works themselves draw nothing else.

    A list of numbers in place of the seed names the work that runs at each turn, counted round those that haven't ended. After
    the end of the list the current work runs until it ends, and then the first of the others. So an empty list plays one after
    the other. `explore` finds the list that breaks an invariant.

    Ctrl-C ends each work at its next call.

    Raises:
        EndlessError: the works haven't ended after `most` turns.
        the first error of a work, by the number of its position, once all have ended.
    """
    if len(agents) != len(works):
        raise ValueError(f"{len(agents)} agents for {len(works)} works")
    turns = Turns(len(agents), _by_seed(seed) if isinstance(seed, int) else _by_list(seed), most)
    results, errors = play_all(turns, agents, works, [Player(turns, number) for number in range(len(works))])
    if turns.fault is not None:
        raise turns.fault
    for number in sorted(errors):
        raise errors[number]
    return results
