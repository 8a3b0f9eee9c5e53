"""Shared runs: agents of one run in many processes and machines, over a database."""
import os
import weakref
from collections.abc import Callable, Iterable, Sequence
from types import TracebackType
from typing import Any, NoReturn, Self, TypeVar, overload

from ._core import Agent, Location, Played, Step, Storage
from ._errors import BrokenError, Error, PastError, as_conflict
from ._files import shown
from ._guards import ForkedError, is_in_call
from ._library import Code
from ._log import Log
from ._play import play
from ._refusals import capacity_of, own_number
from ._replica import Era
from ._texts import Form, encode, to_python
from ._worker import Worker

_R = TypeVar("_R")


class SharedStep(Step):
    """A step of an agent of a shared run, whose numbers are those of the run."""

    def __new__(cls, shared: "SharedAgent", agent: Agent, era: Era) -> Self:
        return super().__new__(cls, agent)

    def __init__(self, shared: "SharedAgent", agent: Agent, era: Era) -> None:
        self._shared, self._era = shared, era
        # The functions that it has scanned.
        self._scans: dict[str, None] = {}

    def scan(self, name: str) -> list[tuple[tuple[Any, ...], Any]]:
        """Do the same as any step."""
        found = super().scan(name)
        self._scans[name] = None
        return found

    def offer(self) -> dict[str, Any]:
        """Return the same, with numbers of the run."""
        offer, base = super().offer(), self._era.base
        return offer | {"reads": tuple((at, base + number) for at, number in offer["reads"])}

    def commit(self) -> int:
        """Fire one move that does what the pushed moves do in turn.

        Return its number, once the move is durable.

        Raises:
            StaleError, ClashError, ManyError: as of any step.
            PastError: its segment had ended when the call came into the log.
            TooLongError: the move's line would be longer than an audit reads.
            BrokenError: the run has ended; it may be unknown whether the move was fired.
            UnknownError: it is unknown whether the move was fired.
        """
        return self._era.base + self._fire(())

    def try_commit(self) -> int:
        """Commit the same way, but return 0 if the step must be begun again.

        It returns 0 in place of `StaleError`, `ClashError` and `PastError`.
        """
        try:
            fired = self._fire((Code.STALE, Code.CLASH))
        except PastError:
            self._is_tried = True
            return 0
        return fired and self._era.base + fired

    def _fire(self, conflicts: tuple[int, ...]) -> int:
        if self._shared._is_returned:
            self._is_tried = True
            raise Error(Code.EMPTY, detail="the agent was returned")
        call, scans = self._call()
        answer = self._shared._worker.answer(self._era.number, self._shared.number, call, scans)
        if answer is None:
            raise PastError(Code.EMPTY, detail="the segment of the run has ended, so begin another step")
        if answer.error is None:
            self._shared._won, self._shared._fired = self._shared._won + 1, answer.fired
            self._end(answer.fired - self._era.base)
            return answer.fired - self._era.base
        self._is_tried = True
        if answer.error.code in conflicts:
            return 0
        raise as_conflict(answer.error)

    def _raise_why_returned(self) -> None:
        if not self._shared._is_returned:
            raise PastError(Code.EMPTY, detail="the agent has moved to another segment, so begin another step")

    def _call(self) -> tuple[bytes, bytes]:
        """Return what the fire attempts to append, and the scans that it depends on."""
        return self._offer_text(), encode([[name, self._own_number] for name in self._scans], "scans") if self._scans else b"[]"


class SharedRun:
    """A run in a database, whose agents may be in many processes, on many machines.

        with SharedRun("bank.db", init=[[["balance"], 0]]) as run, run.agent(0) as anna:
            anna.play(deposit)

    The target is a SQLite file, for the processes of one machine, or postgresql://host/base, for those of many. A name after
    a # is the schema, one for each run. The first process opens the run, with its opening state and the number of moves of a
    segment; others join it. Without `init` the run must exist.

    An answer is returned when its move is durable in the database. No answered move is lost or done twice, whichever process,
    connection or server dies. All processes have the same states in the same order.

    Raises:
        FileNotFoundError: there is no run, and no `init`.
        MismatchError: the run has another opening state, or tables of another version.
        ConnectionError: the server doesn't answer.
        OSError: the file can't be opened or written.
        DamagedError: there is something other than a run.
    """

    def __init__(self, target: str | os.PathLike[str], init: Iterable[Form] | None = None, moves: int = 10_000) -> None:
        self._target, capacity = os.fspath(target), capacity_of(moves)
        state = init if init is None or isinstance(init, dict) else list(init)

        def opening(moves: int) -> bytes:
            with Storage(state or (), moves) as storage:
                return storage.close_journal()

        if state is not None:
            opening(capacity)  # a refused argument creates no file
        self._worker = Worker(Log(self._target, None if state is None else opening, capacity))
        self._agents: weakref.WeakValueDictionary[int, SharedAgent] = weakref.WeakValueDictionary()

    @property
    def target(self) -> str:
        """The file or the database of the run."""
        return self._target

    def agent(self, number: int) -> "SharedAgent":
        """Return an agent with this number, below 256, that no other process has.

        Raises:
            Error: the number is in use, here or in another process that lives; the code is NUMBER.
        """
        own = own_number(number)
        self._worker.expect_active()
        one = self._agents.get(own)
        if one is not None and not one._is_returned:
            raise Error(Code.NUMBER, detail=f"agent {own}")
        if not self._worker.hold(own):
            raise Error(Code.NUMBER, detail=f"agent {own} is in use by another process")
        agent = self._agents[own] = SharedAgent(self, own)
        return agent

    def state(self) -> tuple[int, list[Any]]:
        """Return the number of moves by now, of all processes, and the state after them.

        The state is pairs of a location and its value.
        """
        self._worker.follow()
        number, text = self._worker.state_text()
        return number, to_python(text)

    def close(self) -> None:
        """Leave the run, which continues in other processes; closing again has no effect.

        Raises:
            BrokenError: the run has ended for this process by a fault.
        """
        self._worker.close()

    def __enter__(self) -> Self:
        return self

    def __exit__(self, kind: type[BaseException] | None, error: BaseException | None, traced: TracebackType | None) -> None:
        try:
            self.close()
        except (BrokenError, ForkedError):
            if error is None:
                raise

    def __repr__(self) -> str:
        return f"<SharedRun {shown(self._target)!r}>"

    def __reduce__(self) -> NoReturn:
        raise TypeError("cannot copy or pickle 'SharedRun' object")


class SharedAgent:
    """An agent of a shared run, for one thread. The end of a `with` returns it.

    It begins its steps on a replica in its own process, so that reads and pushes take no round trip. A fire waits for the
    database. Numbers of moves are those of the run.
    """

    def __init__(self, run: SharedRun, own: int) -> None:
        self._run, self._worker, self._own = run, run._worker, own
        self._in: tuple[Era, Agent] | None = None
        self._won, self._fired, self._is_returned = 0, 0, False

    def step(self) -> SharedStep:
        """Begin a step on the state of this process's replica."""
        era, agent = self._newest()
        return SharedStep(self, agent, era)

    def play(
        self, rule: Callable[[Step], _R], /, *, tries: int | None = None, timeout: float | None = None
    ) -> Played[_R]:
        """Play a rule as the agent of a storage does, and return once its move is durable."""
        return play(self, rule, tries=tries, timeout=timeout)

    def follow(self) -> int:
        """Wait until the replica has all that is in the log now, and follow it.

        Return the number of moves seen.
        """
        self._worker.follow()
        era, agent = self._newest()
        return era.base + agent.follow()

    @overload
    def peek(self, places: Location) -> tuple[int, Any]: ...

    @overload
    def peek(self, places: Sequence[Form]) -> tuple[int, list[Any]]: ...

    def peek(self, places: Location | Sequence[Form]) -> tuple[int, Any]:
        """Return the version of its own state, and the values of the locations there."""
        era, agent = self._newest()
        number, values = agent.peek(places)
        return era.base + number, values

    def state(self) -> tuple[int, list[Any]]:
        """Return the version of its own state, and that state."""
        era, agent = self._newest()
        number, state = agent.state()
        return era.base + number, state

    def scan(self, name: str) -> tuple[int, list[Any]]:
        """Return the same with only the locations of one function name."""
        era, agent = self._newest()
        number, pairs = agent.scan(name)
        return era.base + number, pairs

    @property
    def number(self) -> int:
        """Its number among the agents of the run."""
        return self._own

    @property
    def won(self) -> int:
        """How many moves it fired."""
        return self._won

    @property
    def seen(self) -> int:
        """How many moves of the run it has seen."""
        era, agent = self._newest()
        return max(self._fired, era.base + agent.seen)

    def give(self) -> None:
        """Return the agent; returning again has no effect."""
        if not self._is_returned:
            self._is_returned = True
            self._leave()
            self._worker.release(self._own)

    def _newest(self) -> tuple[Era, Agent]:
        """Return the newest segment, and its agent there."""
        if self._is_returned:
            raise Error(Code.EMPTY, detail="the agent was returned")
        self._worker.expect_active()
        if self._in is None or self._in[0] is not self._worker.replica.era:
            self._leave()
            self._in = self._worker.enter()
        return self._in

    def _leave(self) -> None:
        if self._in is not None:
            (era, agent), self._in = self._in, None
            self._worker.leave(era, agent)

    def __enter__(self) -> Self:
        return self

    def __exit__(self, kind: type[BaseException] | None, error: BaseException | None, traced: TracebackType | None) -> None:
        if not is_in_call():
            self.give()

    def __repr__(self) -> str:
        return f"<SharedAgent {self._own}{', returned' if self._is_returned else ''}>"

    def __reduce__(self) -> NoReturn:
        raise TypeError("cannot copy or pickle 'SharedAgent' object")
