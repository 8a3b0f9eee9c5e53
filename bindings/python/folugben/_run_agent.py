"""Agents of runs."""
import json
from collections.abc import Callable, Iterable, Sequence
from types import TracebackType
from typing import TYPE_CHECKING, Any, NoReturn, Self, TypeVar, overload

from ._core import Location, Played, Step
from ._errors import Error, FullError, PastError, ahead
from ._guards import is_in_call
from ._library import Code
from ._part import PartAgent, PartStep
from ._play import play
from ._texts import Form, encode

if TYPE_CHECKING:
    from ._run import Run

_R = TypeVar("_R")


class RunAgent:
    """An agent of a run, for one thread.

    It passes from part to part by itself. The end of a `with` returns it.

    It works in steps as the agent of a storage does. If a part has ended, the next step begins in the newest part. A step that
    was begun before still sees its state, but fires no more: its `commit` raises `PastError`, which is a `ConflictError`,
    `try_commit` returns 0, and `play` begins again.

    Numbers of moves are those of the run. A fire that names a location or scan read in a part that has ended raises `PastError`.
    """

    def __init__(self, run: "Run", own: int) -> None:
        # The collector doesn't close the run as long as one of its agents exists.
        self._run, self._chain, self._own = run, run._chain, own
        self._in: PartAgent | None = None
        # How many moves it fired in the parts before, minus those of another agent before it in its own; and how many it saw last.
        self._before, self._seen, self._is_returned = 0, 0, False

    def step(self) -> PartStep:
        """Begin a step, on its own state after a poll."""
        while True:
            agent = self._in
            if agent is not None:
                try:
                    step = agent.begin()
                except Error as error:
                    # It was returned meanwhile, as it was between two steps in a part that had ended.
                    self._raise_unless_withdrawn(agent, error)
                else:
                    if step._own_number < agent.part.most:
                        return step
                    step.free()
            self._enter_newest()

    def play(
        self, rule: Callable[[Step], _R], /, *, tries: int | None = None, timeout: float | None = None
    ) -> Played[_R]:
        """Play a rule as the agent of a storage does; begin again if the part has ended.

        An exception of the rule ends the play, which fires nothing; except `PastError`, if the step was returned.
        """
        return play(self, rule, tries=tries, timeout=timeout)

    def read(self, places: Sequence[Form]) -> tuple[int, list[Any]]:
        """Return the number of moves, and the values of the locations after them.

        Raises:
            ManyError: there are more than 256 locations.
            TooLongError: the line of the read would be too long.
        """
        def poll(agent: PartAgent) -> tuple[int, list[Any]]:
            agent.count_receipts()
            agent.follow()
            return agent.read(places)

        return self._call_polling(poll)

    def fire(self, instructions: Sequence[Form], reads: Iterable[Form] = (), scans: Iterable[Form] = ()) -> int:
        """Fire a move that depends on these reads and scans, as a storage's agent does.

        Raises:
            PastError: one of them is named at a number of a part that has ended; it is a `ConflictError`.
            TooLongError: the line of the move could be too long.
        """
        reads_list, functions = list(reads), list(scans)
        while True:
            agent = self._in
            if agent is not None:
                own, over = self._of_part(reads_list, agent), self._of_part(functions, agent, "scan")
                agent.count_receipts()
                try:
                    return agent.part.base + agent.fire(instructions, own, over)
                except FullError:
                    pass
                except Error as error:
                    self._raise_if_ahead(reads_list, error, functions)
                    self._raise_unless_withdrawn(agent, error)
            self._enter_newest()

    def follow(self) -> int:
        """Poll until nothing more is found, and advance its own state.

        Return the number of moves that it has seen then.
        """
        return self._call_polling(lambda agent: (agent.follow(), None))[0]

    def stands(self, reads: Iterable[Form]) -> tuple[Any, ...] | None:
        """Poll; return the smallest named location written since its number, or None.

        Each location is named with a number of moves.

        Raises:
            PastError: as by `fire`.
        """
        reads_list = list(reads)

        def poll(agent: PartAgent) -> tuple[int, tuple[Any, ...] | None]:
            try:
                result = agent.stands(self._of_part(reads_list, agent))
            except Error as error:
                self._raise_if_ahead(reads_list, error)
                raise
            return agent.seen, result

        return self._call_polling(poll)[1]

    @overload
    def peek(self, places: Location) -> tuple[int, Any]: ...

    @overload
    def peek(self, places: Sequence[Form]) -> tuple[int, list[Any]]: ...

    def peek(self, places: Location | Sequence[Form]) -> tuple[int, Any]:
        """Return the version of its own state, and the values of the locations there.

        If its part ended since the last poll, while it was in no step, that is the beginning of the newest part.
        """

        def read_own(agent: PartAgent) -> tuple[int, Any]:
            return agent.peek(places)

        return self._call_own_state(read_own)

    def state(self) -> tuple[int, list[Any]]:
        """Return the version of its own state, as `peek` does, and that state."""
        return self._call_own_state(PartAgent.state)

    def scan(self, name: str) -> tuple[int, list[Any]]:
        """Return the same with only the locations of one function name."""
        return self._call_own_state(lambda agent: agent.scan(name))

    def _call_polling(self, poll: Callable[[PartAgent], tuple[int, _R]]) -> tuple[int, _R]:
        """Return the result of a poll in a part that hasn't ended."""
        while True:
            agent = self._in
            if agent is not None:
                try:
                    number, result = poll(agent)
                except Error as error:
                    self._raise_unless_withdrawn(agent, error)
                else:
                    if number < agent.part.most:
                        return agent.part.base + number, result
            self._enter_newest()

    def _call_own_state(self, read_own: Callable[[PartAgent], tuple[int, _R]]) -> tuple[int, _R]:
        """Return the answer of a call on its own state."""
        while True:
            agent = self._in
            if agent is not None:
                try:
                    number, result = read_own(agent)
                    return agent.part.base + number, result
                except Error as error:
                    self._raise_unless_withdrawn(agent, error)
            self._enter_newest()

    def _raise_if_ahead(self, reads_list: list[Form], error: Error, functions: Iterable[Form] = ()) -> None:
        """Report the numbers of the run, if a read or a scan is named at a future one."""
        if type(error) is Error and error.code == Code.AHEAD:
            raise ahead(reads_list, self.seen, functions) from None

    @staticmethod
    def _raise_unless_withdrawn(agent: PartAgent, error: Error) -> None:
        """Raise an error, except one that comes from a part's end.

        Such an error occurs when another thread has returned the agent.
        """
        if error.code != Code.EMPTY or agent._is_full:
            raise error

    @staticmethod
    def _of_part(reads_list: list[Form], agent: PartAgent, kind: str = "read") -> list[Form]:
        """Return the declared reads or scans with their numbers in the part of its agent.

        The library reports an item that is none.
        """
        own: list[Form] = []
        for place, read in enumerate(reads_list, 1):
            number = read[1] if isinstance(read, (list, tuple)) and len(read) == 2 else None
            if not isinstance(number, int) or number < 0:
                own.append(read)
            elif number >= agent.part.base:
                own.append([read[0], number - agent.part.base])
            else:
                detail = f"{kind} {place} names {json.dumps(read[0])} at {number}, and that part has ended at {agent.part.base}"
                raise PastError(Code.AHEAD, detail=f"{detail}, so read again")
        return own

    def _enter_newest(self) -> None:
        """Enter the newest part."""
        if self._is_returned:
            raise Error(Code.EMPTY, detail="the agent was returned")
        was, now = self._in, self._chain.enter(self._own, self._in)
        if now is not was:
            before = self._before + (was._counts()[1] if was is not None else 0) - now._counts()[1]
            self._before, self._in = before, now

    @property
    def number(self) -> int:
        """Its number among the agents of its run."""
        return self._own

    @property
    def seen(self) -> int:
        """How many moves of the run it has seen."""
        agent = self._in
        return agent.part.base + agent._counts()[0] if agent is not None else self._seen

    @property
    def won(self) -> int:
        """How many moves it fired."""
        agent = self._in
        return self._before + (agent._counts()[1] if agent is not None else 0)

    def give(self) -> None:
        """Return the agent; returning again has no effect."""
        self._end(self._chain.leave)

    def abandon(self) -> None:
        """Release it without returning it.

        What it fired in its part is missing, and the run ends there.
        """
        self._end(self._chain.abandon)

    def _end(self, leave: Callable[[PartAgent], None]) -> None:
        self._is_returned, agent = True, self._in
        if agent is not None:
            seen, won = agent._counts()
            leave(agent)
            # Another agent may have its number from now on, and its slot.
            before = self._before + won
            self._seen, self._before, self._in = agent.part.base + seen, before, None

    def __enter__(self) -> Self:
        return self

    def __exit__(self, kind: type[BaseException] | None, error: BaseException | None, traced: TracebackType | None) -> None:
        if is_in_call():
            # A finalizer ends the `with` during another call: the writer returns the agent.
            self._is_returned, self._in = True, None
        else:
            self.give()

    def __repr__(self) -> str:
        if self._is_returned:
            return f"<RunAgent {self._own}, returned>"
        return f"<RunAgent {self._own}, {self.seen} moves seen>"

    def __reduce__(self) -> NoReturn:
        raise TypeError("cannot copy or pickle 'RunAgent' object")
