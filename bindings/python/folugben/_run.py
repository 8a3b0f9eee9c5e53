"""Runs without an end, and their agents."""
import os
import pathlib
import signal
import threading
import warnings
import weakref
from collections.abc import Callable, Iterable
from types import FrameType, TracebackType
from typing import Any, Literal, NoReturn, Self

from ._core import Storage
from ._errors import BrokenError, Error
from ._folder import RunWriter
from ._guards import ForkedError, is_in_call, one_call
from ._library import Code
from ._parts import Chain
from ._reading import Reading
from ._refusals import capacity_of, expect_keep, own_number
from ._run_agent import RunAgent
from ._texts import Form, to_python

# The runs whose `with` is active, which SIGTERM ends.
_active_chains: list[Chain] = []


def _end_all(number: int, frame: FrameType | None) -> NoReturn:
    """End all of them as an exception would.

    Agents on other threads find their run closed.
    """
    signal.signal(signal.SIGTERM, signal.SIG_IGN)
    for chain in _active_chains:
        chain.is_closing = True
    raise SystemExit(128 + number)


class Run:
    """A run without end, in a folder.

    Its agents pass from part to part, and each part is saved as one text file, a segment.

    Each part is a storage for the given number of moves, and opens with the state at the end of the part before it. A thread
    closes the parts, in their order, and saves each before its memory is released; at most three are in memory. A part ends
    early in two cases, and then waits for steps for 0.1 s:

    - its agents have made more than `receipts` receipts (by default twice the number of moves), as stale fires leave some too;
    - `every` seconds have passed after its first move, if `every` is given.

    With `record` each commit also records the tracked reads of its step, as for a `Storage`: an audit then validates them too.
    Such a commit counts as two receipts, so the default of `receipts` is four times the number of moves.

        with Run("count.run", init=[[["count"], 0]]) as run, run.agent(0) as agent:
            agent.play(lambda step: step.push([["inc", ["count"], 1]]))
            run.flush()

    Within its `with`, on the main thread, SIGTERM ends the run as an exception (SystemExit) would, unless the program handles
    SIGTERM itself. Python handles a signal that arrives just before the main thread blocks only afterwards: block for a second
    at most.

    With `keep` only so many of the last segments stay in the folder: after each save older ones are removed, one after the other.

    If a part can't be saved, because the disk is full or a move is missing, the run ends, and each further call on it and its
    agents raises `BrokenError` with the part. What was saved before is complete.

    Numbers of moves are those of the run: they continue from part to part.

    Raises:
        FileExistsError: there is a run already, or something other than an empty folder.
        BlockingIOError: another process creates a run there.
        TooLongError: the opening state is too long for a line.
    """

    def __init__(
        self, path: str | os.PathLike[str], init: Iterable[Form] = (), moves: int = 100_000, *, every: float | None = None,
        receipts: int | None = None, record: bool = False, keep: int | None = None,
    ) -> None:
        capacity = self._prepare(path, moves, every, receipts, record, keep)
        with Storage(init, capacity, record=record) as opening:
            journal = memoryview(opening.close_journal())
            self._begin(RunWriter.create(self._path, journal), lambda: opening.next(capacity), capacity)

    @classmethod
    def resume(
        cls, path: str | os.PathLike[str], moves: int = 100_000, *, check: Literal["all", "last"] = "all",
        every: float | None = None, receipts: int | None = None, record: bool = False, keep: int | None = None,
    ) -> "Run":
        """Continue an earlier run from the end of its last segment.

        Its process may have been killed. First all segments are audited, or with check="last" only the last one. That changes and
        removes nothing. Whether the run recorded before has no effect on whether it does now.

        Raises:
            FileNotFoundError: there is no run.
            BlockingIOError: another run uses the folder.
            DamagedError: a segment is missing, or isn't the one that was saved.
            BadJournalError: a segment isn't legal.
            NotADirectoryError: it is a run in one file, which `import_run` imports.
        """
        if check not in ("all", "last"):
            raise ValueError(f"check is 'all' or 'last', and not {check!r}")
        run = cls.__new__(cls)
        capacity = run._prepare(path, moves, every, receipts, record, keep)
        folder, names = RunWriter.resume(run._path)
        try:
            reading = Reading(folder, trail=folder.trail)
            reading.audit(names) if check == "all" else reading.audit_last(names)
            state = folder.trail.core.state()
            folder.begin()
        except BaseException:
            folder.close()
            raise
        run._begin(folder, lambda: Storage._open_text(state, capacity, record), capacity)
        return run

    def _prepare(
        self, path: str | os.PathLike[str], moves: int, every: float | None, receipts: int | None, record: bool, keep: int | None
    ) -> int:
        """Check and store the parameters of the run; return the capacity of its parts.

        Nothing is made before that.
        """
        self._path, capacity = pathlib.Path(path), capacity_of(moves)
        if every is not None and not (isinstance(every, (int, float)) and every > 0):
            raise ValueError(f"every is a number of seconds above 0, and not {every!r}")
        if receipts is not None and not (isinstance(receipts, int) and receipts >= 0):
            raise ValueError(f"receipts is a whole number from 0, and not {receipts!r}")
        if keep is not None:
            expect_keep(keep)
        self._every, self._keep, self._receipts = every, keep, (4 if record else 2) * capacity if receipts is None else receipts
        self._agents: weakref.WeakValueDictionary[int, RunAgent] = weakref.WeakValueDictionary()
        return capacity

    def _begin(self, folder: RunWriter, open_storage: Callable[[], Storage], capacity: int) -> None:
        try:
            self._chain = Chain(folder, open_storage(), capacity, self._receipts, self._every, self._keep)
        except BaseException:
            folder.close()
            raise

    @one_call
    def agent(self, number: int) -> "RunAgent":
        """Return an agent with this number, below 256.

        At most one at a time has the number: another one may have it once that agent is returned or freed.
        """
        own = own_number(number)
        with self._chain._lock:
            self._chain.expect_active()
            one = self._agents.get(own)
            if one is not None and not one._is_returned:
                raise Error(Code.NUMBER, detail=f"agent {own}")
            agent = self._agents[own] = RunAgent(self, own)
        return agent

    def flush(self) -> None:
        """Save all moves up to now: they are on the disk when this returns.

        It ends the part, which makes a segment, and waits for steps for 0.1 s: a longer step raises `PastError`, and `play` begins
        again.

        Raises:
            BrokenError: a part couldn't be saved.
            TooLongError: the state is too long for a line, so the part continues until it is full.
        """
        self._chain.flush()

    def state(self) -> tuple[int, list[Any]]:
        """Return the number of moves by now and the state after them.

        The state is pairs of a location and its value, ascending.
        """
        number, text = self._chain.state()
        return number, to_python(text)

    def close(self) -> None:
        """End the run: return all agents, and wait until the last part is on the disk.

        Closing again has no effect. It waits for no step: a step that is under way fires nothing once this has returned, and its
        next call raises an `Error`, as those of all agents do.

        Raises:
            BrokenError: a part couldn't be written.
        """
        self._chain.close()

    @property
    def path(self) -> pathlib.Path:
        """Its folder."""
        return self._path

    @property
    def saved(self) -> int:
        """How many moves of the run are on the disk."""
        return self._chain.saved[1]

    @property
    def parts(self) -> int:
        """How many parts are on the disk."""
        return self._chain.saved[0]

    def __enter__(self) -> Self:
        is_main = threading.current_thread() is threading.main_thread()
        if is_main and signal.getsignal(signal.SIGTERM) in (signal.SIG_DFL, _end_all):
            _active_chains.append(self._chain)
            signal.signal(signal.SIGTERM, _end_all)
        return self

    def __exit__(self, kind: type[BaseException] | None, error: BaseException | None, traced: TracebackType | None) -> None:
        if is_in_call():
            # A finalizer ends a `with` during another call: the writer ends the run.
            self._chain.is_closing = True
            return
        try:
            self.close()
        except (BrokenError, ForkedError) as broken:
            if error is None:
                raise
            if not isinstance(error, BrokenError):
                error.add_note(str(broken))
        finally:
            if self._chain in _active_chains:
                _active_chains.remove(self._chain)
                if not _active_chains:
                    signal.signal(signal.SIGTERM, signal.SIG_DFL)

    def __repr__(self) -> str:
        return f"<Run {str(self._path)!r}, {self.saved} moves in {self.parts} parts on the disk>"

    def __reduce__(self) -> NoReturn:
        raise TypeError("cannot copy or pickle 'Run' object")

    def __del__(self) -> None:
        # The writer holds all that it needs, and ends the run.
        chain = getattr(self, "_chain", None)
        if chain is not None and not chain.is_closing:
            chain.is_closing = True
            warnings.warn(f"a run wasn't closed: {self._path}", ResourceWarning, stacklevel=2, source=self)
