"""The parts of a run: a chain of storages, and the thread that saves them.

Each storage opens with the state at the end of the one before it.

Invariants, for every interleaving of threads:

- The newest part is the last one whose storage is open. Agents enter only the newest part.
- A part has ended as soon as a further one is open after it. The further one is opened only when no move can be fired in the
  part any more: its storage is full, or all its agents were returned. So each move of the run is in one part, and each part
  opens with the state after all moves before it.
- An agent is returned to its part before it enters another one: it is never in two.
- A step that has begun continues in its part, with the state that it saw, until the part has ended and `PATIENCE` has passed.
  Then its agent is returned, and the step raises `PastError`. The chain waits for agents that are played by turns until two
  further parts have ended.
- Another thread may return an agent that is between two steps. The agent's own thread finds the slot empty, as every call
  checks it under the agent's lock, and enters the newest part.
- An agent waits for another thread only while that opens a part, while two ended parts wait for the writer, or while a part
  comes to rest. So there are at most three parts in memory, and by turns five.
- Only the writer saves, the oldest part first, once that has ended and all its agents are returned. The storage is released
  when its journal is on the disk, and then the next part is the oldest.
- After a fault nothing more is saved: no segment follows a missing one.

The slots are the only record of the state; the library fills and empties each of them atomically. So a signal handler that
raises between any two lines leaves nothing half done: the next call continues from there. While a call is on a slot it may
look empty: so an agent's slot is checked under its lock, and the fact that a storage was opened is stored once it was seen.

Locks are acquired in this order: the chain's, a storage's, an agent's. No call of an agent on its own slot acquires the
chain's lock while it holds the agent's own.
"""
import atexit
import contextlib
import re
import threading
import time
import weakref

from ._core import Storage
from ._errors import BrokenError, Error, MissingError, TooLongError
from ._folder import RunWriter
from ._guards import LockHolder, one_call
from ._library import Code
from ._part import PATIENCE, Part, PartAgent
from ._turns import here

# The chains of active runs, which the end of the program closes.
_chains: "weakref.WeakSet[Chain]" = weakref.WeakSet()
# How long an agent waits at once.
_MOMENT = 0.002
# How often the writer checks whether agents have come to rest in a part that has ended, and whether a part has ended.
_SOON, _LATER = 0.02, 1.0
# How many ended parts may wait for the writer.
_WAITING = 2
_EVENTS = re.compile(rb'\{"agents":\d+,"capacity":\d+,"events":(\d+),')


class Chain(LockHolder):
    """The parts of a run that aren't on the disk yet, and the thread that saves them."""

    def __init__(
        self, folder: RunWriter, storage: Storage, moves: int, tries: int, every: float | None, keep: int | None
    ) -> None:
        self._folder, self._moves, self._tries, self._every, self._keep = folder, moves, tries, every, keep
        # The lock itself is acquired, as a condition's own methods aren't safe for a signal handler that raises.
        lock = threading.RLock()
        self._changed = threading.Condition(lock)
        self._set_lock(lock)
        # How many parts and moves are on the disk.
        self.saved = folder.saved()
        self._oldest = Part(self, *self.saved, moves, storage)
        self._fault: tuple[int, BaseException] | None = None
        self.is_closing = self._is_over = False
        self._writer = threading.Thread(target=self._write, name=f"writer of {folder.path}", daemon=True)
        self._writer.start()
        _chains.add(self)

    def _enter_child(self) -> None:
        super()._enter_child()
        self.is_closing = True
        self._folder.leave()
        _chains.discard(self)

    def expect_active(self) -> None:
        """Raise an error if the run has ended."""
        if self._fault is not None:
            raise BrokenError(*self._fault)
        if self.is_closing:
            raise Error(Code.EMPTY, detail="the run was closed")

    def newest(self) -> Part:
        part = self._oldest
        while part.next is not None:
            part = part.next
        return part

    # Calls of agents.

    @one_call
    def enter(self, own: int, before: PartAgent | None) -> PartAgent:
        """Bring an agent into the newest part, and return it.

        If it is there and has seen all its moves, a further part is opened.
        """
        while True:
            with self._lock:
                agent = self._enter_at_once(own, before)
                self._return_by_turns()
            if agent is not None:
                return agent
            # Neither is a wait on the condition.
            time.sleep(_MOMENT)

    def _enter_at_once(self, own: int, before: PartAgent | None) -> PartAgent | None:
        """Do the same; return None if another thread must act before."""
        self.expect_active()
        newest = self.newest()
        if before is not None and before.part is newest and before._is_full:
            if self._has_seen_all(before):
                if self._is_behind():
                    return None
                self._open_behind(before)
                newest = self.newest()
            elif newest.most > 0:
                return before
        if before is not None and before.part is not newest:
            before.__exit__(None, None, None)
            self._changed.notify_all()
        if newest.most == 0 and not self._end_if_idle(newest):
            return None
        return self._enter_part(self.newest(), own)

    def _return_by_turns(self) -> None:
        """Return to the storage agents that stay in a step, by turns, of an old part.

        Too many parts have come after an old part. Time has no influence on it.
        """
        part, newest, ended = self._oldest, self.newest(), list[Part]()
        while part is not newest and part.next is not None:
            ended.append(part)
            part = part.next
        for part in ended[:-_WAITING] if here.is_by_turns else ():
            part.is_forced, part.until = True, 0.0
            self._return_agents(part)

    def _has_seen_all(self, agent: PartAgent) -> bool:
        """Poll the log; return whether the agent has seen its part's capacity of moves."""
        return agent.follow() == agent.part.capacity

    def _open_behind(self, agent: PartAgent) -> None:
        part = agent.part
        further = Part(self, part.number + 1, part.base + part.capacity, self._moves, agent.go_on(self._moves))
        part.until = time.monotonic() + PATIENCE
        part.next = further
        self._changed.notify_all()

    def _is_behind(self) -> bool:
        """Return whether too many ended parts wait for the writer to open another one."""
        part, waiting = self._oldest, 0
        while part.next is not None:
            # By turns no part comes to rest while another one waits, so nobody waits for such a part.
            waiting += not here.is_by_turns or self._return_agents(part)
            part = part.next
        return waiting >= _WAITING

    def _enter_part(self, part: Part, own: int) -> PartAgent:
        agent = part.agents.get(own)
        if agent is None:
            agent = part.agents[own] = PartAgent(part, own)
        try:
            agent._check_out()
        except Error as error:
            if error.code == Code.NUMBER:
                raise Error(Code.NUMBER, detail=f"agent {own} was abandoned") from None
            raise
        return agent

    @one_call
    def leave(self, agent: PartAgent) -> None:
        """Return an agent to its storage."""
        with self._lock:
            agent.__exit__(None, None, None)
            self._changed.notify_all()

    @one_call
    def abandon(self, agent: PartAgent) -> None:
        """Release an agent, whose moves are missing."""
        with self._lock:
            agent.is_abandoned = agent.is_abandoned or agent._is_full
            agent.free()
            self._changed.notify_all()

    @one_call
    def count(self, part: Part, tries: int) -> None:
        """Count calls that left receipts in a part; too many bring it to rest."""
        with self._lock:
            part.tries += tries
            if part.tries > self._tries:
                part.end_when_idle()

    @one_call
    def state(self) -> tuple[int, bytes]:
        """Return the number of moves of the run by now, and the text of their state."""
        with self._lock:
            self.expect_active()
            part = self.newest()
            number, text = self._last_state(part)
            return part.base + number, text

    def _last_state(self, part: Part) -> tuple[int, bytes]:
        """Return the number of moves of a part and the state after them.

        It uses an agent that isn't held, which stays so for its thread.
        """
        idle = (own for own, agent in part.agents.items() if not agent.is_abandoned and not agent._is_full)
        own = next(idle, None)
        if own is None:
            own = next(it for it in range(257) if it not in part.agents)
            part.agents[own] = PartAgent(part, own)
        return part.agents[own]._newest_state()

    # A part that ends before it is full.

    def _end_if_idle(self, part: Part, is_flush: bool = False) -> bool:
        """End a part if all its agents are between two steps.

        Return whether that is done, or is given up.
        """
        if part.is_last or self._is_behind():
            return False
        if self._return_agents(part):
            try:
                self._end_idle(part)
            except TooLongError:
                # It continues until it is full.
                part.cancel_end()
                if is_flush:
                    raise
            return not part.is_last
        # If agents are played by turns, none comes to rest while another one waits.
        if here.is_by_turns and not part.is_forced:
            part.cancel_end()
            return True
        return False

    def _end_idle(self, part: Part) -> None:
        # The writer finds and reports a missing move, once the parts before it are written.
        part.is_last = part.storage._close() > 0
        if not part.is_last:
            further = Part(self, part.number + 1, part.base + part.moves(), self._moves, part.storage.next(self._moves))
            part.next = further
        self._changed.notify_all()

    def _return_agents(self, part: Part) -> bool:
        """Return the agents that may be returned; return whether none is left in the part."""
        return all([agent._try_return(self._may_return(agent)) for agent in part.agents.values()])

    def _may_return(self, agent: PartAgent) -> bool:
        """Return whether another thread may return an agent that is in a step."""
        is_waited_for = agent.is_by_turns and not agent.part.is_forced
        return self.is_closing or not is_waited_for and time.monotonic() > agent.part.until

    @one_call
    def flush(self) -> None:
        """End the newest part if it has moves, and wait until it is on the disk."""
        with self._lock:
            self.expect_active()
            part = self.newest()
            is_empty = part.moves() == 0
            if not is_empty and not part.has_ended():
                part.end_when_idle(is_forced=True)
        while not self._is_flushed(part, is_empty):
            time.sleep(_MOMENT)

    def _is_flushed(self, part: Part, is_empty: bool) -> bool:
        with self._lock:
            if self._fault is not None:
                raise BrokenError(*self._fault)
            if self.saved[0] >= part.number + (not is_empty):
                return True
            if not is_empty and not part.has_ended() and not self._is_over:
                part.end_when_idle(is_forced=True)
                self._end_if_idle(part, is_flush=True)
            return self._is_over

    # Calls of the writer.

    def _write(self) -> None:
        part: Part | None = None
        try:
            while (part := self._due()) is not None:
                journal, moves = self._journal(part)
                events = _EVENTS.match(journal)
                assert events is not None
                # An empty part after all others is none.
                if part.has_ended() or int(events[1]) > 0:
                    self._folder.save(journal, moves, int(events[1]))
                    self.saved = self._folder.saved()
                journal.release()
                self._release(part)
                if self._keep is not None:
                    part = None
                    self._folder.keep(self._keep)
        except BaseException as error:
            self._break(self.saved[0] if part is None else part.number, error)
        finally:
            self._folder.close()
            _chains.discard(self)

    def _due(self) -> Part | None:
        """Return the oldest part, once it has ended and its agents are returned.

        Return None if everything is written.
        """
        later = _LATER if self._every is None else min(_LATER, max(_SOON, self._every / 10))
        with self._lock:
            while not self._is_over:
                part = self._oldest
                is_due = False
                # An agent that memory was refused for is returned later.
                with contextlib.suppress(MemoryError):
                    self._end_by_time()
                    is_due = part.has_ended() or part.is_last or self.is_closing
                    if is_due and self._return_agents(part):
                        return part
                self._changed.wait(_SOON if is_due else later)
        return None

    def _end_by_time(self) -> None:
        """End the newest part if its first move was noticed long enough ago."""
        part, now = self.newest(), time.monotonic()
        if self._every is None or part.is_last or self.is_closing:
            return
        if part.first_move_at == 0.0:
            part.first_move_at = now if part.moves() > 0 else 0.0
        elif now >= part.first_move_at + self._every:
            part.end_when_idle()
            self._end_if_idle(part)

    def _journal(self, part: Part) -> tuple[memoryview, int]:
        """Return the journal of a part, and its number of moves."""
        try:
            journal = memoryview(part.storage.close_journal())
        except MissingError as missing:
            raise part.missing(missing.numbers[0]) from None
        return journal, part.moves()

    def _release(self, part: Part) -> None:
        part.storage.free()
        with self._lock:
            part.is_written = True
            if part.next is None:
                self._is_over = True
            else:
                # Nobody who still has the part then keeps all those after it in memory.
                self._oldest, part.next = part.next, None
            self._changed.notify_all()

    def _break(self, number: int, fault: BaseException) -> None:
        """End the run: each further call on it raises the fault."""
        with self._lock:
            self._fault, self._is_over = self._fault or (number, fault), True
            part: Part | None = self._oldest
            while part is not None:
                for agent in part.agents.values():
                    agent.free()
                part.storage.free()
                part = part.next
            self._changed.notify_all()

    @one_call
    def close(self) -> None:
        """Return all agents, and wait until the last part is written."""
        with self._lock:
            self.is_closing = True
            self._changed.notify_all()
        self._writer.join()
        if self._fault is not None:
            raise BrokenError(*self._fault)


def _close_all() -> None:
    errors: list[BrokenError] = []
    for chain in list(_chains):
        try:
            chain.close()
        except BrokenError as broken:
            errors.append(broken)
    if errors:
        raise errors[0]


atexit.register(_close_all)
