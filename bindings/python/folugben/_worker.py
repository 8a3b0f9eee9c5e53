"""The part of a process in a shared run: it appends its agents' calls to the log.

It also applies the log to its replica.

One thread leads at a time, for one turn: it appends all waiting calls, in one transaction, and then applies the content of
the log. An agent that finds no leader leads its own turn, and so passes nothing to another thread. Calls that come meanwhile
wait; at the end of a turn one of the waiting threads leads the next one. The worker, a thread of its own, leads if nobody
else does. It polls for calls of other processes, and leads for agents on the main thread, on which a signal handler may
raise during a turn.
"""
import atexit
import itertools
import secrets
import threading
import time
import weakref
from collections.abc import Callable, Iterable, Iterator
from typing import TypeVar

from ._core import Agent
from ._errors import BrokenError, Error, UnknownError
from ._faults import ConnectionLost, database_errors
from ._files import shown
from ._guards import LockHolder, NestedError
from ._library import Code
from ._log import BATCH, READ, Behind, Call, Log, PlacedCall
from ._replica import Answer, EndedSegment, Era, Replica
from ._waiter import Waiter

_R = TypeVar("_R")

# How often it polls for calls of other processes.
_PAUSE = 0.01
# How long a leader waits for a further call: a quarter of a transaction's time, within this minimum and maximum.
_LEAST_MOMENT, _MOMENT = 0.0001, 0.002
# How long it tries to reach a server again.
_PATIENCE = 60.0
_workers: "weakref.WeakSet[Worker]" = weakref.WeakSet()


class Worker(LockHolder):
    """Appends and applies.

    An answer is returned once its call is durable in the log, and applied.
    """

    def __init__(self, log: Log) -> None:
        self._log = log
        try:
            with database_errors(log.target):
                self.replica = Replica(log)
        except BaseException:
            log.close()
            raise
        lock = threading.RLock()
        self._changed = threading.Condition(lock)
        self._set_lock(lock)
        # Who leads: a waiter, or the worker; whether the leader waits for further calls; and the thread that is in a turn.
        self._leader: Waiter | Worker | None = None
        self._is_gathering, self._leading = False, 0
        # The lock under which one thread at a time uses the connection.
        self._using = threading.RLock()
        # Tokens that rise by one make the database write fewer pages than random ones.
        self._prefix, self._count = secrets.token_bytes(10), itertools.count()
        # Calls to append; those that may be in the log, by their tokens.
        self._waiting: list[Waiter] = []
        self._sent_calls: dict[bytes, Waiter] = {}
        # How many calls are expected to come at once, and how long it waits for them.
        self._expected, self._moment = 1, 0.0
        # How often the complete log was asked for, and applied; and when that was last polled.
        self._requests = self._requests_done = 0
        self._polled_at = 0.0
        # The numbers of this process's agents.
        self._agent_numbers: set[int] = set()
        self._fault: BaseException | None = None
        self._is_closing = self._is_over = False
        self._thread = threading.Thread(target=self._work, name=f"worker of {shown(log.target)}", daemon=True)
        self._thread.start()
        _workers.add(self)

    def _enter_child(self) -> None:
        super()._enter_child()
        self._log.database.leave()

    def expect_active(self) -> None:
        """Check that the run is active."""
        if self._fault is not None:
            raise BrokenError(self.replica.era.number, self._fault)
        if self._is_closing:
            raise Error(Code.EMPTY, detail="the run was closed")

    # Calls of agents.

    def answer(self, segment: int, agent: int, call: bytes, scans: bytes) -> Answer | None:
        """Append a call, and return its answer; None if its segment had ended."""
        token, me = self._prefix + next(self._count).to_bytes(6, "big"), threading.get_ident()
        waiter = Waiter(Call(token, segment, agent, call.decode(), scans.decode()), me != threading.main_thread().ident)
        self._expect_no_turn()
        with self._lock:
            self.expect_active()
            self._waiting.append(waiter)
            # The last to come leads, so nobody has to be woken for that.
            if self._leader is None or self._is_gathering and self._is_due():
                if waiter.may_lead:
                    self._leader, self._is_gathering = waiter, not self._is_due()
                else:
                    self._changed.notify_all()
        try:
            while not waiter.is_over:
                self._lead(waiter) if self._leader is waiter else waiter.wait()
        finally:
            if self._leader is waiter:
                self._hand_over()
        return waiter.result()

    def _expect_no_turn(self) -> None:
        """Check that this thread isn't in a turn, as a finalizer during a turn would be."""
        if self._leading == threading.get_ident():
            raise NestedError("this thread is in another call, which a finalizer has interrupted")

    def follow(self) -> None:
        """Wait until all is applied that is in the log now."""
        self._expect_no_turn()
        with self._lock:
            self.expect_active()
            self._requests += 1
            request = self._requests
            self._changed.notify_all()
            while self._requests_done < request:
                self.expect_active()
                self._changed.wait()

    def enter(self) -> tuple[Era, Agent]:
        """Return an agent of the newest segment, to begin steps with."""
        with self._lock:
            era = self.replica.era
            return era, era.agent()

    def leave(self, era: Era, agent: Agent) -> None:
        """Take an agent back."""
        with self._lock:
            era.leave(agent)

    def state_text(self) -> tuple[int, bytes]:
        """Return the number of applied moves, and the text of the state after them."""
        with self._lock:
            return self.replica.state_text()

    def hold(self, agent: int) -> bool:
        """Reserve an agent's number, unless another process has it."""
        self._expect_no_turn()
        with self._using:
            is_held = self._reaching(lambda: self._log.database.hold(agent))
            if is_held:
                self._agent_numbers.add(agent)
            return is_held

    def release(self, agent: int) -> None:
        """Release the number for others."""
        self._expect_no_turn()
        with self._using:
            self._agent_numbers.discard(agent)
            if not self._is_over:
                self._reaching(lambda: self._log.database.release(agent))

    def close(self) -> None:
        """End it, once all waiting calls are answered."""
        with self._lock:
            self._is_closing = True
            self._changed.notify_all()
        self._thread.join()
        if self._fault is not None:
            raise BrokenError(self.replica.era.number, self._fault)

    # Calls of the worker.

    def _work(self) -> None:
        try:
            while self._is_to_lead():
                self._lead(self)
        finally:
            self._end()

    def _is_to_lead(self) -> bool:
        """Wait until nobody leads and there is work. Return whether the run is active."""
        with self._changed:
            while self._fault is None:
                if self._leader is None and self._is_closing and not self._waiting and not self._sent_calls:
                    return False
                is_due = self._waiting or self._requests != self._requests_done or time.monotonic() >= self._polled_at + _PAUSE
                if self._leader is None and is_due:
                    self._leader, self._is_gathering = self, bool(self._waiting)
                    return True
                self._changed.wait(_PAUSE)
        return False

    # Calls of a leader.

    def _lead(self, leader: "Waiter | Worker") -> None:
        """Do one turn, and appoint another leader, unless another one has taken over."""
        if not self._gathers(leader):
            return
        self._leading = threading.get_ident()
        try:
            self._turn()
        except BaseException as error:
            self._fault = error
        finally:
            self._leading = 0
            self._hand_over()

    def _hand_over(self) -> None:
        """Appoint a waiting thread as the leader, or the worker."""
        with self._lock:
            following = None
            if self._waiting and self._fault is None:
                following = next((it for it in self._waiting if it.may_lead), None)
            self._leader, self._is_gathering = following, following is not None
            if following is not None:
                following.wake()
            elif self._waiting or self._is_closing or self._fault is not None or self._requests != self._requests_done:
                self._changed.notify_all()

    def _gathers(self, leader: "Waiter | Worker") -> bool:
        """Wait for the expected calls: as long as calls come, further ones may.

        Return whether it still leads. While it waits another one may take over, but not after this has returned.
        """
        came, end = -1, time.monotonic() + 4 * self._moment
        while True:
            with self._lock:
                if self._leader is not leader:
                    return False
                if not self._is_gathering or self._is_due() or came == len(self._waiting) or time.monotonic() >= end:
                    self._is_gathering = False
                    return True
                came = len(self._waiting)
            leader.wait(self._moment)

    def wait(self, seconds: float) -> None:
        """Wait until something has changed."""
        with self._changed:
            self._changed.wait(seconds)

    def _is_due(self) -> bool:
        return len(self._waiting) >= self._expected or self._is_closing or self._requests != self._requests_done

    def _turn(self) -> None:
        start = time.monotonic()
        with self._lock:
            batch, self._waiting = self._waiting[:BATCH], self._waiting[BATCH:]
            request = self._requests
            for waiter in batch:
                self._sent_calls[waiter.call.token] = waiter
        try:
            placed_calls = self._exchange(batch)
        except Behind:
            self._rejoin()
            return
        self._moment = max(_LEAST_MOMENT, min(_MOMENT, (time.monotonic() - start) / 4))
        answers: list[tuple[Waiter, Answer | None]] = []
        try:
            self._apply(placed_calls, answers)
        finally:
            # Agents that are answered now may call again soon, in addition to those that wait by now.
            self._expected = max(1, min(BATCH, len(answers) + len(self._waiting)))
            # Agents are woken when all is done, as they would only slow that down.
            for waiter, answer in answers:
                waiter.end(answer)
        if len(placed_calls) < READ:
            self._polled_at = time.monotonic()
            if request != self._requests_done:
                with self._changed:
                    self._requests_done = request
                    self._changed.notify_all()

    def _apply(self, placed_calls: list[PlacedCall], answers: list[tuple[Waiter, Answer | None]]) -> None:
        """Apply calls to the replica, and record the answers to those of this process."""
        remaining = iter(placed_calls)
        while (ended := self._apply_some(remaining, answers)) is not None:
            self._save(ended)

    def _apply_some(self, placed_calls: Iterator[PlacedCall], answers: list[tuple[Waiter, Answer | None]]) -> EndedSegment | None:
        """Apply calls until one ends a segment."""
        sent = self._sent_calls
        with self._lock:
            for place, call in placed_calls:
                waiter = sent.get(call.token)
                answer, ended = self.replica.apply(place, call, waiter is not None)
                if waiter is not None:
                    del sent[call.token]
                    answers.append((waiter, answer))
                if ended is not None:
                    return ended
        return None

    def _exchange(self, batch: list[Waiter]) -> list[PlacedCall]:
        with self._using:
            while True:
                try:
                    placed_calls = self._log.exchange([waiter.call for waiter in batch], self.replica.applied)
                except ConnectionLost as error:
                    _mark_sent(batch)
                    self._reconnect(error)
                    # Those that are in the log stay there once.
                    batch = list(self._sent_calls.values())
                else:
                    _mark_sent(batch)
                    return placed_calls

    def _save(self, ended: EndedSegment) -> None:
        with self._using:
            self._reaching(lambda: self._log.save(*ended))

    def _reaching(self, work: Callable[[], _R]) -> _R:
        """Run a repeatable action, over a new connection if one is lost."""
        while True:
            try:
                return work()
            except ConnectionLost as error:
                self._reconnect(error)

    def _reconnect(self, error: Exception) -> None:
        """Connect again, and reserve the numbers of the agents again."""
        pause, end = 0.01, time.monotonic() + _PATIENCE
        while True:
            try:
                self._log.reconnect()
                if self._agent_numbers and not self._log.database.hold(*self._agent_numbers):
                    raise Error(Code.EMPTY, detail="another process has taken an agent's number while the server was away")
                return
            except (ConnectionError, ConnectionLost):
                if time.monotonic() > end:
                    raise error from None
                time.sleep(pause)
                pause = min(1.0, 2 * pause)

    def _rejoin(self) -> None:
        """Continue from the last segment, as calls before it were dropped from the log."""
        with self._using:
            replica = self._reaching(lambda: Replica(self._log))
        with self._changed:
            self.replica = replica
        # What was sent just now is after that. Of what was sent before, the answer may have been dropped with the call.
        for waiter in list(self._sent_calls.values()):
            if waiter.is_sent:
                del self._sent_calls[waiter.call.token]
                waiter.end(None, UnknownError())
        _mark_sent(self._sent_calls.values())

    def _end(self) -> None:
        with self._changed:
            self._is_over = True
            fault = self._fault
            for waiter in [*self._waiting, *self._sent_calls.values()]:
                waiter.end(None, BrokenError(self.replica.era.number, fault) if fault else Error(Code.EMPTY, detail="the run was closed"))
            self._waiting, self._sent_calls = [], {}
            self._changed.notify_all()
        with self._using:
            self._log.close()
        _workers.discard(self)


def _mark_sent(waiters: Iterable[Waiter]) -> None:
    for waiter in waiters:
        waiter.is_sent = True


def _close_all() -> None:
    for worker in list(_workers):
        worker.close()


atexit.register(_close_all)
