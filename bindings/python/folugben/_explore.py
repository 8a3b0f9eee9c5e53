"""Search for a schedule that breaks an invariant.

The search is dynamic partial-order reduction by source sets, with sleep sets.

Two events of two agents depend on each other if one writes what the other reads or writes. Schedules in which dependent
events have the same order lead to the same answers and the same states, so only one of them is played. Where a schedule
has two dependent events in an order, the other order is tried too, unless it was or will be tried elsewhere.
"""
import time
from collections.abc import Callable, Iterator, Sequence
from contextlib import suppress
from heapq import heappop, heappush
from typing import TYPE_CHECKING, NamedTuple, TypeAlias

from ._errors import Error, PackageError
from ._footprint import Footprint, RecordingPlayer
from ._breaches import Breach, Event, Holds, Invariant, turns_for
from ._turns import EndlessError, Turns, interleave, play_all

if TYPE_CHECKING:
    from . import Agent, Storage

# After this many polls without a move an agent lets others run.
_VAIN = 4

Make: TypeAlias = "Callable[[], Storage]"
Program: TypeAlias = "Callable[[Agent], object]"


class DiffersError(PackageError, RuntimeError):
    """The programs did something else in the same schedule.

    For example, they draw at random, or share more than the storage.
    """


class Explored(NamedTuple):
    """The result of a search.

    Either all schedules hold (`is_exhaustive`), or the turns that break something are there, if not None. At a bound of the search
    at least `left` schedules weren't played: as many are known, and each of them may lead to more.

    `interleave` plays the turns again, and `journal` is the journal of that schedule; `broken` says what doesn't hold, and
    `error` is what a program has raised.
    """

    schedules: int
    is_exhaustive: bool
    turns: list[int] | None = None
    journal: bytes | None = None
    broken: str = ""
    error: BaseException | None = None
    left: int = 0

    def __repr__(self) -> str:
        return f"<Explored: {self}>"

    def __str__(self) -> str:
        if self.turns is not None:
            return f"{self.broken}, by the turns {self.turns}; {self.schedules:,} schedules were played"
        more = f"and at least {self.left:,} are left" if self.left else "and there are more"
        return f"{self.schedules:,} schedules hold, {'which are all' if self.is_exhaustive else more}"


class _Node(NamedTuple):
    """A state of the search, after some events."""

    # Agents whose next event, which has this footprint, is tried elsewhere in each schedule in which it comes first here.
    asleep: dict[int, Footprint]
    # For each agent: what it did here, the footprint of that, and the node after it, in the order in which they were chosen.
    after: "dict[int, tuple[tuple[bytes, Footprint], Footprint, _Node]]"
    # Which agents were chosen, or must be.
    chosen: set[int]

    def follow(self, player: RecordingPlayer, footprint: Footprint) -> "_Node":
        """Return the node after the last event of a player."""
        there, did = self.after.get(player.number), (player.key, player.now)
        if there is None:
            others = self.asleep | {it: own for it, (_, own, _) in self.after.items()}
            asleep = {it: own for it, own in others.items() if it != player.number and not own.meets(footprint)}
            there = self.after[player.number] = did, footprint, _Node(asleep, {}, set())
        elif there[0] != did:
            raise _differs(player.number)
        return there[2]


class _Tree:
    """What a search knows.

    What an event reads may depend on what it has read before. So its footprint has all reads of those events of its agent
    that had the same answers before. If that grows, the search begins again with it.
    """

    def __init__(self, footprints: dict[tuple[int, bytes], Footprint]) -> None:
        self.root, self.footprints, self.has_grown = _Node({}, {}, set()), footprints, False

    def footprint(self, player: RecordingPlayer) -> Footprint:
        """Return the footprint of the last event of a player."""
        key = player.number, player.key
        known = self.footprints.get(key)
        if known is None:
            self.footprints[key] = player.now
        else:
            self.footprints[key] = known.union(player.now)
            self.has_grown |= self.footprints[key] != known
        return self.footprints[key]


def _differs(agent: int) -> DiffersError:
    return DiffersError(f"agent {agent} did something else in the same schedule: the programs draw, or share more than the storage")


class _AllAsleep(Exception):
    """All agents are asleep: each further schedule is tried elsewhere."""


class _Play:
    """One schedule: a plan's agents run first, then the current one, unless asleep."""

    def __init__(self, make: Make, programs: Sequence[Program], tree: _Tree, plan: list[int], turns: int) -> None:
        self._plan, self._tree, self._node, self._started, self._last = plan[::-1], tree, tree.root, 0, -1
        self.events: list[Event] = []
        # The nodes before the events, and the turns of each agent before its first event.
        self._nodes, self.begins, self._is_open = [tree.root], [0] * len(programs), False
        # The numbers of events before which an agent must be tried, and that agent.
        self._reversals: list[tuple[int, int]] = []
        self._turns = Turns(len(programs), self._choose, turns)
        self.players = [RecordingPlayer(self._turns, number) for number in range(len(programs))]
        with make() as storage:
            agents = [storage.agent(number) for number in range(len(programs))]
            _, self.errors = play_all(self._turns, agents, programs, self.players)
            self.is_blocked = isinstance(self._turns.fault, _AllAsleep)
            if self._turns.fault is not None and not self.is_blocked:
                raise self._turns.fault
            self._end_event()
            for agent in agents:
                with suppress(Error):
                    agent.give()
            self.journal = storage.close_journal()

    def _choose(self, alive: list[int]) -> int:
        # At first each agent runs up to its first event.
        if self._started < len(self.players):
            self._started += 1
            return self._started - 1
        self._end_event()
        if self._plan:
            self._last = self._plan.pop()
            if self._last not in alive:
                raise _differs(self._last)
        else:
            awake = [it for it in alive if it not in self._node.asleep]
            if not awake:
                raise _AllAsleep
            self._last = self._usual(awake)
        self._node.chosen.add(self._last)
        self._is_open = True
        return self._last

    def _usual(self, awake: list[int]) -> int:
        """Return the current agent, or the next one if that has only polled for a while.

        An agent that only polls may wait for another one.
        """
        if self._last not in awake:
            return awake[0]
        is_waiting = len(self.events) >= _VAIN and all(it.agent == self._last and not it.is_move for it in self.events[-_VAIN:])
        others = awake[awake.index(self._last) + 1 :] + awake[: awake.index(self._last)]
        return others[0] if is_waiting and others else self._last

    def _end_event(self) -> None:
        """Record the event of the current agent, now complete, and the races that it ends."""
        if not self._is_open:
            if not self.events:
                self.begins = [it.calls for it in self.players]
            return
        agent, self._is_open = self._last, False
        player, now = self.players[agent], len(self.events)
        footprint = self._tree.footprint(player)
        before = next((it.before | 1 << at for at, it in reversed(list(enumerate(self.events))) if it.agent == agent), 0)
        races = list[int]()
        for at in range(now - 1, -1, -1):
            if not before >> at & 1 and footprint.meets(self.events[at].footprint):
                before |= self.events[at].before | 1 << at
                races.append(at)
        self.events.append(Event(agent, footprint, player.calls, player.is_move, before))
        self._node = self._node.follow(player, footprint)
        self._nodes.append(self._node)
        for at in races:
            self._reverse(at, now)

    def _reverse(self, at: int, now: int) -> None:
        """Schedule an event to be tried before another one, unless that is done.

        The events after it that don't depend on it are tried with it.
        """
        window = [it for it in range(at + 1, now + 1) if it == now or not self.events[it].before >> at & 1]
        bits, firsts = sum(1 << it for it in window), dict[int, int]()
        for it in window:
            firsts.setdefault(self.events[it].agent, it)
        initials = [agent for agent, it in firsts.items() if not self.events[it].before & bits]
        node = self._nodes[at]
        if not any(it in node.chosen or it in node.asleep for it in initials):
            node.chosen.add(initials[0])
            self._reversals.append((at, initials[0]))

    def plans(self) -> Iterator[tuple[int, list[int]]]:
        """Yield what to try: the number of turns before it, and the plan from there."""
        for at, agent in self._reversals:
            before = self.events[:at]
            yield sum(it.calls for it in before), [*(it.agent for it in before), agent]


def explore(
    make: Make, programs: Sequence[Program], invariant: Invariant | None = None, *, at_end: Invariant | None = None,
    schedules: int = 10_000, seconds: float = 20.0, turns: int = 10_000,
) -> Explored:
    """Search for a schedule of the programs that breaks the invariant, shortest first.

        explored = explore(lambda: Storage(INIT, 100), [collect] * 3, lambda values: sum(values.values()) == 300)
        assert explored.is_exhaustive, explored

    Each schedule plays on a new storage from `make`, and each program with the agent of its position. Of schedules that differ
    only in the order of calls that don't depend on each other, only one is played. The invariant receives the values of each
    state, by the location, as `states` yields them; `at_end` receives those of the last one. If one doesn't hold, it returns
    False or raises an AssertionError. A program that raises is a finding too.

    The programs must share nothing except the storage, and must do the same in the same schedule. They may name the number of
    a move in a fire, but must not compute with it.

    The search ends at the first finding, when it has tried all, or at a bound: after the given number of schedules or seconds.
    At a bound the result says how many schedules hold, and how many more are known.

    Raises:
        EndlessError: a schedule hasn't ended after the given number of turns, for example because agents wait for each other.
            An agent that polls again and again is made to wait for others, but then the number of schedules is infinite.
        DiffersError: the programs did something else in the same schedule.
    """
    end, holds, schedules_played, queued = time.monotonic() + seconds, Holds(invariant, at_end), 0, 0
    tree, is_exact = _Tree({}), True
    queue = [(0, 0, list[int]())]
    while queue and schedules_played < schedules and time.monotonic() < end:
        play = _Play(make, programs, tree, heappop(queue)[2], turns)
        schedules_played += 1
        is_exact = is_exact and all(it.is_exact for it in play.players)
        for length, plan in play.plans():
            queued += 1
            heappush(queue, (length, queued, plan))
        breach = None if play.is_blocked else holds.breach(play.events, play.errors, play.journal)
        if breach is not None:
            turns_of, journal = _replay_finding(make, programs, breach, play, turns)
            if breach.error is None and not holds.is_broken(journal):
                raise DiffersError(f"{breach.broken}, but not when it was played again by the turns {turns_of}")
            return Explored(schedules_played, False, turns_of, journal, breach.broken, breach.error)
        if not queue and tree.has_grown:
            tree, queue = _Tree(tree.footprints), [(0, 0, [])]
    return Explored(schedules_played, is_exact and not queue, left=len(queue))


def _replay_finding(make: Make, programs: Sequence[Program], breach: Breach, play: _Play, most: int) -> tuple[list[int], bytes]:
    """Return the turns of a finding, and the journal of that schedule.

    The turns are those up to the finding, if all programs end after it.
    """
    others = [event for event in play.events if event not in breach.events]
    for events in breach.events, breach.events + others:
        turns, is_ended = turns_for(events, play.events, play.begins), True
        with make() as storage:
            agents = [storage.agent(number) for number in range(len(programs))]
            try:
                interleave(agents, programs, turns, most=most)
            except EndlessError:
                is_ended = False
            except Exception:
                pass  # which may be the finding
            for agent in agents:
                with suppress(Error):
                    agent.give()
            journal = storage.close_journal()
        if is_ended:
            break
    return turns, journal
