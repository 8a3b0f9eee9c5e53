"""Work of the C part's tests in separate processes.

usage: python3 core_work.py leaks|refusals|stress
"""
import contextlib
import ctypes
import gc
import itertools
import os
import random
import signal
import sys
import threading
import time
import warnings
from collections import Counter
from collections.abc import Callable

import folugben
from core_runs import work_on_segments
from folugben import Auditor, Error, Location, Move, Storage, check

_SIZES = "arena ordblks smblks hblks hblkhd usmblks fsmblks uordblks fordblks keepcost"


class _Memory(ctypes.Structure):
    _fields_ = [(name, ctypes.c_size_t) for name in _SIZES.split()]


def used_bytes() -> int:
    """Return the number of bytes that malloc has handed out."""
    call = ctypes.CDLL(None).mallinfo2
    call.restype = _Memory
    usage = call()
    return usage.uordblks + usage.hblkhd


async def waits(step: folugben.Step) -> None:
    step.put("x", 1)


def _journal() -> bytes:
    with Storage({"s": {1}, "b": Counter("a"), "l": (1, (2,))}) as storage:
        with storage.agent(0) as agent:
            agent.fire([("add", "s", 2), ("bagadd", "b", "c", 1), ("put", "l", None)])
        return storage.close_journal()


JOURNAL = _journal()


class World:
    """A storage with agents, and what steps are made of."""

    def __init__(self, capacity: int = 100, record: bool = False) -> None:
        init = [[["x", k], 0] for k in range(8)] + [[["t"], "text"], [["s"], {"set": [1, 2]}], [["b"], Counter("aab")]]
        self.storage = Storage(init, capacity, record=record)
        self.agent, self.other = self.storage.agent(0), self.storage.agent(1)
        self.at, self.text, self.set, self.move = Location(["x", 3]), Location(["t"]), Location(["s"]), Move()
        self.freed = Location(["x", 9])
        self.freed.free()

    def step(self, rule: Callable[[folugben.Step], object]) -> None:
        with self.agent.step() as step:
            rule(step)

    def fire(self, step: folugben.Step) -> None:
        step.push(self.move.clear().put(self.at, step.get(self.at) + 1))
        step.commit()

    def be_stale(self, step: folugben.Step) -> None:
        step.get(self.at)
        self.other.play(lambda it: it.push(Move().put(self.at, 7)))
        step.push(self.move.clear().put(self.at, 8))
        expect_refusal(step.commit)
        step.try_commit()

    def write(self, step: folugben.Step) -> None:
        for at, value in [("w", 1), (("w", 2), {1, "a" * 40}), (["w", 3], Counter("ab")), (self.at, (1, ("a",))), (("w", 4), {(1,)})]:
            step.put(at, value)
            step[at]
        step.inc("w", 1), step.add(("w", 2), "b"), step.remove(("w", 2), 1), step.bag_add(("w", 3), "c", 2), step.bag_remove(("w", 3), "c")
        step["w", 2], step["w", 3], step.scan("w"), step.offer(), step.get([("w", 2), ("w", 3)])
        expect_refusal(lambda: step["1"]), expect_refusal(lambda: step.put("1", 1)), expect_refusal(lambda: step.put("w", [1])), expect_refusal(lambda: step.inc("w", "a"))
        expect_refusal(lambda: step.add("w", 1)), expect_refusal(lambda: step.bag_add("w", 1, 0)), expect_refusal(lambda: step.put("w")), expect_refusal(lambda: step.scan("1"))

    def play_by_turns(self) -> None:
        with Storage({("x", 3): 0}, 9) as storage:
            agents = [storage.agent(own) for own in range(3)]
            for agent in agents * 2:
                agent.play(lambda it: it.inc(self.at, 1))
                agents[0].peek(self.at), agents[1].state(), agents[2].scan("x")

    def unite(self) -> None:
        one, two = Move().put("a", 1), Move().put(self.at, {1})
        one.unite(two).unite(Move())
        one |= two
        both = one | two
        expect_refusal(lambda: both.unite(both)), expect_refusal(lambda: both | 1), expect_refusal(lambda: both.unite([]))
        with self.agent.step() as step:
            step.push(both), step.extend(both | step.pop_move()), step.pop()

    def open(self) -> None:
        with Storage([[["x"], 0]], 10) as storage:
            one = storage.agent(0)
            one.step().push([["put", ["x"], 1]])
            with storage.agent(1), storage.agent(2) as it:
                it.fire([["put", ["x"], 1]])
            one.fire([["put", ["x"], 2]])
            expect_refusal(storage.close_journal)
            one.give()
            journal = storage.close_journal()
            with storage.next(10) as following, Auditor() as auditor:
                auditor.feed(journal)
                auditor.end(), auditor.state(), following.moves(), check(journal), list(folugben.trace(journal))

    def calls(self) -> dict[str, Callable[[], object]]:
        """Yield each method, also for calls that are refused."""
        agent, at, move, step, wrong = self.agent, self.at, self.move, self.step, (1.5, 2**70, "\ud800", object(), {"a": 1}, [1])
        return {
            "begin": lambda: agent.step(), "fire": lambda: step(self.fire), "stale": lambda: step(self.be_stale),
            "get": lambda: step(lambda it: (it.get(at), it.get(self.text), it.get(self.set), it.see(at), it.scan("x"))),
            "texts": lambda: step(lambda it: (it.get([["x", 3], ["t"], ["s"], ["b"]]), it.see([["t"]]), it.offer())),
            "push": lambda: step(lambda it: (it.push([["put", ["x", 1], "t" * 600]]), it.extend([["put", ["x", 2], {1, 2}]]))),
            "pop": lambda: step(lambda it: (it.push([["inc", ["x", 1], 1]]), it.pop_move(), it.push([]), it.pop(), expect_refusal(it.pop))),
            "clash": lambda: step(lambda it: expect_refusal(lambda: it.push([["put", ["x", 1], 1], ["put", ["x", 1], 2]]))),
            "wrong texts": lambda: [expect_refusal(lambda: agent.fire([["put", ["x", 1], it]])) for it in wrong],
            "wrong shapes": lambda: [expect_refusal(lambda: it(["x"])) for it in (agent.peek, agent.read, agent.step().get, agent.stands)],
            "play": lambda: agent.play(lambda it: it.push(move.clear().put(at, 1))),
            "play that raises": lambda: expect_refusal(lambda: agent.play(lambda it: it.get(1.5j))),
            "writes": lambda: step(self.write), "unite": self.unite,
            "idle plays": lambda: (self.other.play(lambda it: None), agent.play(lambda it: it[at], tries=2, timeout=9.0)),
            "plays by turns": self.play_by_turns,
            "wrong rules": lambda: [expect_refusal(lambda: agent.play(waits)), expect_refusal(lambda: agent.play(waits, tries=2))],
            "own values": lambda: (folugben.replay(JOURNAL), list(folugben.states(JOURNAL)), folugben._core.to_python(b'{"set":[true,1]}')),
            "peek": lambda: (agent.peek(at), agent.peek([["x", 1], ["t"]]), agent.state(), agent.scan("x"), agent.follow()),
            "read": lambda: (agent.read([["x", 1]]), agent.answer(), agent.stands([[["x", 1], agent.seen]]), agent.learn(self.other)),
            "agent's fire": lambda: agent.fire([["put", ["x", 1], ["a"][0]]], [[["x", 2], agent.seen]], [("t", agent.seen)]),
            "stale fire": lambda: (self.other.fire([["put", ["x", 1], 1]]), expect_refusal(lambda: agent.fire([], [[["x", 1], 0]]))),
            "move": lambda: Move().put(at, 1).put(at, None).put(at, True).put(at, "t").put(at, {1}).inc(at, -1).bag_add(at, 1, 2),
            "location": lambda: (Location(["x", 1]).place, repr(at), repr(move)), "no location": lambda: expect_refusal(lambda: Location(1)),
            "wrong values": lambda: [expect_refusal(lambda: move.put(at, it)) for it in wrong],
            "wrong words": lambda: [expect_refusal(it) for it in (lambda: move.put(at), lambda: move.put(1, 2), lambda: move.bag_add(at, 1, -1))],
            "freed": lambda: [expect_refusal(it) for it in (lambda: step(lambda it: it.get(self.freed)), lambda: move.put(self.freed, 1))],
            "over": lambda: expect_refusal(lambda: [it.free() or it.get(at) for it in [agent.step()]]), "open": self.open, "segments": lambda: work_on_segments(expect_refusal),
            "no agent": lambda: [expect_refusal(lambda: self.storage.agent(it)) for it in (0, 2**40, -1, "a")],
            "reprs": lambda: (repr(agent), repr(self.storage), repr(agent.step()), agent.seen, agent.won, self.storage.moves()),
            "close": lambda: (agent.fire([]), expect_refusal(self.storage.close_journal)), "copy": lambda: expect_refusal(agent.__reduce__),
            "forgotten": lambda: step(lambda it: it.push(move.clear().put(at, 1))),
            "functions": lambda: (folugben.aggregate([], [["put", ["x"], 1]]), folugben.compose([], []), folugben.explain(0, "[")),
        }


def expect_refusal(call: Callable[[], object]) -> None:
    try:
        call()
    except (Error, TypeError, ValueError, MemoryError):
        return
    raise AssertionError("nothing was refused")


# The calls that commit; they are made on a storage that records too.
COMMITS = {"fire", "stale", "play", "idle plays", "writes", "unite"}


def leaks(times: int = 1000) -> None:
    warnings.simplefilter("ignore")
    plain, records, left = World(100_000), World(100_000, record=True), {}
    calls = [*plain.calls().items(), *((name, call) for name, call in records.calls().items() if name in COMMITS)]
    for name, call in calls:
        # Calls that leave receipts or moves retain memory, which belongs to the storage.
        keeps = {"fire", "stale", "play", "read", "agent's fire", "stale fire", "close"}
        for _ in range(20):
            call()
        gc.collect()
        before = used_bytes()
        for _ in range(times):
            call()
        gc.collect()
        grown = used_bytes() - before
        # The smallest leak of a call is a chunk of malloc, of 32 bytes; the rest is what the heap itself needs.
        if grown > (2_000 if name in keeps else 24) * times:
            left[name] = grown
    assert not left, left


def refusals() -> None:
    """Refuse each allocation of each call in turn.

    The call raises MemoryError, or is done, and can be repeated.
    """
    library = ctypes.PyDLL(folugben._core.__file__)
    library.shim_left.restype = ctypes.c_long
    warnings.simplefilter("ignore")
    count = 0
    for name, record in [(name, False) for name in World().calls()] + [(name, True) for name in sorted(COMMITS)]:
        for number in itertools.count(1):
            world = World(record=record)
            call = world.calls()[name]
            library.shim_refuse(ctypes.c_long(number))
            try:
                with contextlib.suppress(MemoryError):
                    call()
            finally:
                left = library.shim_left()
                library.shim_refuse(ctypes.c_long(0))
            call()
            world.agent.give(), world.other.give()
            check(world.storage.close_journal())
            if left > 0:
                break
            count += 1
    assert count > 100, count
    print(count, "allocations refused")


def _threads(seconds: float) -> None:
    """Run threads on the same agents, steps, locations, moves and storages.

    Some of them are in long calls.
    """
    storage, at, move = Storage([[["n"], 0], *([["y", k], "y" * 50] for k in range(2000))], 200_000), Location(["n"]), Move()
    agents = [storage.agent(k) for k in range(3)]
    steps, errors, end = [agents[0].step()], [], time.monotonic() + seconds

    def shared() -> None:
        try:
            steps[0].get(at), steps[0].push(move), steps[0].get([["n"]]), move.inc(at, 1) if len(move) < 9 else move.clear()
            steps[0].try_commit()
        except Error:
            steps[0] = agents[0].step()

    def closes() -> None:
        with contextlib.suppress(Error):
            storage.close_journal()

    def dies() -> None:
        other = Storage([], 3)
        one = other.agent(0)
        del one
        other.close_journal()

    works = [
        closes, shared, shared, dies, lambda: (agents[0].state(), agents[1].state(), agents[0].follow(), repr(steps[0])),
        lambda: agents[2].play(lambda it: it.push(Move().inc(at, 1))), lambda: (agents[1].learn(agents[2]), agents[2].learn(agents[1])),
    ]

    def work(call: Callable[[], object]) -> None:
        try:
            while time.monotonic() < end:
                call()
        except BaseException as error:
            errors.append(repr(error))

    threads = [threading.Thread(target=work, args=(call,)) for call in works]
    for thread in threads:
        thread.start()
    for thread in threads:
        thread.join(seconds + 60)
    assert not errors and not any(thread.is_alive() for thread in threads), errors


class Alarm(Exception):
    pass


def _signals(seconds: float) -> None:
    """Run a handler that calls in and raises, while steps run.

    Each count is right after that.
    """
    signal.signal(signal.SIGINT, signal.default_int_handler)
    storage, n, m, move, mine = Storage([[["n"], 0], [["m"], 0], [["q"], 0]], 200_000), Location(["n"]), Location(["m"]), Move(), Move()
    agent, other = storage.agent(0), storage.agent(1)
    current: list[folugben.Step | None] = [None]
    counts, is_ready, is_inside = [0, 0], False, False

    def handler(*_: object) -> None:
        nonlocal is_ready, is_inside
        if is_inside:
            return
        is_inside = True
        try:
            if (step := current[0]) is not None and not step.fired and step.depth < 60:
                with contextlib.suppress(Error):  # as its agent may have moved on
                    step.get(m), step.push([["inc", ["q"], 1]]), step.get([["n"], ["q"]])
            other.play(lambda it: it.push(mine.clear().inc(m, 1)))
            counts[0] += 1
        finally:
            is_inside = False
        if is_ready and random.random() < 0.5:
            is_ready = False
            raise Alarm

    signal.signal(signal.SIGALRM, handler)
    signal.setitimer(signal.ITIMER_REAL, 0.0003, 0.0003)
    end = time.monotonic() + seconds
    while time.monotonic() < end:
        step = None
        try:
            is_ready = True
            step = current[0] = agent.step()
            for _ in range(5):
                move.inc(n, 1)
            step.push(move)
            step.get([["n"]])
            step.commit()
        except (Alarm, Error):
            pass
        is_ready = False
        counts[1] += len(move) if step is not None and step.fired else 0
        move.clear()
        current[0] = None
    signal.setitimer(signal.ITIMER_REAL, 0)
    assert agent.step().get([["n"], ["m"]]) == [counts[1], counts[0]]


def _forks() -> None:
    """Test a child of a fork amid calls of other threads.

    It is refused what its parent made, and makes its own.
    """
    storage, stop = Storage([[["n"], 0], *([["y", k], "y" * 50] for k in range(2000))], 200_000), threading.Event()
    agents = [storage.agent(k) for k in range(2)]

    def work() -> None:
        while not stop.is_set():
            agents[0].state()

    thread = threading.Thread(target=work)
    thread.start()
    for _ in range(20):
        child = os.fork()
        if child == 0:
            status = 1
            try:
                for call in (agents[0].state, agents[1].step, storage.close_journal, agents[0].give, lambda: agents[0].seen):
                    with contextlib.suppress(folugben.ForkedError):
                        call()
                        os._exit(2)
                with Storage([[["n"], 0]], 10) as own, own.agent(0) as agent:
                    agent.play(lambda it: it.push([["put", ["n"], 1]]))
                    status = own.moves() - 1
            finally:
                os._exit(status)
        assert os.waitpid(child, 0)[1] == 0
    stop.set()
    thread.join()


def _raise_both(rounds: int = 500) -> None:
    """Two agents increment a number by turns; the journal is legal."""
    with Storage({"n": 0}, 2 * rounds) as storage:
        with storage.agent(0) as one, storage.agent(1) as other:
            for agent in (one, other) * rounds:
                agent.play(lambda step: step.inc("n", 1))
        assert folugben.check(storage.close_journal())[1] == 2 * rounds


def interpreters() -> None:
    """Run three interpreters at once, each on a thread, and this one."""
    import _xxsubinterpreters as others
    code = f"import sys; sys.path[:0] = {sys.path!r}\nimport core_work; core_work._raise_both()"
    made, raised = [others.create() for _ in range(3)], []

    def run(own: object) -> None:
        try:
            others.run_string(own, code)
        except Exception as error:
            raised.append(error)

    threads = [threading.Thread(target=run, args=(own,)) for own in made]
    for thread in threads:
        thread.start()
    _raise_both()
    for thread in threads:
        thread.join()
    assert not raised, raised
    for own in made:
        others.destroy(own)


def stress(seconds: float = 1.5) -> None:
    sys.setswitchinterval(1e-5)
    _threads(seconds)
    _signals(seconds)
    _forks()


if __name__ == "__main__":
    {"interpreters": interpreters, "leaks": leaks, "refusals": refusals, "stress": stress}[sys.argv[1]]()
