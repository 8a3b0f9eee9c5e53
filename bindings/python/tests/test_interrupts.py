"""Tests of calls that signal handlers and finalizers make during other calls.

python3 test.py runs them too.
"""
import contextlib
import gc
import signal
import time
import unittest
from collections.abc import Callable

from folugben import Error, FullError, Location, Move, Storage
from threads import in_threads


class Alarm(Exception):
    """The exception of a handler."""


class Interrupts(unittest.TestCase):
    """Signal handlers and finalizers run between two steps of a call."""

    def setUp(self):
        self.storage = Storage([[["own"], 1], [["other"], 2]])
        self.agent = self.storage.agent(0)
        self.addCleanup(self.storage.free)
        self.addCleanup(self.agent.free)

    def interrupt(self, handler: Callable[[], object], work: Callable[[], bool]) -> None:
        """Repeat the work until it is done, while a timer calls the handler repeatedly."""
        was = signal.signal(signal.SIGALRM, lambda *_: handler())
        self.addCleanup(signal.signal, signal.SIGALRM, was)
        self.addCleanup(signal.setitimer, signal.ITIMER_REAL, 0)
        end = time.monotonic() + 60
        signal.setitimer(signal.ITIMER_REAL, 0.0005, 0.0002)
        while not work():
            self.assertLess(time.monotonic(), end)
        signal.setitimer(signal.ITIMER_REAL, 0)

    def assert_fit(self):
        """Check that no lock is held and no thread counted as in a call."""
        self.assertEqual(in_threads(lambda _: self.agent.read([["own"]]), 1), ([], True))
        self.assertEqual(self.agent.read([["own"]]), (0, [1]))

    def test_a_handler_takes_no_answer_of_the_call_that_it_interrupts(self):
        answered = []

        def handler():
            answered.append(self.agent.read([["other"]]))

        def work():
            self.assertEqual(self.agent.read([["own"]]), (0, [1]))
            return len(answered) > 100

        self.interrupt(handler, work)
        self.assertEqual(answered, [(0, [2])] * len(answered))
        self.assert_fit()

    def test_a_handler_that_raises_leaves_all_fit_for_use(self):
        ready, raised = False, 0

        def handler():
            nonlocal ready
            if ready:
                ready = False
                raise Alarm

        def work():
            nonlocal ready, raised
            try:
                ready = True
                self.assertEqual(self.agent.read([["own"]]), (0, [1]))
                self.agent.learn(other)
                ready = False
            except Alarm:
                raised += 1
            return raised > 300

        other = self.storage.agent(1)
        self.interrupt(handler, work)
        self.assert_fit()
        self.assertEqual(in_threads(lambda _: other.learn(self.agent), 1), ([], True))

    def test_a_handler_that_raises_amid_a_step_leaves_all_fit_for_use(self):
        ready, raised, full = False, 0, 0

        def handler():
            nonlocal ready
            if ready:
                ready = False
                raise Alarm

        def step(own):
            with agent.step() as step:
                step.push(move.clear().put(at, step.get(at)).put(at, agent.peek(at)[1]))
                try:
                    step.try_commit()
                except FullError:
                    return 1
            return 0

        def work():
            nonlocal ready, raised, full
            try:
                ready = True
                full += step(0)
                ready = False
            except Alarm:
                raised += 1
            return raised > 300 and full > 0

        storage, at, move = Storage([[["own"], 1]], 1), Location(["own"]), Move()
        agent = storage.agent(0)
        self.interrupt(handler, work)
        self.assertEqual(in_threads(step, 1), ([], True))
        self.assertEqual((step(0), len(move), agent.seen), (1, 2, 1))
        self.assert_fit()

    def test_a_handler_takes_no_value_of_the_call_that_it_interrupts(self):
        answered = []
        own, other, step, move = Location(["own"]), Location(["other"]), self.agent.step(), Move()

        def handler():
            for call in (lambda: step.get(other), lambda: self.agent.peek(other)[1], lambda: len(move.clear().put(other, 3))):
                answered.append(call())

        def work():
            self.assertEqual(step.get(own), 1)
            self.assertEqual(self.agent.peek(own), (0, 1))
            return len(answered) > 300

        self.interrupt(handler, work)
        self.assertLessEqual(set(answered), {1, 2})
        self.assert_fit()

    def test_finalizers_and_handlers_call_anything_at_any_moment(self):
        """Garbage is collected amid all calls.

        What it calls is done before or after the call that it interrupts.
        """
        own, other, rival, done = Location(["own"]), Location(["other"]), self.storage.agent(1), [0, 0]
        is_handling = False

        class Garbage:
            def __init__(self, step):
                self.me, self.step = self, step

            def __del__(self):
                with contextlib.suppress(Error):  # as the step may be over by then
                    self.step.get(own), self.step.push([["inc", ["own"], 1]]), self.step.pop()
                number = 2 + done[0] % 250
                (storage.take if done[0] >= 250 else storage.agent)(number).give()
                done[0] += 1

        def handler():
            nonlocal is_handling  # a slow handler is interrupted by itself, and would share its step and its move
            if not is_handling:
                is_handling = True
                rival.play(lambda step: step.push(mine.clear().inc(other, 1)))
                done[1] += 1
                is_handling = False

        def work():
            with self.agent.step() as step:
                Garbage(step)
                step.push(move.clear().put(y, {"list": [1, {"list": [2]}]}).put(own, step.get(own) + 1))
                step.get([["own"], ["other"]])
                step.push([["put", ["x"], ["a"][0]]])
                return step.try_commit() and done[0] > 500 and done[1] > 50

        storage, move, mine, y = self.storage, Move(), Move(), Location(["y"])
        self.addCleanup(gc.set_threshold, *gc.get_threshold())
        gc.set_threshold(1)
        self.interrupt(handler, work)
        gc.collect()
        values = self.agent.follow() and self.agent.peek([["own"], ["other"]])[1]
        self.assertEqual(values, [1 + self.agent.won, 2 + rival.won])


if __name__ == "__main__":
    unittest.main()
