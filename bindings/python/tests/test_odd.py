"""Tests of odd use: nothing is lost or mixed up, and refusals are explained.

python3 test.py runs them too.
"""
import signal
import time
import unittest
from collections import Counter
from collections.abc import Callable
from types import FrameType

import folugben
from folugben import Error, Location, Move, Storage, check, explain, replay, states, trace


class Short(bytes):
    """Bytes that report another length."""

    def __len__(self) -> int:
        return 2**40

    def __bytes__(self) -> "Short":
        return self


class Cunning(int):
    """A number that is above and below all others."""

    def __lt__(self, other: object) -> bool:
        return True

    __gt__ = __le__ = __ge__ = __lt__


class Mute(str):
    """A text that is written otherwise."""

    def encode(self, *words: str) -> bytes:
        return b"\xff"


class Odd(unittest.TestCase):
    def setUp(self) -> None:
        self.storage = Storage([[["n"], 1]], 1000)
        self.agent = self.storage.agent(0)
        self.addCleanup(self.storage.free)
        self.addCleanup(self.agent.free)

    def assert_refused(self, kind: type[Exception], message: str, call: Callable[..., object], *arguments: object) -> None:
        with self.subTest(message), self.assertRaises(kind) as caught:
            call(*arguments)
        self.assertIn(message, str(caught.exception))

    def test_subclasses_are_read_as_their_values(self) -> None:
        self.assertEqual(explain(folugben.TextForm.LOCATIONS, Short(b"[]")), "")
        self.assertEqual(explain(folugben.TextForm.LOCATIONS, "[]"), "")
        self.assertEqual(explain(folugben.TextForm.LOCATIONS, bytearray(b"[nul]")), "not JSON at byte 2")
        self.assert_refused(TypeError, "a text is bytes or a str, and not 'int'", explain, folugben.TextForm.LOCATIONS, 7)
        for form in (Cunning(2**40), Cunning(-1)):
            self.assert_refused(Error, "a form is one of", explain, form, b"")
        for call in (Storage, ) * 2 + (self.storage.next, ):
            arguments = [[], Cunning(2**32 + 1)] if call is Storage else [Cunning(2**32 + 1)]
            self.assert_refused(Error, "", call, *arguments)
        count, move = Location(["n"]), Move()
        self.assert_refused(Error, "an amount is 1 to", move.bag_add, count, 1, Cunning(2**32 + 1))
        self.assert_refused(Error, "a number is", move.put, count, Cunning(2**64))
        self.assert_refused(TypeError, "float", move.bag_add, count, 1, 1.0)
        self.agent.fire([["put", ["n"], Cunning(7)], ["put", [Mute("m")], Mute("x")]])
        self.agent.follow()
        self.assertEqual(self.agent.peek([["n"], ["m"]]), (1, [7, "x"]))
        self.assertEqual(self.agent.scan(Mute("m"))[1], [(("m",), "x")])

    def test_journals_are_any_bytes(self) -> None:
        self.agent.fire([["put", ["n"], 2]])
        self.agent.give()
        journal = self.storage.close_journal()
        for kind in (Short, bytearray, memoryview, bytes.decode):
            text = kind(journal)
            self.assertEqual(check(text), (1, 1))
            self.assertEqual(replay(text), [(("n",), 2)])
            self.assertEqual(len(list(trace(text))), 2)
            self.assertEqual([values for _, values in states(text)][-1], {("n",): 2})
        self.assert_refused(TypeError, "a journal is bytes or a str, and not 'list'", check, [journal])

    def test_a_counter_is_a_bag(self) -> None:
        words = Counter("abba")
        words.subtract("b")
        words["c"] = 0
        move = [["put", ["b"], words], ["put", ["c"], Counter()], ["put", ["d"], Counter({1: 2, None: 1})]]
        self.agent.fire(move)
        self.agent.follow()
        values = self.agent.peek([["b"], ["c"], ["d"]])[1]
        self.assertEqual(values, [Counter("aab"), Counter(), Counter({1: 2, None: 1})])
        with Storage([[["b"], Counter("aab")]]) as storage, storage.agent(0) as agent:
            self.assertEqual(agent.peek([["b"]])[1], [Counter("aab")])
        for word in ("list", "set", "bag"):
            self.agent.fire([["put", ["b"], Counter([word])]])
            self.agent.follow()
            self.assertEqual(self.agent.peek([["b"]])[1], [Counter([word])])
        self.assert_refused(Error, "a count", self.agent.fire, [["put", ["b"], Counter({"a": -1})]])

    def test_a_refused_value_is_reported_with_its_path(self) -> None:
        nan, infinite = float("nan"), float("inf")
        put, move = self.agent.fire, Move()
        self.assert_refused(Error, 'instructions[2]["set"][1] is nan', put, ["put", ["x"], {"set": [1, nan]}])
        self.assert_refused(Error, "instructions[1][2] is -inf", put, [["inc", ["x"], 1], ["put", ["x"], -infinite]])
        self.assert_refused(Error, "and reads[0][1] is 1.5", put, [], [[["x"], 1.5]])
        self.assert_refused(Error, 'and instructions[0][2]["set"][1] is 1.5', put, [["put", ["x"], {"set": [1, 1.5]}]])
        self.assert_refused(Error, "and [0][1] is 18446744073709551616", self.agent.peek, [["x", 2**64]])
        self.assert_refused(Error, "places[0][1] has '\\ud800' at 1", self.agent.read, [["x", "a\ud800"]])
        self.assert_refused(TypeError, "which is no value: values are", put, [["put", ["x"], object()]])
        self.assert_refused(TypeError, "value is [1], which is no value: pass a list as a tuple", move.put, "x", [1])
        self.assert_refused(TypeError, "init[0][1] is 1j, which is no whole number: pass int(..)", Storage, [[["x"], 1j]])
        self.assert_refused(Error, "place[1] is nan", Location, ["x", nan])
        self.assert_refused(Error, "init[0][1] is nan", Storage, [[["x"], nan]])
        self.assert_refused(Error, "reads[0][1] is nan", self.agent.stands, [[["x"], nan]])
        self.assert_refused(Error, "instructions[0][2] is nan", self.agent.step().push, [["put", ["x"], nan]])
        self.assert_refused(Error, "instructions[0][2] is nan", folugben.aggregate, [], [["put", ["x"], nan]])
        self.assert_refused(Error, "isn't Unicode", self.agent.step().scan, "\ud800")

    def test_a_text_with_braces_is_a_text(self) -> None:
        self.agent.fire([["put", ["n"], '{"a":{']])
        self.agent.follow()
        self.assertEqual(self.agent.peek([["n"]])[1], ['{"a":{'])


class Stop(Exception):
    """The exception of a handler."""


class Signals(unittest.TestCase):
    """The exception of a signal handler comes before or after a call."""

    def setUp(self) -> None:
        self.storage = Storage([[["n"], 0]], 10_000)
        self.agent = self.storage.agent(0)
        self.count = Location(["n"])
        self.addCleanup(self.storage.free)
        self.addCleanup(self.agent.free)

    def test_signals_count_nothing_twice(self) -> None:
        move, raised, is_ready = Move(), 0, False

        def handler(_: int, frame: FrameType | None) -> None:
            nonlocal is_ready
            if is_ready:
                is_ready = False
                raise Stop

        was = signal.signal(signal.SIGALRM, handler)
        self.addCleanup(signal.signal, signal.SIGALRM, was)
        self.addCleanup(signal.setitimer, signal.ITIMER_REAL, 0)
        signal.setitimer(signal.ITIMER_REAL, 0.0005, 0.0005)
        end = time.monotonic() + 60
        while raised < 300:
            self.assertLess(time.monotonic(), end)
            before = len(move)
            is_ready = True
            try:
                move.inc(self.count, 1)
                is_ready = False
            except Stop:
                raised += 1
            # The exception of the handler comes before or after the call.
            self.assertIn(len(move) - before, (0, 1))
            if len(move) > 2000:
                self.assertEqual(self.push_move(move), len(move))
                move.clear()
        signal.setitimer(signal.ITIMER_REAL, 0)
        self.assertEqual(self.push_move(move), len(move))

    def push_move(self, move: Move) -> int:
        """Return the count after the move."""
        with self.agent.step() as step:
            step.push(move)
            value: int = step.get(self.count)
            step.pop()
        return value

    def test_a_step_returns_the_number_that_it_fired(self) -> None:
        step = self.agent.step()
        step.push([["put", ["n"], 1]])
        self.assertEqual(step.fired, 0)
        step.commit()
        self.assertEqual((step.fired, repr(step)), (1, "<Step, over>"))
        with self.assertRaises(folugben.OverError):
            step.commit()
        with self.agent.step() as step, self.storage.agent(1) as rival:
            step.get(self.count)
            rival.fire([["put", ["n"], 2]])
            step.push([["put", ["n"], 3]])
            self.assertEqual((step.try_commit(), step.fired), (0, 0))
        with self.agent.step() as step:
            self.assertEqual((step.commit(), step.fired), (3, 3))


if __name__ == "__main__":
    unittest.main()
