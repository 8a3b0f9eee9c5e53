"""Tests of steps that wait, and of moves that iterate: python3 test.py runs all tests."""
import pathlib
import signal
import tempfile
import time
import unittest
from collections import Counter
from threading import Thread

from folugben import Error, Move, MovedError, Run, Storage


class Waiting(unittest.TestCase):

    def setUp(self):
        self.storage = Storage({"x": 1, "y": 1}, 100)
        self.one, self.other = self.storage.agent(0), self.storage.agent(1)

    def test_a_wait_ends_with_the_time_or_a_write(self):
        step = self.one.step()
        self.assertEqual(step["x"], 1)
        self.assertIs(step.wait(0), False)
        self.other.play(lambda it: it.put("y", 2))
        self.assertIs(step.wait(timeout=0.01), False)
        self.assertIsNone(step.stands())
        self.assertRaises(MovedError, step.get, [("x",)])
        thread = Thread(target=lambda: (time.sleep(0.05), self.other.play(lambda it: it.put("x", 1))))
        thread.start()
        self.assertIs(step.wait(), True)
        thread.join()
        self.assertEqual((step.stands(), step.wait(0), step.try_commit()), (("x",), True, 0))
        self.assertRaises(TypeError, step.wait, "1")

    def test_a_scan_and_an_addition_that_waits_are_watched(self):
        scanning = self.one.step()
        self.assertFalse(scanning.any("f"))
        self.other.play(lambda it: it.put(("f", 1), 2))
        self.assertEqual(scanning.stands(), ("f", 1))
        adding = self.one.step()
        adding.inc("x", 1)
        adding.inc("x", 1)
        self.other.play(lambda it: it.inc("x", 1))
        self.assertIsNone(adding.stands())
        self.assertEqual(adding.commit(), 3)
        self.assertRaises(Error, adding.stands)

    def test_a_signal_ends_a_wait(self):
        def ring(_number, _frame):
            raise ZeroDivisionError

        step, before = self.one.step(), signal.signal(signal.SIGALRM, ring)
        try:
            signal.setitimer(signal.ITIMER_REAL, 0.05)
            self.assertRaises(ZeroDivisionError, step.wait)
        finally:
            signal.signal(signal.SIGALRM, before)


    def test_a_wait_in_a_run_ends_with_its_part(self):
        with tempfile.TemporaryDirectory() as folder, Run(pathlib.Path(folder, "run"), {"x": 1}, 5) as run:
            with run.agent(0) as one, run.agent(1) as other:
                step = one.step()
                self.assertEqual((step["x"], step.wait(0.01)), (1, False))
                for _ in range(4):
                    other.play(lambda it: it.inc("y", 1) if it["y"] else it.put("y", 1))
                self.assertIs(step.wait(0), False)
                for _ in range(4):
                    other.play(lambda it: it.inc("y", 1))
                self.assertEqual((step.wait(), step.try_commit()), (True, 0))


class Instructions(unittest.TestCase):

    def test_a_move_iterates_its_instructions(self):
        instructions = [
            ("put", ("x",), None), ("put", ("f", 1, "a", (True, ())), frozenset({1, "two"})), ("put", ("b",), Counter({"e": 3})),
            ("put", ("t",), 'h"\\ü'), ("put", ("l",), (1, ("a",))), ("add", ("s",), True), ("remove", ("s",), -(2 ** 63)),
            ("bag_add", ("b",), "e", 4294967295), ("bag_remove", ("b",), "e", 1), ("inc", ("n",), -1)]
        move = Move()
        self.assertEqual((list(move), len(move)), ([], 0))
        for verb, at, *words in instructions:
            getattr(move, verb)(at, *words)
        self.assertEqual((list(move), len(move), move[0], move[-1]), (instructions, 10, instructions[0], instructions[-1]))
        self.assertEqual(repr(move), "<Move of 10 instructions>")
        self.assertRaises(IndexError, lambda: move[10])
        self.assertRaises(IndexError, lambda: move[-11])
        move.free()
        self.assertRaises(Error, list, move)

    def test_a_popped_move_iterates_what_it_does(self):
        step = Storage({"x": 1}, 10).agent(0).step()
        step.push([("inc", "x", 1), ("put", "y", "a")])
        popped = step.pop_move()
        self.assertEqual((len(popped), list(popped)), (2, [("inc", ("x",), 1), ("put", ("y",), "a")]))
        step.push(list(popped.put("z", 1)))
        self.assertEqual((step["x"], step["y"], step["z"]), (2, "a", 1))


if __name__ == "__main__":
    unittest.main()
