"""Tests of additions in a row, which are instructions of one move.

python3 test.py runs all tests.
"""
import gc
import pathlib
import tempfile
import unittest
from collections import Counter

from folugben import ClashError, Code, ConflictError, Error, Location, ManyError, Run, Storage, audit, check, explore, interleave
from threads import in_threads

INIT = {"s": {0}, "b": Counter([0]), "n": 2**63 - 1}


def add(step, element):
    step.add("s", element)
    step.add("s", element + 1)
    step.bag_add("b", element, 2)
    step.bag_add("b", element)
    step.inc("n", -2)
    step.inc("n", 2)


class Additions(unittest.TestCase):
    def setUp(self):
        self.storage = Storage(INIT, 5000)
        self.addCleanup(self.storage.free)
        self.one, self.other = self.storage.agent(0), self.storage.agent(1)

    def test_they_depend_on_nothing(self):
        with self.one.step() as step:
            add(step, 1)
            self.assertEqual((step.depth, step.offer()["reads"]), (1, ()))
            self.assertEqual(len(step.offer()["fire"]), 6)
            self.other.play(lambda step: add(step, 7))
            self.assertEqual(step.commit(), 2)
        self.assertEqual(self.storage.state()[1], [
            (("b",), Counter({0: 1, 1: 3, 7: 3})), (("n",), 2**63 - 1), (("s",), frozenset({0, 1, 2, 7, 8})),
        ])

    def test_another_call_between_makes_moves_in_turn(self):
        place = Location("s")
        for between in [lambda step: step["n"], lambda step: step.put("x", 1), lambda step: step.add("t", 1), lambda step: step.see([("n",)]),
                        lambda step: step.inc("n", -1), lambda step: step.push([]), lambda step: step.offer(), lambda step: step.scan("f")]:
            with self.subTest(between), self.one.step() as step:
                step.put("t", set())
                step.add("s", 1)
                step.add(place, 2)
                between(step)
                step.add(("s",), 3)
                self.assertIn((("s",), step.number), step.offer()["reads"])
                self.assertEqual(step["s"], {0, 1, 2, 3})

    def test_one_alone_is_judged_at_once(self):
        with self.one.step() as step:
            self.assertEqual(self.cause(step.inc, "n", 1), "Large")
            self.assertEqual(self.cause(step.add, "n", 1), "Kind")
            self.assertEqual(self.cause(step.bag_add, "b", 0, 2**32 - 1), "Large")
            step.add("s", 1)
            for call, *words in [(step.add, "s", {1}), (step.bag_add, "b", 1, 0), (step.add, "no name", 1), (step.inc, "n", "1")]:
                with self.subTest(words), self.assertRaises((Error, TypeError)):
                    call(*words)
            self.assertEqual((step.depth, step["s"]), (1, {0, 1}))
            step["s"] = 8
            self.assertEqual((self.cause(step.add, "s", 9), step["s"]), ("Kind", 8))

    def cause(self, call, *words):
        with self.assertRaises(ClashError) as caught:
            call(*words)
        return caught.exception.cause

    def test_several_are_judged_at_the_next_other_call(self):
        with self.one.step() as step:
            step.inc("n", -1)
            step.inc("n", 3)
            for _ in range(2):
                self.assertEqual(self.cause(step.get, [("s",)]), "Large")
                self.assertEqual(self.cause(step.commit), "Large")
            step.inc("n", -2)
            self.assertEqual(step["n"], 2**63 - 1)
            step.inc("n", -1)
            step.inc("n", 3)
            step.free()
        self.assertEqual(self.cause(self.one.play, lambda step: (step.inc("n", -1), step.inc("n", 2))), "Large")
        self.assertEqual(self.storage.moves(), 0)

    def test_they_join_before_the_agent_polls(self):
        for poll in [self.one.follow, lambda: self.one.read([("n",)]), lambda: self.one.fire([]), lambda: self.one.stands([]), self.one.step]:
            with self.subTest(poll), self.one.step() as step:
                step.add("s", 1)
                step.add("s", 2)
                self.other.play(lambda step: step.put("x", 1))
                poll()
                self.assertGreater(step.commit(), 0)

    def test_steps_of_one_agent(self):
        one, two = self.one.step(), self.one.step()
        for step, element in [(one, 1), (one, 2), (two, 11), (two, 12)]:
            step.add("s", element)
        one.commit()
        self.assertEqual(two.see([("s",)]), [{0, 11, 12}])
        two.commit()
        self.assertEqual(self.storage["s"], {0, 1, 2, 11, 12})
        with self.one.step() as step:
            step.add("s", 3)
            step.add("s", 4)
            self.one.give()
            self.assertRaises(Error, step.commit)

    def test_pops_and_many(self):
        with self.one.step() as step:
            step.push([("put", "x", 1)])
            step.add("s", 1)
            step.add("s", 2)
            self.assertEqual(step.depth, 1)
            move = step.pop_move()
            self.assertEqual((step.depth, step["s"]), (0, {0}))
            step.push(move)
            self.assertEqual(step["s"], {0, 1, 2})
            for _ in range(63):
                step.push([("put", "y", 1)])
            step.add("s", 3)
            step.add("s", 4)
            self.assertEqual((step.depth, step["s"]), (64, {0, 1, 2, 3, 4}))
        with self.one.step() as step:
            for element in range(4096):
                step.add("s", element)
            self.assertRaises(ManyError, step.add, "s", 4096)
            self.assertEqual(len(step["s"]), 4096)
            step.commit()

    def test_a_step_that_is_dropped(self):
        for end in [lambda step: None, lambda step: step.free()]:
            step = self.one.step()
            step.add("s", 1)
            step.add("s", 2)
            end(step)
            del step
            gc.collect()
            self.assertEqual(self.one.follow(), 0)
        with self.assertWarns(ResourceWarning), self.one.step() as step:
            step.inc("n", -1)

    def test_agents_on_threads_do_not_conflict(self):
        retries = []

        def work(own):
            with self.storage.agent(own + 2) as agent:
                for k in range(100):
                    retries.append(agent.play(lambda step: add(step, own * 1000 + k)).retries)

        self.assertEqual(in_threads(work, 4), ([], True))
        self.assertEqual((self.storage["n"], len(self.storage["s"])), (2**63 - 1, 4 * 101))
        self.assertEqual(len(retries), 400)
        self.one.give()
        self.other.give()
        journal = self.storage.close_journal()
        self.assertEqual((check(journal)[1], journal.count(b'"stale"')), (400, 0))

    def test_they_are_recorded_and_in_runs(self):
        with Storage(INIT, 100, record=True) as storage, storage.agent(0) as one, storage.agent(1) as other:
            with one.step() as step:
                add(step, 1)
                other.play(lambda step: add(step, 7))
                self.assertEqual(step.commit(), 2)
        with tempfile.TemporaryDirectory() as folder:
            path = pathlib.Path(folder, "additions.run")
            with Run(path, init=INIT, moves=3) as run, run.agent(0) as agent:
                for element in range(7):
                    agent.play(lambda step: add(step, element))
                agent.follow()
                self.assertEqual(agent.peek([("s",)])[1], [frozenset(range(8))])
            self.assertEqual(audit(path).moves, 7)

    def test_schedules_have_them_too(self):
        def work(agent):
            with agent.step() as step:
                add(step, agent.number)
                return step.try_commit()

        explored = explore(lambda: Storage(INIT, 100), [work, work], lambda values: len(values[("s",)]) < 3)
        self.assertIsNotNone(explored.turns)
        with Storage(INIT, 100) as storage:
            agents = [storage.agent(own) for own in range(2)]
            self.assertEqual(sorted(interleave(agents, [work, work], explored.turns)), [1, 2])
            self.assertEqual(storage["s"], {0, 1, 2})
        explored = explore(lambda: Storage(INIT, 100), [work, work], lambda values: True)
        self.assertIsNone(explored.turns)

    def test_a_fire_that_is_stale_by_what_was_read(self):
        with self.one.step() as step:
            step.add("s", len(step["s"]))
            step.add("s", 9)
            self.other.play(lambda step: step.add("s", 8))
            with self.assertRaises(ConflictError) as caught:
                step.commit()
            self.assertEqual(caught.exception.code, Code.STALE)


if __name__ == "__main__":
    unittest.main()
