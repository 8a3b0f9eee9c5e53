"""Tests of steps: python3 test.py runs all tests."""
import copy
import json
import pathlib
import pickle
import unittest

import folugben
import own
from folugben import Location, MovedError, OverError
from folugben import StaleError, Storage, _refusals, check

COUNT = [["count"]]


def put(value, *at):
    return [["put", list(at or ["count"]), value]]


def memory():
    """Return how many bytes this process has in memory."""
    return int(pathlib.Path("/proc/self/statm").read_text().split()[1]) * 4096


class Steps(unittest.TestCase):
    def setUp(self):
        init = [[["count"], 0], [["bag"], {"bag": [["e", 1]]}], [["f", 1], 1], [["f", 2], 2]]
        self.storage = Storage(init, 50)
        self.addCleanup(self.storage.free)
        self.agent, self.rival = self.storage.agent(0), self.storage.agent(1)

    def assert_over(self, step):
        for call, *arguments in [
            (step.get, COUNT), (step.see, COUNT), (step.scan, "f"), (step.push, []), (step.extend, []), (step.pop,),
            (step.pop_move,), (step.offer,), (step.commit,),
        ]:
            with self.assertRaises(OverError) as caught:
                call(*arguments)
            self.assertEqual(caught.exception.code, folugben.Code.EMPTY)
            self.assertEqual(str(caught.exception), "the step is over: it was fired, or freed as at the end of its `with`")
        self.assertEqual(step.depth, 0)
        step.free()

    def test_a_step_that_was_fired_is_over(self):
        self.rival.fire([])
        with self.agent.step() as step:
            step.push(put(7))
            self.assertEqual(step.commit(), 2)
            self.assertEqual(step.number, 1)
            self.assert_over(step)

    def test_a_step_that_is_not_fired_leaves_nothing(self):
        with self.assertRaises(KeyError), self.agent.step() as step:
            step.get(COUNT)
            step.push(put(1))
            raise KeyError
        self.assert_over(step)
        self.assertEqual(self.rival.read(COUNT), (0, [0]))
        self.agent.give()
        self.rival.give()
        self.assertEqual(check(self.storage.close_journal()), (1, 0))

    def test_a_step_does_not_depend_on_a_prepared_location_that_it_sees(self):
        with self.agent.step() as step:
            self.assertEqual(step.see(Location(["f", 1])), 1)
            self.rival.fire(put(7, "f", 1))
            self.assertEqual((step.see(Location(["f", 1])), step.offer()["reads"], step.commit()), (1, (), 2))

    def test_two_steps_of_one_agent(self):
        first, second = self.agent.step(), self.agent.step()
        first.push(put(1))
        second.push([["put", ["g"], first.get(COUNT)[0]]])
        self.assertEqual(second.get([["count"], ["g"]]), [0, 1])
        self.assertEqual(second.commit(), 1)
        self.assertEqual(self.agent.follow(), 1)
        self.assertRaises(MovedError, first.get, COUNT)
        self.assertEqual(first.commit(), 2)
        self.assertEqual(self.rival.read([["count"], ["g"]]), (2, [1, 1]))

    def test_no_copy_shares_a_slot(self):
        with self.agent.step() as step:
            for copied in (copy.copy, copy.deepcopy, pickle.dumps):
                with self.assertRaises(TypeError) as caught:
                    copied(step)
                self.assertEqual(str(caught.exception), "cannot copy or pickle 'Step' object")

    def test_a_step_that_is_dropped_is_freed(self):
        places = [["x", "y" * 1000, number] for number in range(64)]
        before = 0
        for number in range(1000):
            self.agent.step().get(places)
            before = before or memory() * (number == 200)
        self.assertLess(memory() - before, 2**22)

    def test_an_amount_that_is_too_large_has_a_location(self):
        # No step of the agent's own storage leads to it, so the library's answer is made up.
        with self.assertRaises(folugben.LargeError) as caught:
            _refusals.push(folugben.Code.LARGE, b"[]", b'{"large":["bag"]}', self.agent.step())
        self.assertEqual(caught.exception.at, ("bag",))

    def test_gets_take_no_memory(self):
        places = [["f", 1], ["f", 2], ["count"], ["bag"], ["x" * 64, "y" * 64]]
        with self.agent.step() as step:
            def work(times):
                for _ in range(times):
                    step.get(places)
                    step.push([["inc", ["count"], 1], ["put", ["x" * 64, "y" * 64], "z" * 64]])
                    step.pop()

            work(2000)
            before = memory()
            work(40_000)
            self.assertLess(memory() - before, 2**20)
        self.agent.give()
        self.rival.give()
        self.assertEqual(check(self.storage.close_journal()), (0, 0))


class RecordedSteps(own.Recorded, Steps):
    # In that test two steps of one agent commit.
    test_two_steps_of_one_agent = None

    def test_a_get_that_returns_another_value_is_found(self):
        with Storage({"x": 1}, record=True) as storage, storage.agent(0) as agent:
            agent.play(lambda step: step.put("x", step["x"]))
            with agent.step() as step:
                step.put("y", step["x"])
                step.commit()
            with agent.step() as step:
                step["y"], step["x"]
                # As if 1 had been read as True.
                self.watch.add_read(step, ["y"], [True])
                step.commit()
            agent.give()
            storage.close_journal()
        (fault,) = self.watch.faults
        self.watch.faults.clear()
        self.assertRegex(fault, "call 4, counted from 0.*true")

    def test_a_commit_whose_agent_has_moved_on_records_and_fires(self):
        for limits in ({}, {"tries": 5}):
            tries = []

            def rule(step):
                tries.append(step["count"])
                step.put("count", tries[-1] + 1)
                self.rival.fire([["put", ["count"], 7]] if len(tries) < 3 else [])
                self.agent.follow()

            number = self.storage.moves()
            played = self.agent.play(rule, **limits)
            self.assertEqual((played.number, played.retries, tries[1:]), (number + 4, 2, [7, 7]))
        first, second = self.agent.step(), self.agent.step()
        first.push(put(1))
        second.push(put(2))
        self.assertEqual((second.commit() + 1, first.commit()), (self.storage.moves(), self.storage.moves()))
        with self.agent.step() as step:
            step["count"]
            self.rival.fire(put(5))
            self.agent.follow()
            self.assertRaises(StaleError, step.commit)
        self.agent.give()
        self.rival.give()
        events = list(map(json.loads, self.storage.close_journal().splitlines()[1:]))
        reads = [(at, it["reply"]) for at, it in enumerate(events) if "read" in it["call"]]
        self.assertEqual(reads, [(5, {"number": 3, "values": [7]}), (12, {"number": 7, "values": [7]})])

    def test_a_storage_that_continues_records_too(self):
        with Storage({"x": 0}, 2, record=True) as first:
            self.assertTrue(first.record)
            with self.assertRaises(AttributeError):
                first.record = False
            agent = first.agent(0)
            agent.fire([])
            agent.fire([])
            agent.follow()
            with agent.go_on(1) as second, second.agent(0) as other:
                other.play(lambda step: step.put("x", step["x"] + 1))
                other.give()
                self.assertEqual((second.record, check(second.close_journal())), (True, (1, 1)))
            agent.give()
            first.close_journal()
            with first.next(5) as third:
                self.assertTrue(third.record)
        self.assertRaises(TypeError, Storage, [], 5, None, True)

    def test_nothing_is_recorded_unless_it_is_wanted(self):
        with Storage({"x": 0}, 2, record=False) as storage, storage.agent(0) as agent:
            agent.play(lambda step: step.put("x", step["x"] + 1))
            agent.give()
            self.assertEqual((storage.record, storage.close_journal().count(b"\n")), (False, 2))


if __name__ == "__main__":
    unittest.main()
