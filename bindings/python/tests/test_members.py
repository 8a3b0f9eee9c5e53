"""Tests of counts of elements and sizes: python3 test.py runs all tests."""
import unittest
from collections import Counter

import folugben
from folugben import Code, Error, Location, Storage, check, explore

ELEMENTS = [None, True, False, 0, 1, -(2**63), "", "a", 'ä"\\\n\x00\U0001f600', "x" * 5000, (), (None, True, ("b", 1))]


class Members(unittest.TestCase):
    def setUp(self):
        init = {
            "set": {"set": [{"list": [1, {"list": ["a"]}]} if e == (1, ("a",)) else e for e in (None, True, 1, "a", (1, ("a",)))]},
            "bag": Counter("abba"), "number": 7, "text": "a", "list": (1, 2), "made": set(),
            ("counts", 1): Counter(),
        }
        self.storage = Storage(init, 50)
        self.addCleanup(self.storage.free)
        self.agent, self.rival = self.storage.agent(0), self.storage.agent(1)

    def test_each_element_of_a_set_and_a_bag_is_counted(self):
        with self.agent.step() as step, Location("made") as made:
            for k, element in enumerate(ELEMENTS):
                self.assertIs(step.has("made", element), False)
                step.add("made", element)
                step.bag_add(("counts", 1), element, k + 1)
                self.assertIs(step.has(made, element), True)
                self.assertEqual((step.count_of(made, element), step.size("made")), (1, k + 1))
                self.assertEqual(step.count_of(("counts", 1), element), k + 1)
                self.assertEqual(step.size(["counts", 1]), (k + 1) * (k + 2) // 2)
            self.assertEqual([step.count_of("bag", it) for it in "abc"], [2, 2, 0])
            self.assertEqual((step.size("bag"), step.size("set"), step.size("none")), (4, 5, 0))
            self.assertTrue(step.has("set", (1, ("a",))))
            self.assertFalse(step.has("none", 1))
            step.remove("set", 1)
            step.bag_add("bag", "c", 2**32 - 1)
            self.assertEqual((step.has("set", 1), step.size("set"), step.size("bag")), (False, 4, 2**32 + 3))
            self.assertEqual(step.commit(), 1)
        self.agent.give()
        self.rival.give()
        self.assertEqual(check(self.storage.close_journal()), (1, 1))

    def test_a_function_has_a_name(self):
        with self.agent.step() as step:
            for call in (step.any, step.count):
                self.assertEqual(self.code_of(call, "no name")[0], Code.SHAPE)
                self.assertRaises(TypeError, call, ("counts", 1))

    def test_a_search_knows_what_was_asked(self):
        def take(call, number):
            def rule(step):
                if not call(step)("held"):
                    step.put(("held", number), True)
            return lambda agent: agent.play(rule)

        for call in (lambda step: step.any, lambda step: step.count):
            programs = [take(call, number) for number in (0, 1)]
            held = explore(lambda: Storage({}, 10), programs, lambda values: len(values) <= 1)
            self.assertTrue(held.is_exhaustive, held)
            found = explore(lambda: Storage({}, 10), programs, lambda values: ("held", 1) not in values)
            self.assertFalse(found.is_exhaustive, found)

    def code_of(self, call, *arguments):
        """Return the code of the error that the call raises, and its message."""
        with self.assertRaises(Error) as caught:
            call(*arguments)
        return caught.exception.code, caught.exception.detail

    def test_refusals(self):
        with self.agent.step() as step:
            for name in ("number", "text", "list"):
                wanted = (Code.SHAPE, f'the value of ["{name}"] is no set and no bag')
                self.assertEqual(self.code_of(step.has, name, 1), wanted)
                self.assertEqual(self.code_of(step.count_of, Location(name), (1, 2)), wanted)
                self.assertEqual(self.code_of(step.size, name), wanted)
            for element in ({1}, Counter("a"), {"set": []}):
                self.assertEqual(self.code_of(step.has, "set", element), (Code.OPERAND, "a set or a bag is no element"))
            self.assertEqual(self.code_of(step.has, "set", 2**63)[0], Code.OPERAND)
            self.assertEqual(self.code_of(step.has, "set", {"list": [{"set": []}]})[0], Code.SHAPE)
            self.assertIn("nest", self.code_of(step.has, "set", ((((((((("deep",),),),),),),),),))[1])
            self.assertEqual(self.code_of(step.size, ())[0], Code.SHAPE)
            self.assertEqual(self.code_of(step.count_of, "1", 1)[0], Code.SHAPE)
            for call, words in ((step.has, ("set",)), (step.count_of, ("set", 1, 2)), (step.size, ())):
                self.assertRaises(TypeError, call, *words)
            self.assertRaises(TypeError, step.has, "set", [1])
            step.free()
            with Location("set") as at:
                at.free()
                with self.agent.step() as other:
                    self.assertEqual(self.code_of(other.size, at), (Code.EMPTY, "the location was freed"))
                    self.assertEqual(self.code_of(other.has, at, 1), (Code.EMPTY, "the location was freed"))

    def test_schedules_depend_on_what_is_counted(self):
        """Two agents that add an element unless it is there: one of them adds it."""

        def program(test):
            def rule(step):
                if not test(step):
                    step.add("seats", 1)
                    step.inc("count", 1)
            return lambda agent: agent.play(rule)

        tests = [lambda step: step.has("seats", 1), lambda step: step.count_of("seats", 1), lambda step: step.size("seats")]
        for test in tests:
            explored = folugben.explore(lambda: Storage({"count": 0, "seats": set()}, 9), [program(test)] * 3, at_end=lambda values: values["count",] == 1)
            self.assertTrue(explored.is_exhaustive, explored)
            self.assertGreater(explored.schedules, 1)
