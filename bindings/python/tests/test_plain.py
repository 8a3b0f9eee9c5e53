"""Tests of calls without text, prepared locations and moves that collect.

python3 test.py runs them too.
"""
import copy
import json
import pickle
import random
import unittest
from collections import Counter
from collections.abc import Hashable
from decimal import Decimal
from enum import Enum

import folugben
import own
from folugben import ClashError, Error, Location, Move, OverError, StaleError, Storage, check
from threads import in_threads

VALUES = [
    None, True, False, 0, 1, -1, 2**63 - 1, -(2**63), "", "a", 'ä"\\\n\x00\x1f\U0001f600', "x" * 511, "x" * 512, "x" * 5000,
    {"list": []}, {"list": [None, True, 1, "b", {"list": ["c"]}]}, {"set": []}, {"set": [None, True, 1, "ü"]}, {"bag": []},
    {"bag": [[True, 1], [1, 2**32 - 1]]}, {"set": [f"{k:0100}" for k in range(200)]},
]
ELEMENTS = [value for value in VALUES if not isinstance(value, dict) or "list" in value]
SET, BAG = {"set": [None, True, 1, "a"]}, {"bag": [[None, 5], [True, 5], [1, 5], ["a", 5]]}


def gather(move, places, instruction):
    """Append an instruction of a list, and prepare its location if there is none."""
    word, place, *operands = instruction
    key = json.dumps(place)
    if key not in places:
        places[key] = Location(place)
    getattr(move, word)(places[key], *operands)


class Plain(unittest.TestCase):
    def setUp(self):
        self.storage = Storage([[["v", k], value] for k, value in enumerate(VALUES) if value is not None], 50)
        self.addCleanup(self.storage.free)
        self.agent, self.rival = self.storage.agent(0), self.storage.agent(1)

    def code_of(self, call, *arguments):
        """Return the code of the error that the call raises, and its message."""
        with self.assertRaises(Error) as caught:
            call(*arguments)
        return caught.exception.code, caught.exception.detail

    def test_each_value_is_returned_as_with_texts(self):
        self.rival.fire([])
        with self.agent.step() as step:
            for k, value in enumerate(VALUES):
                with Location(["v", k]) as at:
                    self.assertEqual((at.place, repr(at)), (("v", k), f"Location(('v', {k}))"))
                    (wanted,) = step.get([["v", k]])
                    for result in (step.get(at), self.agent.peek(at)[1], wanted):
                        self.assertEqual(repr(result), repr(own.value(value)))
                    self.assertEqual(self.agent.peek(at)[0], 1)
            self.assertIsNone(step.get(Location(["none", {"list": ["ä"]}])))

    def test_a_gathered_move_does_what_a_list_does(self):
        rng, clashes, places = random.Random(7), 0, {}
        words = {"s": ["add", "remove"], "b": ["bag_add", "bag_remove"], "n": ["inc"]}

        def instruction():
            name = rng.choice("sbnp")
            word = rng.choice([*words.get(name, []), "put"]) if rng.random() < 0.9 else rng.choice(sum(words.values(), []))
            value = rng.choice([0, 1, -1, 2**62] if word == "inc" else VALUES if word == "put" else ELEMENTS)
            return [word, [name, rng.randrange(2)], value, *([rng.choice([1, 2, 2**32 - 1])] if word[:3] == "bag" else [])]

        init = [[[name, k], value] for k in range(2) for name, value in (("s", SET), ("b", BAG), ("n", 1), ("p", "a"))]
        for round in range(500):
            storage = Storage(init, 4)
            agent, other = storage.agent(0), storage.agent(1)
            step, wanted, move = agent.step(), other.step(), Move()
            for calls in ((step.push, wanted.push), (step.extend, wanted.extend)) * 2:
                instructions = [instruction() for _ in range(rng.randrange(3))]
                for one in instructions:
                    gather(move, places, one)
                self.assertEqual(len(move), len(instructions))
                result = []
                for call, pushed in zip(calls, (move, instructions)):
                    try:
                        result.append(call(pushed))
                    except ClashError as error:
                        result.append((error.at, error.cause))
                self.assertEqual(*result)
                clashes += result[0] is not None
                self.assertEqual(step.depth, wanted.depth)
                for name in "sbnp":
                    self.assertEqual(repr(step.scan(name)), repr(wanted.scan(name)))
                move.clear()
            step.commit()
            agent.give()
            other.give()
            self.assertEqual(check(storage.close_journal()), (1, 1))
        self.assertGreater(clashes, 100)

    def test_sets_and_counters_of_python_are_put(self):
        at, move = Location(["v", 0]), Move()
        for value, result in [
            ({2, 1}, {1, 2}), (frozenset({"a", None}), {"a", None}), (set(), set()), ({True}, {True}), ({(1, ("a",))}, {(1, ("a",))}),
            (Counter("abba"), Counter("abba")), (Counter(), Counter()), ({"list": (1, {"list": []})}, (1, ())), ((), ()),
            ({"set": [1, True]}, {"set": [True, 1]}), ({"bag": [[1, 2], [True, 1]]}, {"bag": [(True, 1), (1, 2)]}),
        ]:
            with self.agent.step() as step:
                step.push(move.clear().put(at, value))
                self.assertEqual((step.get(at), type(step.get(at)).__name__), (result, type(result).__name__.replace("set", "frozenset")))
                self.assertIsInstance(step.get(at), Hashable if isinstance(value, (set, tuple)) else object)
                step.push(Move().put(["v", 1], step.get(at)).put(("v", 2), value))
                self.assertEqual(step["v", 1], step["v", 2])
                step.pop()
                step.pop()

    def test_a_step_reads_and_writes_single_locations(self):
        init = {"count": 1, ("s", 1): {1}, ("b", "x"): Counter("a"), "l": (1, (2,))}
        with Storage(init, 9) as storage, storage.agent(0) as agent:
            with agent.step() as step:
                for key in init:
                    self.assertEqual(step[key], init[key])
                    self.assertEqual(step[Location(key)], init[key])
                self.assertIsNone(step["none"])
                step.inc("count", 2)
                step.inc(["count"], step["count"])
                step.add(("s", 1), (1, True))
                step.remove(Location(("s", 1)), 1)
                step.bag_add(("b", "x"), "c", 3)
                step.bag_add(("b", "x"), None)
                step.bag_remove(("b", "x"), "a")
                step.put("l", None)
                self.assertEqual((step.depth, step["count"], step["s", 1]), (1, 6, {(1, True)}))
                self.assertEqual((step["b", "x"], step["l"]), (Counter(["c", "c", "c", None]), None))
                with self.assertRaises(ClashError) as caught:
                    step.add("count", 1)
                self.assertEqual((caught.exception.at, caught.exception.cause), (("count",), "Kind"))
                self.assertEqual(self.code_of(step.put, "1", 1)[0], folugben.Code.SHAPE)
                self.assertEqual(self.code_of(step.inc, "count", "1")[0], folugben.Code.OPERAND)
                self.assertEqual(self.code_of(lambda: step[()])[0], folugben.Code.SHAPE)
                self.assertEqual(self.code_of(step.bag_add, "b", 1, 0)[0], folugben.Code.OPERAND)
                self.assertRaises(TypeError, step.put, "x")
                self.assertRaises(TypeError, step.put, "x", [1])
                self.assertEqual((step.commit(), step.depth), (1, 0))
                self.assertRaises(OverError, step.put, "x", 1)
                self.assertRaises(OverError, lambda: step["x"])
            result = dict(agent.state()[1]) if agent.follow() else {}
            self.assertEqual(result, {("count",): 6, ("s", 1): {(1, True)}, ("b", "x"): Counter(["c", "c", "c", None])})
            with agent.step() as step:
                self.assertEqual(step["count"], 6)
                step.put("count", 7)
                agent.fire([("put", "count", 8)])
                self.assertRaises(StaleError, step.commit)

    def test_what_is_no_value_has_a_way_round(self):
        class Number:
            dtype = None

            def item(self):
                return 1

            def __index__(self):
                return 1

        with self.agent.step() as step:
            for value, way in [(Enum("Kind", "A").A, "pass its .value or its .name"), (Decimal(1), "pass int"), ([1], "a tuple"),
                               (Number(), r"pass \.item\(\)"), (b"a", "decode"), (object(), "values are None")]:
                for call in (lambda: step.put("x", value), lambda: step.push([("put", "x", (1, value))])):
                    with self.subTest(way), self.assertRaisesRegex((TypeError, Error), way if value != [1] else "a tuple|a list is written"):
                        call()
            self.assertEqual(step.depth, 0)

    def test_locations_that_are_one_in_python(self):
        with Storage([[["f", True], 1], [["f", 1], 2]], 2) as storage:
            journal = storage.close_journal()
        with self.assertRaisesRegex(ValueError, r'\["f",true\] and \["f",1\] are two locations, and one key'):
            list(folugben.states(journal))

    def test_a_popped_move_lists_the_instructions_of_its_one_move(self):
        with self.agent.step() as step:
            step.push([["put", ["count"], 2], ["put", ["total"], 1]])
            step.extend([["inc", ["total"], 3]])
            popped = step.pop_move()
            self.assertEqual((list(popped), repr(popped)), ([("put", ("count",), 2), ("put", ("total",), 4)], "<Move of 2 instructions>"))
            self.assertIs(popped.put(["count"], 10), popped)
            self.assertEqual(repr(popped), "<Move of 3 instructions>")
            self.assertEqual(repr(popped.clear()), "<Move of 0 instructions>")

    def test_operands_that_are_none(self):
        at, move = Location(["count"]), Move()
        move.put(at, 1)
        for value in (Decimal(1), Enum("Kind", "A").A, [], {}, {"lists": []}, b"", object()):
            for call in (move.put, move.add, move.remove, move.inc):
                self.assertRaises(TypeError, call, at, value)
            self.assertRaises(TypeError, move.bag_add, at, value, 1)
        for value in ({"set": []}, {"bag": []}, {1}, Counter("a")):
            for call in (move.add, move.remove, lambda *words: move.bag_add(*words, 1)):
                result = self.code_of(call, at, value)
                self.assertEqual(result, (folugben.Code.OPERAND, "a set or a bag can be put, and is no element"))
            self.assertEqual(self.code_of(move.inc, at, value)[0], folugben.Code.OPERAND)
        self.assertEqual(self.code_of(move.inc, at, {"list": []})[0], folugben.Code.OPERAND)
        message = "instruction 1: a set can't hold a set"
        self.assertEqual(self.code_of(move.put, at, {"set": [{"set": []}]}), (folugben.Code.SHAPE, message))
        for value in ({"list": [1.5]}, {"set": [1, 1]}, {"bag": [["a", 0]]}, {"bag": [["a", 2**32]]}, {"list": [], "x": 1},
                      {"list": [2**63]}, {"list": [{"set": []}]}, {"list": 1}):
            self.assertEqual(self.code_of(move.put, at, value)[0], folugben.Code.SHAPE)
            if "list" in value:
                self.assertEqual(self.code_of(move.bag_add, at, value, 2)[0], folugben.Code.SHAPE)
        self.assertEqual(self.code_of(move.put, at, "\ud83d")[0], folugben.Code.SHAPE)
        for number in (2**63, -(2**63) - 1, 10**30):
            for call in (move.put, move.add, move.inc):
                self.assertEqual(self.code_of(call, at, number)[0], folugben.Code.OPERAND)
        for amount in (0, -1, 2**32, 2**40):
            for call in (move.bag_add, move.bag_remove):
                self.assertEqual(self.code_of(call, at, 1, amount)[0], folugben.Code.OPERAND)
        self.assertRaises(TypeError, move.bag_add, at, 1, "1")
        for value in (True, None, "1"):
            self.assertEqual(self.code_of(move.inc, at, value)[0], folugben.Code.OPERAND)
        self.assertEqual(len(move.put(["count"], 1).inc("count", 1)), 3)
        for words in ((), (at,), (at, 1, 2)):
            self.assertRaises(TypeError, move.put, *words)

    def test_a_text_that_is_no_location_is_explained(self):
        code, message = self.code_of(Location, 7)
        self.assertEqual(code, folugben.Code.SHAPE)
        self.assertEqual(message, "location 1: a location is a tuple or a list of a name and at most 8 arguments")
        self.assertEqual(self.code_of(Location, ["1x"])[0], folugben.Code.SHAPE)
        self.assertEqual(self.code_of(Location, ["x", 2**63])[0], folugben.Code.SHAPE)
        self.assertEqual(self.code_of(Location, ["x", float("nan")])[0], folugben.Code.SHAPE)

    def test_what_is_over_or_freed_says_so(self):
        at, move = Location(["count"]), Move()
        move.put(at, 1)
        step = self.agent.step()
        step.commit()
        self.assertRaises(OverError, step.try_commit)
        step = self.agent.step()
        at.free()
        at.free()
        for call, *arguments in ((step.get, at), (self.agent.peek, at), (move.put, at, 1), (move.inc, at, 1)):
            self.assertEqual(self.code_of(call, *arguments), (folugben.Code.EMPTY, "the location was freed"))
        self.assertEqual(len(move), 1)
        step.push(move)
        self.assertEqual(step.get([["count"]]), [1])
        move.free()
        move.free()
        for call, *arguments in ((step.push, move), (step.extend, move), (move.clear,), (move.put, Location(["x"]), 1)):
            self.assertEqual(self.code_of(call, *arguments), (folugben.Code.EMPTY, "the move was freed"))
        self.assertEqual(step.depth, 1)
        self.agent.give()
        for call, *arguments in ((step.get, Location(["x"])), (self.agent.peek, Location(["x"])), (step.try_commit,)):
            self.assertEqual(self.code_of(call, *arguments), (folugben.Code.EMPTY, "the agent was returned"))

    def test_no_copy_shares_a_slot(self):
        for held in (Location(["x"]), Move()):
            for copied in (copy.copy, copy.deepcopy, pickle.dumps):
                with self.assertRaises(TypeError) as caught:
                    copied(held)
                self.assertEqual(str(caught.exception), f"cannot copy or pickle '{type(held).__name__}' object")

    def test_threads_that_share_a_location_and_a_move(self):
        at, other, shared = Location(["count"]), Location(["other"]), Move()
        storage = Storage([[["count"], 0], [["other"], 0]], 1000)

        def work(own):
            with storage.agent(own) as agent:
                move, fired = Move(), 0
                while fired < 100:
                    with agent.step() as step:
                        step.push(move.clear().put(at, step.get(at) + 1))
                        agent.peek(at)
                        fired += step.try_commit() != 0
                        shared.inc(other, 1)
                        if len(shared) > 1000:
                            shared.clear()

        self.assertEqual(in_threads(work, 8), ([], True))
        with storage.agent(9) as agent, agent.step() as step:
            step.push(shared)
            self.assertEqual((step.get(at), step.get(other), step.commit()), (800, len(shared), 801))
        self.assertEqual(check(storage.close_journal())[1], 801)

class RecordedPlain(own.Recorded, Plain):
    pass


if __name__ == "__main__":
    unittest.main()
