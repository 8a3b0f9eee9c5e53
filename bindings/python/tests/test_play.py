"""Tests of rules that are played, and of messages of errors.

python3 test.py runs them too.
"""
import pickle
import threading
import time
import unittest

import folugben
import own
from folugben import Code, ConflictError, Error, Location, ManyError, Move, MovedError, Played, StaleError, Storage, check
from folugben import Run, compose, explain, interleave
from rooms import Rooms

DEEP = ()
for _ in range(200):
    DEEP = (DEEP,)


class Plays(Rooms):
    def agents(self):
        """Return two agents of a storage, and two of a run, which play in the same way."""
        storage = Storage({"count": 0}, 1000)
        self.addCleanup(storage.free)
        run = Run(self.path, {"count": 0}, 1000)
        self.addCleanup(run.close)
        for it in storage, run:
            agents = it.agent(0), it.agent(1)
            with self.subTest(type(it).__name__):
                yield agents
            for agent in agents:
                agent.give()

    def test_what_play_returns(self):
        for anna, ben in self.agents():
            def raised(step):
                count = step["count"]
                if len(tried) < 3:
                    tried.append(ben.fire([("put", "count", count + 10)]))
                step.put("count", count + 1)
                return count

            for limits in ({}, {"tries": 9, "timeout": 60.0}):
                tried = []
                played = anna.play(raised, **limits)
                number, count = played
                self.assertEqual((played.number, played.result, played.retries), (number, count, 3))
                self.assertIsInstance(played, Played)
            self.assertEqual((number, count), (8, 61))

    def test_a_rule_that_writes_nothing_fires_nothing(self):
        for anna, _ in self.agents():
            for rule in (lambda step: step["count"], lambda step: step.push([]) or 0, lambda step: step.push(Move()) or 0,
                         lambda step: step.put("count", 5) or step.pop() or 0):
                for limits in ({}, {"tries": 1}):
                    self.assertEqual(tuple(anna.play(rule, **limits)), (0, 0))
            self.assertEqual((anna.won, anna.follow()), (0, 0))

    def test_a_rule_that_commits_ends_the_play_with_its_move(self):
        for anna, ben in self.agents():
            def commits(step):
                step.inc("count", 1)
                return step.commit()

            def tries(step):
                count = step["count"]
                if ben.won == 0:
                    ben.play(commits)
                step.put("count", count + 1)
                return step.try_commit()

            for limits in ({}, {"tries": 2}):
                played = anna.play(commits, **limits)
                self.assertEqual((played.number, played.result, played.retries), (anna.won, anna.won, 0))
            # The first commit was in vain, and so was that of the play.
            played = anna.play(tries)
            self.assertEqual((played.number, played.result, played.retries), (4, 4, 1))
            self.assertEqual(anna.follow(), 4)
            with self.assertRaises(folugben.OverError):
                anna.play(lambda step: commits(step) and step["count"])
            self.assertEqual((anna.follow(), anna.peek([("count",)])), (5, (5, [5])))

    def test_locations_are_assigned(self):
        def assigns(step):
            step["count"] = step["count"] + 1
            step["seat", True] = (1, None)
            step[Location("bag")] = {"bag": [["e", 2]]}
            self.assertEqual((step["count"], step["seat", True], step["seat", 1]), (1, (1, None), None))
            del step["seat", True]
            with self.assertRaisesRegex(Error, "a set can't hold a set"):
                step["count"] = {"set": [{"set": []}]}
            return step["bag"]["e"]

        for anna, ben in self.agents():
            self.assertEqual(anna.play(assigns)[1], 2)
            self.assertEqual(anna.follow(), 1)
            self.assertEqual(anna.peek([("count",), ("seat", True)])[1], [1, None])
            interleave([anna, ben], [lambda agent: agent.play(lambda step: step.__setitem__("count", 5))] * 2, [0, 1, 1])
            self.assertEqual(anna.follow(), 3)

    def test_equal_locations_are_equal(self):
        one, other = Location("x"), Location(("x",))
        self.assertEqual((one == other, one != other, len({one, other})), (True, False, 1))
        self.assertNotEqual(Location(("f", 1)), Location(("f", True)))
        self.assertNotEqual(one, ("x",))
        self.assertEqual(Location(("f", (1, "ä"))), Location(["f", {"list": [1, "ä"]}]))
        with self.assertRaises(TypeError):
            one < other

    def test_bounds(self):
        for anna, ben in self.agents():
            tries = []

            def stale(step):
                tries.append(step["count"])
                ben.fire([("put", "count", len(tries))])
                step.put("count", 0)

            with self.assertRaises(StaleError):
                anna.play(stale, tries=3)
            self.assertEqual(len(tries), 3)
            start = time.monotonic()
            with self.assertRaises(ConflictError):
                anna.play(stale, timeout=0.05)
            self.assertLess(0.05, time.monotonic() - start)
            self.assertGreater(len(tries), 4)
            for wrong in ({"tries": 0}, {"tries": -1}):
                self.assertRaises(ValueError, anna.play, stale, **wrong)
            self.assertRaises(TypeError, anna.play, stale, often=1)
            self.assertRaises(TypeError, anna.play)

    def test_what_is_no_plain_function_is_refused(self):
        async def waits(step):
            step.put("count", 1)

        def yields(step):
            yield step.put("count", 1)

        async def both(step):
            yield step.put("count", 1)

        def work(agent):
            with self.assertRaisesRegex(TypeError, "is an async def or a generator: it wrote nothing"):
                agent.play(waits)

        for anna, ben in self.agents():
            for rule in waits, yields, both:
                for limits in ({}, {"tries": 2}):
                    with self.assertRaisesRegex(TypeError, f"{rule.__name__} is an async def or a generator: it wrote nothing"):
                        anna.play(rule, **limits)
            self.assertEqual(anna.follow(), 0)
            interleave([anna, ben], [work, work], 1)


class Messages(unittest.TestCase):
    def setUp(self):
        self.storage = Storage({"count": 0, "set": {1}}, 100)
        self.addCleanup(self.storage.free)
        self.agent = self.storage.agent(0)

    def assert_message(self, kind, regex, call, *words):
        with self.subTest(regex), self.assertRaisesRegex(kind, regex):
            call(*words)

    def test_ranges_and_limits(self):
        agent, move = self.agent, Move()
        self.assert_message(Error, "^a capacity is 1 to 1,048,576, not 0$", Storage, [], 0)
        self.assert_message(Error, "^agent 256: numbers are below 256$", self.storage.agent, 256)
        self.assert_message(Error, r'^read 1: \["x"\] is named at 7, and the agent has seen 0$', agent.fire, [], [("x", 7)])
        self.assert_message(Error, "^a form is one of TextForm, 0 to 4, and not 9$", explain, 9, "")
        self.assert_message(Error, "^inc takes a whole number$", move.inc, "x", "1")
        self.assert_message(ManyError, "^257 locations: a read, or a step, depends on at most 256", agent.read, [("x", k) for k in range(257)])
        self.assert_message(ManyError, "^258 reads and scans: a fire names at most 256$", agent.fire, [], [(("x", k), 0) for k in range(257)], [("f", 0)])
        self.assert_message(ManyError, "^257 reads: at most 256$", agent.stands, [(("x", k), 0) for k in range(257)])
        half = [("put", ("x", k), k) for k in range(4096)]
        self.assert_message(ManyError, "^the one move would have more than 4,096 instructions$", compose, half, [("put", "y", 1)])
        for word, at, value in half:
            move.put(at, value)
        self.assert_message(ManyError, "^a move has at most 4,096 instructions$", move.put, "y", 1)
        with agent.step() as step:
            step.push(move)
            self.assert_message(ManyError, "^2 more: the moves of a step come to at most 4,096 instructions$", step.push, [("put", "y", 1), ("put", "z", 1)])
            step.get([("x", "a", k) for k in range(256)])
            self.assert_message(ManyError, "^a step depends on at most 256 locations and functions$", step.scan, "f")
            step.pop()

    def test_lists_that_are_too_deep(self):
        with self.agent.step() as step:
            for value in DEEP, {DEEP}:
                self.assert_message(Error, "lists nest at most 8 deep$", step.put, "x", value)
                self.assert_message(Error, "lists nest at most 8 deep$", step.push, [("put", "x", value)])
            self.assert_message(Error, "lists nest at most 8 deep$", step.get, [("x", DEEP)])
            self.assert_message(Error, "lists nest at most 8 deep$", Location, ("x", DEEP))
            self.assert_message(Error, "lists nest at most 8 deep$", lambda: step["x", DEEP])
            self.assert_message(Error, 'a list is a tuple, or written {"list"', step.push, [("put", "x", [1])])
        self.assert_message(Error, "lists nest at most 8 deep$", Storage, {"x": DEEP})

    def test_clashes(self):
        with self.agent.step() as step:
            self.assert_message(folugben.ClashError, r'\["none"\], Kind: .* inc a number, and there is nothing$', step.inc, "none", 1)
            self.assert_message(folugben.ClashError, r'\["count"\], Kind: .* and there is 0$', step.add, "count", 1)
            self.assert_message(folugben.ClashError, r'\["x"\], Two: two different values are put$', step.push, [("put", "x", 1), ("put", "x", 2)])
            self.assert_message(folugben.ClashError, "Both: an element is added to a set and removed", step.push, [("add", "set", 1), ("remove", "set", 1)])
            self.assertEqual(step.offer()["reads"], ((("count",), 0), (("none",), 0), (("set",), 0), (("x",), 0)))

    def test_names_that_are_none(self):
        for call in (self.agent.step().scan, lambda name: self.agent.fire([], scans=[(name, 0)])):
            for name in ("a b", "", "1a", "x" * 65, "ä", "a\0"):
                self.assert_message(Error, "is .*: a name has 1 to 64 letters, digits and _, and begins with no digit", call, name)
            self.assertRaises((TypeError, Error), call, 7)
        for name in ("a", "_", "Z9_", "x" * 64):
            self.assertEqual(self.agent.scan(name)[1], [])

    def test_slips(self):
        agent, step = self.agent, self.agent.step()
        step.get([("x", k) for k in range(256)])
        for call in (lambda: step.get([("y",)]), lambda: step["y"], lambda: step.get(Location("y"))):
            self.assert_message(ManyError, "^a step depends on at most 256 locations and functions$", call)
        for call in agent.read, agent.peek, step.get, step.see:
            self.assert_message(Error, r"^the locations are a list, as \[\('x',\)\], and not 'x'$", call, "x")
            self.assert_message(Error, r"^location 2: a location in a list is a tuple, as \('x',\), and not 'x'$", call, [("y",), "x"])
        agent.give()
        self.assert_message(Error, "^the agent was returned$", agent.follow)
        self.assert_message(Error, "^the agent was returned$", lambda: step["x"])
        move = Move()
        move.free()
        self.assert_message(Error, "^the move was freed$", move.put, "x", 1)

    def test_every_error_is_an_error(self):
        errors = [it for it in vars(folugben).values() if isinstance(it, type) and issubclass(it, Exception)]
        self.assertEqual([it for it in errors if not issubclass(it, Error)], [])
        others = {it.__name__ for it in errors if issubclass(it, (RuntimeError, ValueError))}
        eight = "Broken Damaged Differs Endless Forked Mismatch Nested Unknown"
        self.assertEqual(others, {f"{it}Error" for it in eight.split()})
        with self.assertRaises(Error) as caught:
            raise folugben.DamagedError(3, "a digest differs")
        error = pickle.loads(pickle.dumps(caught.exception))
        self.assertEqual((str(error), error.code, error.numbers, error.segment), ("segment 3: a digest differs", None, (), 3))
        self.assertEqual(str(folugben.EndlessError("agent 1 is still running")), "agent 1 is still running")

    def test_an_agent_of_two_threads(self):
        step = self.agent.step()
        self.storage.agent(1).fire([("put", "count", 1)])
        thread = threading.Thread(target=self.agent.follow)
        thread.start()
        thread.join()
        self.assert_message(MovedError, "agent 0 is used by two threads", lambda: step["count"])
        step = self.agent.step()
        self.storage.agent(2).fire([("put", "count", 2)])
        self.agent.follow()
        with self.assertRaises(MovedError) as caught:
            step.get([("count",)])
        self.assertEqual((caught.exception.code, caught.exception.detail), (Code.MOVED, ""))
        self.assertEqual(check(self.closed())[1], 2)

    def closed(self):
        """Return the journal, once the agents that the test has dropped are returned."""
        self.agent.give()
        return self.storage.close_journal()


class RecordedPlays(own.Recorded, Plays):
    pass


if __name__ == "__main__":
    unittest.main()
