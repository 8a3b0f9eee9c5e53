"""Tests of scopes, forks and finalizers: nothing is lost, and errors say why."""
import gc
import json
import os
import pathlib
import tempfile
import unittest
import warnings
from collections.abc import Iterator

import folugben
from folugben import Agent, Error, ForkedError, Location, MissingError, Move, ConflictError, StaleError, Storage, check
from folugben._guards import one_call

COUNT = ["count"]


def put(agent: Agent, value: object) -> int:
    return agent.fire([["put", COUNT, value]])


class Scopes(unittest.TestCase):
    def setUp(self):
        self.storage = Storage([[COUNT, 0]], 100)
        self.addCleanup(self.storage.free)
        room = tempfile.TemporaryDirectory()
        self.addCleanup(room.cleanup)
        self.path = pathlib.Path(room.name) / "run.journal"

    def test_a_rule_is_played_until_it_fires(self):
        first, second = self.storage.agent(0), self.storage.agent(1)
        tries = []

        def rule(step):
            (seen,) = step.get([COUNT])
            tries.append(seen)
            if len(tries) < 7:
                put(second, seen + 10)
            step.push([["put", COUNT, seen + 1]])
            return seen

        self.assertEqual(first.play(rule), (7, 60))
        self.assertEqual(tries, [0, 10, 20, 30, 40, 50, 60])
        self.assertEqual((first.follow(), first.peek([COUNT])), (7, (7, [61])))

    def test_what_a_rule_raises_ends_its_play(self):
        agent = self.storage.agent(0)
        with self.assertRaises(ZeroDivisionError):
            agent.play(lambda step: (step.push([["put", COUNT, 1]]), 1 // 0))
        self.assertEqual(self.storage.moves(), 0)
        self.assertTrue(issubclass(StaleError, ConflictError) and issubclass(folugben.BusyError, ConflictError))

    def test_a_step_that_was_forgotten_is_warned_of(self):
        agent = self.storage.agent(0)
        with self.assertWarns(ResourceWarning):
            with agent.step() as step:
                step.push([["put", COUNT, 1]])
        with warnings.catch_warnings():
            warnings.simplefilter("error")
            with agent.step() as step:
                step.push([])
                step.pop()
            with agent.step() as step:
                step.push([["inc", COUNT, 1]])
                step.commit()
            with agent.step() as step:
                step.get([COUNT])
                put(agent, 3)
                step.push([["inc", COUNT, 1]]) if step.number == 2 else None
                self.assertEqual(step.try_commit(), 0)
            with self.assertRaises(KeyError), agent.step() as step:
                step.push([])
                raise KeyError

    def test_a_journal_is_written_at_the_end_of_a_with(self):
        with Storage([[COUNT, 0]], 10, journal=self.path) as storage, storage.agent(0) as agent:
            put(agent, 1)
        self.assertEqual(check(self.path.read_bytes()), (1, 1))
        with self.assertRaises(KeyError), Storage([], 10, journal=str(self.path)) as storage:
            with storage.agent(0) as agent:
                put(agent, 1)
                put(agent, 2)
                raise KeyError
        self.assertEqual(check(self.path.read_bytes()), (2, 2))

    def test_a_journal_that_lacks_a_move_is_reported_beside_another_error(self):
        with self.assertRaises(MissingError), Storage([], 10, journal=self.path) as storage:
            put(storage.agent(3), 1)
            referrers = list(gc.get_referrers())  # nothing holds the agent: it is returned by itself
            storage.agent(4).abandon()
            abandoned = storage.agent(5)
            put(abandoned, 2)
            abandoned.abandon()
            del referrers
        with self.assertRaises(KeyError) as caught, Storage([], 10, journal=self.path) as storage:
            held = storage.agent(0)
            put(held, 1)
            raise KeyError
        self.assertIn("agent 0 was not returned", caught.exception.__notes__[0])

    def test_missing_names_the_agents_that_were_not_returned(self):
        agents = [self.storage.agent(number) for number in (3, 7)]
        put(agents[0], 1)
        put(agents[1], 2)
        self.storage.agent(9)  # it fired nothing that could be missing
        with self.assertRaises(MissingError) as caught:
            self.storage.close_journal()
        self.assertIn("agents 3, 7 were not returned", str(caught.exception))
        agents.pop().give()
        with self.assertRaises(MissingError) as caught:
            self.storage.close_journal()
        self.assertTrue(str(caught.exception).endswith("returned: agent 3 was not returned: it fired move 1"))
        self.storage.agent(10).abandon()  # which may have fired it
        with self.assertRaises(MissingError) as caught:
            self.storage.close_journal()
        self.assertTrue(str(caught.exception).endswith(": agent 3 was not returned (move 1)"))
        self.assertEqual(caught.exception.numbers, (1,))

    def test_an_agent_without_references_is_returned(self):
        put(self.storage.agent(0), 1)
        gc.collect()
        self.assertEqual(check(self.storage.close_journal()), (1, 1))

    def test_a_with_that_a_collector_ends_in_a_call_returns_its_agent(self):
        def held() -> Iterator[Agent]:
            with self.storage.agent(0) as agent:
                put(agent, 1)
                yield agent

        other = self.storage.agent(1)
        generator = held()
        next(generator)
        one_call(generator.close)()
        put(other, 2)
        other.give()
        self.assertEqual(check(self.storage.close_journal()), (2, 2))

    def test_what_a_fork_copies_is_refused_in_its_child(self):
        agent = self.storage.agent(0)
        step, place, move = agent.step(), Location(COUNT), Move()
        read_end, write_end = os.pipe()
        child = os.fork()
        if child == 0:
            outcomes = []
            calls = [
                lambda: put(agent, 1), agent.step, lambda: agent.peek(place), lambda: step.get([COUNT]), step.commit,
                self.storage.moves, lambda: self.storage.agent(1), lambda: move.put(place, 1), self.storage.close_journal,
            ]
            for call in calls:
                try:
                    call()
                    outcomes.append("done")
                except ForkedError:
                    outcomes.append("forked")
                except BaseException as error:
                    outcomes.append(repr(error))
            with Storage([], 5) as own, own.agent(0) as new:
                outcomes.append(str(put(new, 1)))
            os.write(write_end, json.dumps(outcomes).encode())
            os._exit(0)
        os.close(write_end)
        with open(read_end, "rb") as pipe:
            outcomes = json.loads(pipe.read())
        os.waitpid(child, 0)
        self.assertEqual(outcomes, ["forked"] * 9 + ["1"])
        self.assertEqual(put(agent, 2), 1)

    def test_an_agent_that_was_not_returned_is_named(self):
        self.storage.agent(3).give()
        again = self.storage.take(3)
        self.assertEqual(again.number, 3)
        for number, message in [(3, "agent 3 was not returned"), (4, "agent 4 was not returned"), (256, "numbers are below 256")]:
            with self.assertRaisesRegex(Error, message):
                self.storage.take(number)

    def test_a_storage_continues_from_the_state_of_an_agent(self):
        with Storage([[COUNT, 0]], 1) as storage:
            first, second = storage.agent(0), storage.agent(1)
            put(first, 3)
            with self.assertRaisesRegex(Error, "is at version 0"):
                second.go_on(5)
            second.follow()
            with second.go_on(5) as further, further.agent(0) as agent:
                put(agent, 4)
                self.assertEqual(second.read([COUNT]), (1, [3]))
                for held in agent, first, second:
                    held.give()
                run = storage.close_journal() + further.close_journal()
            auditor = folugben.Auditor()
            auditor.feed(run)
            self.assertEqual(auditor.end(), (3, 2, 2))
            self.assertRaises(Error, second.go_on)

    def test_next_refuses_moves_that_are_in_no_journal(self):
        with self.storage.agent(0) as agent:
            put(agent, 1)
        late = self.storage.agent(1)
        self.storage.close_journal()
        put(late, 2)
        with self.assertRaisesRegex(Error, "2 moves were fired, and the journal has 1"):
            self.storage.next()
        late.give()
        self.storage.close_journal()
        with self.storage.next(5) as further:
            self.assertEqual(further.agent(0).read([COUNT]), (0, [2]))

    def test_errors_have_messages(self):
        agent = self.storage.agent(0)
        place, move = Location(COUNT), Move()
        elsewhere = Storage([], 5)
        self.addCleanup(elsewhere.free)
        for regex, call in [
            ("a capacity is 1 to 1,048,576, not 1048577", lambda: self.storage.next(2**20 + 1)),
            ("agent 0", lambda: self.storage.agent(0)),
            ("another|two storages", lambda: elsewhere.agent(0).learn(agent)),
            ("another|two storages", lambda: elsewhere.give(agent)),
            ("isn't Unicode", lambda: put(agent, "\ud800")),
            ("an amount is 1 to", lambda: move.bag_add(place, 1, 0)),
        ]:
            with self.subTest(regex), self.assertRaisesRegex(Error, regex):
                call()
        for regex, call in [
            ("place is <Step", lambda: move.put(agent.step(), 8)),
            ("learns from an agent", lambda: agent.learn(self.storage)),
            ("accepts an agent", lambda: self.storage.give(None)),
            ("made before", lambda: self.storage.__init__([], 5)),
        ]:
            with self.subTest(regex), self.assertRaisesRegex(TypeError, regex):
                call()
        self.assertEqual(len(move), 0)
        agent.give()
        for call in (lambda: put(agent, 1), agent.step, agent.follow, lambda: agent.peek(place), agent.state):
            with self.assertRaisesRegex(Error, "the agent was returned"):
                call()
        self.storage.free()
        with self.assertRaisesRegex(Error, "the storage was freed"):
            self.storage.agent(9)

    def test_python_sets_are_sets_and_moves_are_true(self):
        agent = self.storage.agent(0)
        put(agent, {"b", 2, None})
        put(agent, frozenset())
        put(agent, {3, -1})
        agent.follow()
        self.assertEqual(agent.peek([COUNT])[1], [{-1, 3}])
        self.assertTrue(Move())

    def test_each_object_has_a_repr(self):
        agent = self.storage.agent(4)
        with agent.step() as step:
            step.push([["put", COUNT, 1]])
            self.assertEqual(repr(step), "<Step at 0 of agent 4, 1 pushed>")
            step.commit()
            self.assertEqual(repr(step), "<Step, over>")
        agent.follow()
        self.assertEqual((repr(agent), agent.number), ("<Agent 4, 1 moves seen>", 4))
        self.assertEqual(repr(self.storage), "<Storage, 1 moves>")
        self.assertEqual(repr(Move().put(Location(COUNT), 1)), "<Move of 1 instructions>")
        agent.give()
        self.assertEqual(repr(agent), "<Agent 4, returned>")


if __name__ == "__main__":
    unittest.main()
