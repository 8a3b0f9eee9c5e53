"""Tests of storages, agents and journals: python3 test.py runs all tests."""
import copy
import pickle
import unittest
from unittest import mock

import folugben
import own
from folugben import Agent, BusyError, Error, MissingError, StaleError, Storage, check, replay
from folugben import _library
from threads import in_threads

COUNT = [["count"]]


def add_one(agent: Agent) -> int:
    """Add 1 to the count, however often another agent is faster."""
    while True:
        number, (count,) = agent.read(COUNT)
        try:
            return agent.fire([["put", ["count"], count + 1]], [[["count"], number]])
        except (StaleError, BusyError):
            pass


class Agents(unittest.TestCase):
    def setUp(self):
        self.storage = Storage([[["count"], 0]], 2)
        self.addCleanup(self.storage.free)

    def code_of(self, call, *arguments):
        with self.assertRaises(Error) as caught:
            call(*arguments)
        return caught.exception.code

    def test_a_with_returns_the_agent(self):
        with self.storage.agent(3) as agent:
            agent.fire([["put", ["count"], "ü"]])
        self.assertEqual(replay(self.storage.close_journal()), [(("count",), "ü")])

    def test_a_with_that_an_exception_ends_returns_the_agent(self):
        reader = self.storage.agent(1)
        with self.assertRaises(KeyError), self.storage.agent(0) as agent:
            agent.fire([["put", ["count"], 5]])
            raise KeyError
        self.assertEqual(reader.read(COUNT), (1, [5]))
        reader.give()
        self.assertEqual(check(self.storage.close_journal()), (2, 1))

    def test_a_with_whose_agent_cannot_be_returned(self):
        agent = self.storage.agent(0)
        self.storage.free()
        with self.assertRaises(Error) as caught, agent:
            raise KeyError
        self.assertEqual(caught.exception.code, folugben.Code.EMPTY)
        self.assertIsInstance(caught.exception.__context__, KeyError)
        self.assertEqual(agent.read(COUNT), (0, [0]))
        agent.free()
        with agent:
            pass

    def test_no_copy_shares_a_slot(self):
        agent = self.storage.agent(0)
        agent.fire([])
        for held in (self.storage, agent):
            for copied in (copy.copy, copy.deepcopy, pickle.dumps):
                with self.assertRaises(TypeError) as caught:
                    copied(held)
                self.assertEqual(str(caught.exception), f"cannot copy or pickle '{type(held).__name__}' object")
        agent.give()
        self.assertEqual(check(self.storage.close_journal()), (1, 1))

    def test_threads_that_make_and_return_agents_of_one_storage(self):
        # A large state makes the calls that close long, so that others begin meanwhile.
        state = [[["count"], 0]] + [[["own", k], k] for k in range(2000)]

        def work(own):
            for turn in range(own, 240, 8):
                with storage.agent(turn) as agent:
                    add_one(agent)
                try:
                    storage.close_journal()
                except MissingError:
                    pass

        with Storage(state, 240) as storage:
            self.assertEqual(in_threads(work, 8), ([], True))
            journal = storage.close_journal()
        self.assertEqual(check(journal)[1], 240)
        self.assertEqual(replay(journal), [(("count",), 240)] + own.pairs(state[1:]))

    def test_agents_that_learn_of_each_other_at_once(self):
        agents = [self.storage.agent(0), self.storage.agent(1)]

        def work(own):
            for _ in range(2000):
                agents[own].learn(agents[1 - own])

        self.assertEqual(in_threads(work, 2), ([], True))

    def test_numbers_that_have_no_32_bits(self):
        for number in (2**32, 2**32 + 1, 2**64 + 1, -1):
            self.assertEqual(self.code_of(self.storage.agent, number), folugben.Code.AGENTS)
            self.assertEqual(self.code_of(Storage, (), number), folugben.Code.CAPACITY)
        self.assertRaises(TypeError, self.storage.agent, 0.5)
        self.assertEqual(folugben.error_text(2**32), folugben.error_text(46))

    def test_agents_of_another_storage(self):
        agent, other = self.storage.agent(0), Storage()
        self.addCleanup(other.free)
        self.assertEqual(self.code_of(other.give, agent), folugben.Code.OTHER)
        self.assertEqual(self.code_of(agent.learn, other.agent(1)), folugben.Code.OTHER)
        self.assertEqual(self.code_of(agent.learn, agent), folugben.Code.EMPTY)

    def test_an_error_has_a_message(self):
        busy = BusyError(folugben.Code.BUSY, (3, 67))
        message = "64 attempts to append were lost to other agents (the agent had seen 3 moves at the start of the call and 67 at its end)"
        self.assertEqual(str(busy), message)
        self.assertEqual(str(pickle.loads(pickle.dumps(busy))), message)
        self.assertEqual(str(Error(folugben.Code.NOT_JSON)), "not JSON")

    def test_a_refused_value_has_a_place(self):
        agent = self.storage.agent(0)
        for message, call, *arguments in [
            ("the locations are a list or a tuple", agent.peek, {"x": 1}),
            ("location 2: a dict is a list, a set or a bag, and has one member", agent.read, [("x",), ("y", {"lists": []})]),
            ("the instructions are a list or a tuple", agent.fire, "put"),
        ]:
            with self.assertRaises(Error) as caught:
                call(*arguments)
            self.assertEqual(str(caught.exception), message)

    def test_texts_of_no_form(self):
        for form in (-1, 5, 2**32):
            self.assertEqual(self.code_of(folugben.explain, form, b"[]"), folugben.Code.NO_FORM)

    def test_texts_of_codes(self):
        texts = [folugben.error_text(code) for code in range(47)]
        self.assertEqual(len(set(texts)), 47)
        self.assertEqual(folugben.error_text(-1), texts[46])
        self.assertEqual(folugben.version(), 2000)
        major, minor, patch = map(int, folugben.__version__.split("."))
        self.assertEqual(folugben.version(), 1_000_000 * major + 1_000 * minor + patch)

    def test_a_library_of_another_version_is_refused(self):
        with mock.patch.object(_library, "LIBRARY_VERSION", 1000), self.assertRaises(ImportError) as caught:
            _library.expect_version()
        self.assertIn("has version 2000, and this package was written for 1000", str(caught.exception))

if __name__ == "__main__":
    unittest.main()
