"""Tests of schedules and of `explore`.

Schedules are agents played by turns. `explore` searches for the schedule that breaks an invariant.
"""
import functools
import importlib.util
import itertools
import math
import random
import re
import signal
import subprocess
import sys
import time
import unittest
from unittest import mock

from folugben import Agent, ClashError, DiffersError, EndlessError, StaleError, Step, Storage, check, interleave, states
from folugben import _explore, _footprint
from folugben_engine import bank, rules
from checkout import ROOT
from rooms import Rooms, environment

COUNT = ["count"]
# A machine that is busy with other things is slow.
explore = functools.partial(_explore.explore, seconds=600)
CALLS = """
test_a_blind_transfer_is_found()
test_a_transfer_keeps_the_sum()
"""
# Each customer needs what two of these have.
INIT = dict(list(bank.INIT.items())[:5])


def count_blindly(agent):
    """Return an update that depends on nothing."""
    _, (count,) = agent.read([COUNT])
    agent.fire([["put", COUNT, count + 1]])


def guarded(agent):
    while True:
        number, (count,) = agent.read([COUNT])
        try:
            return agent.fire([["put", COUNT, count + 1]], [[COUNT, number]])
        except StaleError:
            pass


def counting():
    return Storage([[COUNT, 0]], 100)


def counts_two(values):
    return values[("count",)] == 2


def collect(is_guarded):
    """Return a customer of the bank, who collects once.

    Without the guard the fire depends on nothing that its step saw.
    """

    def work(agent):
        rule, _ = bank.PROGRAMS[agent.number]
        if is_guarded:
            return agent.play(rule.play)
        with agent.step() as step:
            rule.play(step)
            move = step.offer()["fire"]
            step.pop()
        return agent.fire(move)

    return work


def has_all(values):
    return sum(values.values()) == 500


class Interleaved(unittest.TestCase):
    def states_by(self, works, turns, **more):
        """Return the states after works by these turns."""
        with counting() as storage:
            agents = [storage.agent(number) for number in range(len(works))]
            interleave(agents, works, turns, **more)
            for agent in agents:
                agent.give()
            return [dict(values) for _, values in states(storage.close_journal())]

    def test_each_call_takes_a_turn(self):
        lists = [list(it) for size in range(8) for it in itertools.product(range(2), repeat=size)]
        self.assertEqual(len(lists), 255)
        broken = [it for it in lists if not counts_two(self.states_by([count_blindly, count_blindly], it)[-1])]
        self.assertIn([0, 0, 1], broken)
        self.assertEqual([it for it in lists[:31] if not counts_two(self.states_by([guarded, guarded], it)[-1])], [])

    def test_a_list_is_counted_round_those_at_work(self):
        numbers = []

        def work(agent):
            for _ in range(2):
                agent.step().free()
                numbers.append(agent.number)

        def order(turns):
            numbers.clear()
            self.states_by([work] * 3, turns)
            return "".join(map(str, numbers))

        self.assertEqual(order([]), "001122")
        self.assertEqual(order([2, 2, 2]), "220011")
        self.assertEqual(order([0, 1, 2, 0, 1, 2]), "012210"[:3] + order([0, 1, 2, 0, 1, 2])[3:])
        self.assertEqual(order([5, 5, 5, 0, 0]), "220011")
        self.assertEqual(order([1, 1, 4, 1, 0, 0]), order([1, 1, 1, 1, 0, 0]))

    def test_a_work_is_passed_a_proxy_of_its_agent(self):
        def work(agent):
            other = agents[1 - agent.number]
            agent.learn(other)
            with agent.step() as step:
                self.assertTrue(isinstance(agent, Agent) and isinstance(step, Step))
                self.assertEqual((repr(step), step.depth, agent.won), (f"<Step at 0 of agent {agent.number}, 0 pushed>", 0, 0))
                with self.assertRaisesRegex(AttributeError, "none"):
                    step.none()

        with counting() as storage:
            agents = [storage.agent(0), storage.agent(1)]
            interleave(agents, [work, work], 1)
            interleave(agents, [lambda agent: agent.__enter__().give()] * 2, 1)
            self.assertEqual(check(storage.close_journal()), (0, 0))

    def test_an_agent_that_waits_for_ever_is_reported(self):
        def waits(agent):
            while agent.follow() == 0:
                pass

        self.states_by([waits, count_blindly], 1)
        with self.assertRaisesRegex(EndlessError, "agents 0, 1 are still running after 500 turns"):
            self.states_by([waits, count_blindly], [], most=500)
        with self.assertRaisesRegex(EndlessError, "agent 0 is still running after 300 turns"):
            explore(counting, [waits], turns=300)

    def test_ctrl_c_ends_it(self):
        code = """
import sys
from folugben import Storage, interleave
def waits(agent):
    print("begun", flush=True)
    while True:
        agent.peek([["count"]])
with Storage([], 100) as storage:
    interleave([storage.agent(0), storage.agent(1)], [waits, waits], 1, most=10**12)
"""
        command = [sys.executable, "-c", code]
        # A process in the background of a script ignores Ctrl-C, and so would its child.
        heard = {"preexec_fn": lambda: signal.signal(signal.SIGINT, signal.SIG_DFL)}
        pipes = {"stdout": subprocess.PIPE, "stderr": subprocess.PIPE}
        with subprocess.Popen(command, env=environment(), **pipes, **heard) as child:
            try:
                self.assertEqual(child.stdout.readline(), b"begun\n")
                child.send_signal(signal.SIGINT)
                self.assertIn(b"KeyboardInterrupt", child.communicate(timeout=30)[1])
                self.assertEqual(child.returncode, -signal.SIGINT)
            finally:
                child.kill()


class Explored(unittest.TestCase):
    def assert_breaks(self, explored, make, works, invariant):
        """Check that the turns are the schedule, and that the journal is legal."""
        check(explored.journal)
        with make() as storage:
            agents = [storage.agent(number) for number in range(len(works))]
            interleave(agents, works, explored.turns)
            for agent in agents:
                agent.give()
            self.assertEqual(storage.close_journal(), explored.journal)
        self.assertFalse(all(invariant(values) for _, values in states(explored.journal)))

    def test_the_plainest_lost_update(self):
        explored = explore(counting, [count_blindly, count_blindly], at_end=counts_two)
        self.assertEqual((explored.turns, explored.is_exhaustive), ([0, 0, 1], False))
        self.assertEqual(explored.broken, "at the end it doesn't hold")
        self.assertEqual([values[("count",)] for _, values in states(explored.journal)], [0, 1, 1])
        held = explore(counting, [guarded, guarded], at_end=counts_two)
        self.assertTrue(held.is_exhaustive, held)
        self.assertEqual((held.turns, held.journal), (None, None))

    def test_the_bank_with_its_guard_and_without(self):
        with mock.patch.object(rules.random, "choice", lambda options: options[-1]):
            def make():
                return Storage(INIT, 100)

            explored = explore(make, [collect(False)] * 3, has_all)
            self.assertEqual(explored.turns, [0, 0, 1], explored)
            self.assert_breaks(explored, make, [collect(False)] * 3, has_all)
            held = explore(make, [collect(True)] * 3, has_all)
            self.assertTrue(held.is_exhaustive, held)

    def test_a_state_of_another_order_of_independent_moves(self):
        def puts(agent):
            agent.fire([["put", ["x", agent.number], 1]])

        def invariant(values):
            assert values.get(("x", 1)) is None or values.get(("x", 0)) == 1, "1 came first"

        explored = explore(counting, [puts, puts], invariant)
        self.assertEqual((explored.turns, explored.schedules), ([1], 1))
        self.assertEqual(explored.broken, "the invariant doesn't hold after move 1: 1 came first")

    def test_what_a_program_raises_is_found(self):
        def fails(agent):
            if agent.read([COUNT])[1] == [1]:
                raise KeyError("count")

        explored = explore(counting, [fails, count_blindly])
        self.assertIsInstance(explored.error, KeyError)
        self.assertEqual((explored.turns, explored.broken), ([1], "agent 0 raised KeyError('count')"))

    def test_an_agent_that_waits_lets_others_continue(self):
        def waits(agent):
            while agent.read([COUNT])[1] == [0]:
                pass
            agent.fire([["put", COUNT, 5]])

        explored = explore(counting, [waits, count_blindly, count_blindly], schedules=30, turns=500)
        self.assertEqual((explored.turns, explored.schedules, explored.is_exhaustive), (None, 30, False))
        found = explore(counting, [waits, count_blindly, count_blindly], lambda values: values[("count",)] != 2)
        self.assert_breaks(found, counting, [waits, count_blindly, count_blindly], lambda values: values[("count",)] != 2)
        with self.assertRaisesRegex(EndlessError, "agents 0, 1 are still running after 200 turns"):
            explore(counting, [waits, waits], turns=200)

    def test_programs_that_draw_are_refused(self):
        rng = random.Random(1)

        def draws(agent):
            agent.read([["x", rng.random() > 0.5]])
            guarded(agent)

        with self.assertRaisesRegex(DiffersError, "did something else in the same schedule"):
            explore(counting, [draws, draws, draws], at_end=lambda values: True)

    def test_it_is_bounded(self):
        for bound in {"schedules": 2}, {"seconds": 0.0}:
            explored = explore(counting, [guarded] * 3, **bound)
            self.assertEqual((explored.is_exhaustive, explored.turns, explored.schedules), (False, None, bound.get("schedules", 0)))
            self.assertGreater(explored.left, 0)
            self.assertEqual(str(explored), f"{explored.schedules} schedules hold, and at least {explored.left} are left")
        # Four agents of four steps at one number have more schedules than any time is enough for.
        start = time.monotonic()
        explored = explore(counting, [lambda agent: [guarded(agent) for _ in range(4)]] * 4, seconds=1.0)
        self.assertLess(time.monotonic() - start, 15)
        self.assertEqual((explored.is_exhaustive, explored.turns), (False, None))
        self.assertGreater(explored.left, 0)


def raising(at, times):
    """Return a program that increments numbers in this many steps."""

    def work(agent):
        for count in range(times):
            agent.play(lambda step: step.push([["put", at(agent.number, count), step.get([at(agent.number, count)])[0] + 1]]))

    return work


class Page(Rooms):
    def setUp(self):
        super().setUp()
        self.page = (ROOT / "docs" / "TUTORIAL.md").read_text()
        (self.code,) = (it for it in re.findall(r"```python\n([\s\S]*?)```", self.page) if "import Storage, explore" in it)

    def test_the_page_does_what_it_shows(self):
        (self.room / "test_bank.py").write_text(self.code.replace("sum_stays)\n", "sum_stays, seconds=600)\n") + CALLS)
        command = [sys.executable, "test_bank.py"]
        ran = subprocess.run(command, cwd=self.room, env=environment(), capture_output=True, text=True)
        self.assertEqual((ran.returncode, ran.stderr), (0, ""))
        self.assertIn(f"    {ran.stdout}", self.page)
        self.assertTrue(any(sum(values.values()) != 150 for _, values in states((self.room / "broken.journal").read_bytes())))

    @unittest.skipIf(importlib.util.find_spec("pytest") is None, "there is no pytest")
    def test_pytest_shows_the_turns(self):
        (self.room / "test_bank.py").write_text(self.code.replace("[guarded]", "[blind]"))
        command = [sys.executable, "-m", "pytest", "-q", "-p", "no:cacheprovider", "test_bank.py"]
        ran = subprocess.run(command, cwd=self.room, env=environment(), capture_output=True, text=True).stdout
        self.assertIn("1 failed, 1 passed", ran)
        self.assertIn("AssertionError: <Explored: the invariant doesn't hold after move 2, by the turns [0, 0, 1]", ran)


class Counts(unittest.TestCase):
    """The number of played schedules, beside that of a naive search.

    The naive search tries each order of polls and fires.
    """

    def test_steps_at_mostly_different_locations(self):
        work = raising(lambda own, count: ["x", "all" if own == count else own], 4)
        init = [[["x", it], 0] for it in (0, 1, 2, "all")]
        explored = explore(lambda: Storage(init, 100), [work] * 3, at_end=lambda values: sum(values.values()) == 12)
        self.assertTrue(explored.is_exhaustive, explored)
        # Each step is a poll and a fire, if none is stale.
        self.assertLess(explored.schedules * 100, math.factorial(24) // math.factorial(8) ** 3)

    def test_a_naive_search_tries_each_order(self):
        work = raising(lambda own, count: ["x", own], 2)
        with mock.patch.object(_footprint.Footprint, "meets", lambda *_: True):
            self.assertEqual(explore(lambda: Storage([[["x", it], 0] for it in range(2)]), [work] * 2).schedules, 70)
        self.assertEqual(explore(lambda: Storage([[["x", it], 0] for it in range(2)]), [work] * 2).schedules, 1)


class Random(unittest.TestCase):
    """No outcome of a naive search is missed."""

    INIT = [[["x", 0], 1], [["x", 1], 5], [["n"], 0]]
    WORDS = ["read", "blind", "guarded", "step", "look", "scan", "inc", "if"]

    def do(self, agent, word, x, y, by):
        """Do what a word says; return the answer."""
        if word == "read":
            return agent.read([x, y])[1]
        if word == "blind":
            return agent.fire([["put", x, by]]) > 0
        if word == "look":
            agent.follow()
            return [agent.peek([x, y])[1], agent.scan("y")[1]]
        if word == "guarded":
            number, (value,) = agent.read([x])
            return agent.fire([["put", y, (value or 0) + by]], [[x, number]]) > 0
        with agent.step() as step:
            if word == "inc":
                step.push([["inc", ["n"], 1], ["put", x, by]])
                return step.try_commit() > 0
            values = step.scan("x") if word == "scan" else step.get([x])
            if word == "if" and values != [by % 3]:
                values += step.get([y])
            step.push([["put", x if by % 2 else y, len(values) if word == "scan" else (values[0] or 0) + 1]])
            return [values, step.try_commit() > 0]

    def work(self, rng, answers):
        """Return a program of a few words."""
        words = [(rng.choice(self.WORDS), ["x", rng.randrange(3)], ["y", rng.randrange(2)], rng.randrange(6))
                 for _ in range(rng.randrange(1, 3))]

        def play(agent):
            heard = answers[agent.number] = []
            for word in words:
                try:
                    heard.append(self.do(agent, *word))
                except (ClashError, StaleError) as error:
                    heard.append(type(error).__name__)

        return play

    def outcomes(self, seed, is_naive):
        """Return all outcomes, all states, and the number of schedules.

        An outcome is the answers to the agents in a schedule with its last state.
        """
        rng, answers, ends, moments = random.Random(seed), {}, set(), set()
        works = [self.work(rng, answers) for _ in range(3 if seed % 4 == 0 else 2)]

        def at_end(values):
            ends.add(repr((sorted(answers.items()), sorted(values.items()))))

        def invariant(values):
            moments.add(repr(sorted(values.items())))

        meets = (lambda *_: True) if is_naive else _footprint.Footprint.meets
        with mock.patch.object(_footprint.Footprint, "meets", meets):
            explored = explore(lambda: Storage(self.INIT, 100), works, invariant, at_end=at_end)
        self.assertTrue(explored.is_exhaustive, explored)
        return ends, moments, explored.schedules

    def test_nothing_is_missed(self):
        played = naively = 0
        for seed in range(12):
            *outcomes, count = self.outcomes(seed, False)
            *needed, all_of_them = self.outcomes(seed, True)
            self.assertEqual(outcomes, needed, seed)
            self.assertLessEqual(count, all_of_them)
            played, naively = played + count, naively + all_of_them
        self.assertLess(played * 2, naively)


if __name__ == "__main__":
    unittest.main()
