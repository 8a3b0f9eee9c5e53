"""Tests of the engine's rules and machines, and of the page on it.

python3 test.py runs all tests.
"""
import json
import pathlib
import re
import subprocess
import sys
import unittest
from threading import Event

import folugben_engine
import own
from checkout import ROOT
from folugben import ClashError, Run, StaleError, Storage, audit, check
from folugben_engine import bank, colony, crossing, philosophers
from folugben_engine.agents import live, live_all, run, run_on, states
from folugben_engine.rules import Add, Choose, Forall, If, Instruction, Iterate, Let, Par, Remove, Rule, Seq, Update, While
from rooms import Rooms, environment
from threads import in_threads

COUNT = ("count",)
INIT = [[COUNT, 3], [["s"], {"set": [1]}], [["f", 1], "a"], [["f", 2], "b"], [["f", 3], "a"]]


def count(see):
    return see(COUNT)


def raise_by(by=1):
    return Update(COUNT, lambda see: see(COUNT) + by)


class Rules(unittest.TestCase):
    def setUp(self):
        self.storage = Storage(INIT)
        self.addCleanup(self.storage.free)
        self.agent, self.rival = self.storage.agent(0), self.storage.agent(1)

    def play_rule(self, rule, *places):
        """Return the values at the locations once the rule has fired."""
        with self.agent.step() as step:
            rule.play(step)
            step.commit()
        self.agent.follow()
        return self.agent.peek(places)[1]

    def test_par_sees_one_state(self):
        swap = Par(Update(["f", 1], lambda see: see(["f", 2])), Update(["f", 2], lambda see: see(["f", 1])))
        self.assertEqual(self.play_rule(Par(swap, Add(["s"], count), Remove(["s"], 1)), ["f", 1], ["f", 2], ["s"]),
                         ["b", "a", {3}])

    def test_seq_sees_what_was_done(self):
        rule = Seq(raise_by(), raise_by(), Update(["g"], count))
        self.assertEqual(self.play_rule(rule, COUNT, ["g"]), [5, 5])

    def test_if_and_let(self):
        rule = Par(
            If(lambda see: see(COUNT) == 3, Update(["yes"], 1), Update(["no"], 1)),
            If(False, Update(["no"], 1)),
            Let(count, lambda three: Update(["let"], three + 1)),
        )
        self.assertEqual(self.play_rule(rule, ["yes"], ["no"], ["let"]), [1, None, 4])

    def test_iterate_ends_without_updates(self):
        rule = Seq(Update(["sum"], 0), Iterate(Let(count, lambda rest: If(rest > 0, Par(
            raise_by(-1), Update(["sum"], lambda see: see(["sum"]) + rest),
        )))))
        self.assertEqual(self.play_rule(rule, COUNT, ["sum"]), [0, 6])

    def test_a_while_of_thousands_of_rounds(self):
        rule = Seq(Update(["sum"], 0), While(lambda see: see(COUNT) < 4_003, Par(
            raise_by(), Update(["sum"], lambda see: see(["sum"]) + see(COUNT)),
        )))
        self.assertEqual(self.play_rule(rule, COUNT, ["sum"]), [4_003, sum(range(3, 4_003))])
        self.assertEqual(self.play_rule(While(False, raise_by()), COUNT), [4_003])

    def test_a_universe_grows_under_forall(self):
        grow = Forall("f", lambda *_: True, lambda at, value: Update(["f", at[1] + 10], value + value))
        self.play_rule(Seq(grow, Forall("f", lambda at, _: at[1] > 10, lambda at, _: Update(["f", at[1] + 10], "new"))))
        self.assertEqual([at[1] for at, _ in self.agent.scan("f")[1]], [1, 2, 3, 11, 12, 13, 21, 22, 23])
        self.assertEqual(self.agent.peek([["f", 11], ["f", 21]])[1], ["aa", "new"])

    def test_choose_and_forall(self):
        def is_a(_, value):
            return value == "a"

        def mark(name):
            return lambda at, _: Update([name, at[1]], True)

        rule = Par(
            Choose("f", is_a, mark("chosen")), Forall("f", is_a, mark("all")),
            Choose("f", lambda *_: False, mark("none"), otherwise=Update(["otherwise"], 1)),
            Choose("f", lambda *_: False, mark("none")),
        )
        self.assertEqual(self.play_rule(rule, ["all", 1], ["all", 2], ["all", 3], ["otherwise"]), [True, None, True, 1])
        self.assertEqual(self.agent.scan("none")[1], [])
        ((chosen, _),) = self.agent.scan("chosen")[1]
        self.assertIn(chosen, [("chosen", 1), ("chosen", 3)])

    def test_rules_in_sequence_beside_others_are_dry_runs(self):
        inner = Seq(raise_by(), Iterate(If(lambda see: see(COUNT) < 9, raise_by(2))), Update(["inner"], count))
        rule = Par(inner, Update(["beside"], count), Seq(raise_by(0), Update(["beside", 2], count)))
        with self.assertRaises(ClashError) as caught, self.agent.step() as step:
            rule.play(step)
        self.assertEqual((caught.exception.at, caught.exception.cause), (COUNT, "Two"))
        rule = Par(inner, Update(["beside"], count))
        self.assertEqual(self.play_rule(rule, COUNT, ["inner"], ["beside"]), [10, 10, 3])

    def test_a_step_depends_on_its_dry_runs(self):
        # In sequence these come to nothing, except on a number.
        rule = Par(Seq(Instruction("inc", COUNT, 1), Instruction("inc", COUNT, -1)), Update(["g"], 1))
        with self.agent.step() as step:
            rule.play(step)
            self.rival.fire([["put", COUNT, "no number"]])
            with self.assertRaises(StaleError) as caught:
                step.commit()
        self.assertEqual(caught.exception.at, COUNT)

    def test_a_step_that_clashes_with_a_write_of_a_rival_is_begun_again(self):
        rival, texts = self.rival, ["no number", "none"]

        class Raised(Rule):
            """Increment the count, on which it depends in no other way.

            A rival overwrites it twice.
            """

            def play(self, step):
                step.push([["inc", COUNT, 1]])
                if texts:
                    rival.fire([["put", COUNT, texts.pop()]])
                return [[["inc", COUNT, 1]]]

        def is_over(agent):
            rival.fire([["put", COUNT, 7]])
            return agent.won == 1

        live(self.storage, 2, (Raised(), is_over), Event())
        self.agent.give()
        rival.give()
        events = map(json.loads, self.storage.close_journal().splitlines()[1:])
        replies = [event["reply"] for event in events if event["agent"] == 2 and "fire" in event["call"]]
        self.assertEqual(replies, [{"clash": [list(COUNT), "Kind"]}] * 2 + [{"fired": 6}])

    def test_a_clash_in_a_sequence_is_reported(self):
        for rule in (Seq(Par(raise_by(), Update(COUNT, 9)), raise_by()), Par(Seq(Update(["s"], 1), Add(["s"], 2)))):
            with self.assertRaises(ClashError), self.agent.step() as step:
                rule.play(step)


class Machines(unittest.TestCase):
    def test_machines(self):
        moves = {philosophers: 200, bank: 80, crossing: None, colony: colony.ROUNDS}
        for machine, fired in moves.items():
            with self.subTest(machine.__name__):
                journal = run(machine.INIT, machine.PROGRAMS)
                _, number = check(journal)
                self.assertIn(fired, (number, None))
                self.assertTrue(all(map(machine.holds, states(journal))))

    def test_the_conditions_can_fail(self):
        for machine, state in [
            (philosophers, [[["eating"], {"set": [0, 1]}]]),
            (philosophers, [[["eating"], {"set": [0, 4]}]]),
            (bank, bank.INIT | {("account", 0): 101}),
            (crossing, [[["gate"], "open"], [["train", 2], "crossing"], [["train", 0], "away"]]),
            (colony, [[["cell", 0], 7], [["cell", 64], 6], [["age"], 1]]),
            (colony, [[["cell", 0], 6], [["cell", 64], 6], [["age"], 2]]),
        ]:
            with Storage(state) as storage, storage.agent(0) as agent:
                self.assertFalse(machine.holds(agent), state)

    def test_each_state_is_visited(self):
        journal = run([[COUNT, 0]], [(raise_by(), lambda agent: agent.won == 20)] * 4)
        self.assertEqual([agent.peek([COUNT])[1] for agent in states(journal)], [[k] for k in range(81)])

    def test_an_error_of_one_program_ends_all(self):
        def work(_):
            waits = If(False, raise_by()), lambda agent: False
            with self.assertRaises(ClashError):
                run([], [waits, (Par(Update(COUNT, 1), Update(COUNT, 2)), lambda agent: False), waits])

        self.assertEqual(in_threads(work, 1), ([], True))


class Endless(Rooms):
    def test_a_machine_runs_for_the_given_time(self):
        for times in (1, 2):
            run_on(self.path, bank.INIT, bank.PROGRAMS, 0.3, moves=20)
            counts = audit(self.path)
            self.assertGreater(counts.moves, 40 * times)
            with Storage(self.last_state()) as storage, storage.agent(0) as agent:
                self.assertTrue(bank.holds(agent))
        for journal in self.journals():
            self.assertTrue(all(map(bank.holds, states(journal))))

    def test_machines_that_end_are_played_on_a_run(self):
        for machine in (philosophers, crossing, colony):
            path = self.room / machine.__name__
            with Run(path, machine.INIT, 10) as there:
                live_all(there, machine.PROGRAMS)
            self.path = path
            self.assertTrue(all(machine.holds(agent) for journal in self.journals() for agent in states(journal)))

    def test_an_error_of_one_program_ends_the_run(self):
        wrong = Par(Update(COUNT, 1), Update(COUNT, 2)), None
        with self.assertRaises(ClashError):
            run_on(self.path, INIT, [(raise_by(), None), wrong, (raise_by(), None)], 60)
        self.assertEqual(self.last_state()[0], (COUNT, 3 + audit(self.path).moves))

    def test_the_command_line(self):
        for times in (1, 2):
            ran = subprocess.run([sys.executable, "-m", "folugben_engine", self.path, "0.2"], capture_output=True, text=True,
                                  env=environment())
            counts = audit(self.path)
            report = "folugben_engine.bank: {} calls and {} moves in {} parts are legal, and the sum of the accounts stays\n"
            self.assertEqual((ran.stdout, ran.stderr), (report.format(*counts), ""))


class Page(unittest.TestCase):
    def test_the_page_shows_the_code(self):
        first, *blocks = (block for name in ("PYTHON", "ENGINE") for block in
                          re.findall(r"```python\n(.*?)\n```", (ROOT / "docs" / f"{name}.md").read_text(), re.DOTALL))
        code = [file.read_text() for file in pathlib.Path(folugben_engine.__file__).parent.glob("*.py")]
        for part in "\n\n\n".join(blocks).split("\n\n\n"):
            self.assertEqual(sum(part in file for file in code), 1, part)
        with Storage(INIT) as storage, storage.agent(0) as agent:
            exec(first, {"agent": agent})
            agent.follow()
            self.assertEqual(agent.peek([COUNT, ["double"]]), (1, [4, 8]))


class RecordedRules(own.Recorded, Rules):
    pass


class RecordedMachines(own.Recorded, Machines):
    pass


class RecordedEndless(own.Recorded, Endless):
    pass


if __name__ == "__main__":
    unittest.main()
