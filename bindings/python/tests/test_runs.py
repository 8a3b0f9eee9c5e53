"""Tests of runs by turns, the states of a journal, and the forms for other tools."""
import csv
import io
import json
import os
import pathlib
import subprocess
import sys
import tempfile
import unittest
from collections import Counter
from unittest import mock

import own
from folugben import BadJournalError, Storage, TooLongError, check, interleave, replay, states
from folugben import _exports
from folugben._texts import encode
from folugben_engine import bank
from folugben_engine.turns import run_by_turns

ACCOUNTS = [["account", i] for i in range(4)]


def guarded(agent, from_, to):
    def rule(step):
        there, here = step.get([from_, to])
        if there >= 10:
            step.push([["put", from_, there - 10], ["put", to, here + 10]])

    agent.play(rule)


def unguarded(agent, from_, to):
    """Depend on nothing, so that it may overwrite what another one does meanwhile."""
    agent.follow()
    there, here = agent.peek([from_, to])[1]
    with agent.step() as step:
        if there >= 10:
            step.push([["put", from_, there - 10], ["put", to, here + 10]])
        step.try_commit()


def run(seed, transfer=guarded, agents=3, rounds=8):
    with Storage([[at, 50] for at in ACCOUNTS], 1000) as storage:
        all_agents = [storage.agent(number) for number in range(agents)]

        def work(agent):
            for i in range(rounds):
                from_ = (i + agent.number) % 4
                transfer(agent, ACCOUNTS[from_], ACCOUNTS[(from_ + 1 + i % 3) % 4])
            return agent.won

        results = interleave(all_agents, [work] * agents, seed)
        for agent in all_agents:
            agent.give()
        return storage.close_journal(), results


def keeps_sum(journal):
    return all(sum(values.values()) == 200 for _, values in states(journal))


class Runs(unittest.TestCase):
    def test_one_seed_gives_one_journal(self):
        journals = [run(seed)[0] for seed in range(20)]
        self.assertEqual(journals, [run(seed)[0] for seed in range(20)])
        self.assertGreater(len(set(journals)), 10)
        for journal in journals:
            check(journal)
            self.assertTrue(keeps_sum(journal))
        self.assertTrue(any(b'"stale"' in journal for journal in journals))

    def test_a_machine_is_run_again_by_its_seed(self):
        journals = [run_by_turns(bank.INIT, bank.PROGRAMS[:3], seed) for seed in (1, 1, 2)]
        self.assertEqual(journals[0], journals[1])
        self.assertNotEqual(journals[0], journals[2])
        accounts = [money for at, money in replay(journals[0]) if at[0] == "account"]
        self.assertEqual(sum(accounts), bank.CUSTOMERS * bank.OPENING)

    def test_works_return_and_raise(self):
        self.assertEqual(run(1)[1], [8, 8, 8])
        with Storage([], 10) as storage:
            agents = [storage.agent(0), storage.agent(1)]

            def fails(agent):
                agent.step().free()
                raise KeyError(agent.number)

            with self.assertRaisesRegex(KeyError, "0"):
                interleave(agents, [fails, fails], 3)
            with self.assertRaises(ValueError):
                interleave(agents, [fails], 3)

    def test_a_schedule_that_breaks_an_invariant_is_found_by_a_seed(self):
        broken = [seed for seed in range(40) if not keeps_sum(run(seed, unguarded)[0])]
        self.assertTrue(broken)
        self.assertEqual(run(broken[0], unguarded), run(broken[0], unguarded))

    def test_states_go_move_by_move(self):
        with Storage([[["s"], {"set": [2]}], [["b"], {"bag": [["e", 1]]}], [["n"], 1], [["u"], None]], 10) as storage:
            with storage.agent(0) as agent:
                agent.fire([["add", ["s"], "a"], ["add", ["s"], 1], ["remove", ["s"], 2]])
                agent.fire([["bagadd", ["b"], "e", 2], ["bagadd", ["b"], None, 1], ["inc", ["n"], 4]])
                agent.fire([["bagremove", ["b"], "e", 3], ["put", ["n"], None], ["put", ["l", {"list": [1]}], {"list": []}]])
            moments = list(states(storage.close_journal()))
        self.assertEqual(moments, [
            (0, {("s",): {2}, ("b",): Counter("e"), ("n",): 1}),
            (1, {("s",): {1, "a"}, ("b",): Counter("e"), ("n",): 1}),
            (2, {("s",): {1, "a"}, ("b",): Counter([None, *"eee"]), ("n",): 5}),
            (3, {("s",): {1, "a"}, ("b",): Counter([None]), ("l", (1,)): ()}),
        ])
        with self.assertRaises(BadJournalError):
            list(states(b"{"))


class Exports(unittest.TestCase):
    def setUp(self):
        self.journal = next(journal for journal in (run(seed)[0] for seed in range(50)) if b'"stale"' in journal)

    def text_written(self, write):
        out = io.StringIO()
        write(self.journal, out)
        return out.getvalue()

    def test_a_table_has_each_change(self):
        rows = list(csv.DictReader(io.StringIO(self.text_written(_exports.write_csv))))
        self.assertEqual(rows[0], {"move": "0", "agent": "", "function": "account", "arguments": "[0]", "old": "null", "new": "50"})
        values = {row["arguments"]: int(row["new"]) for row in rows}
        last = dict(enumerate(states(self.journal)))
        self.assertEqual(values, {f"[{i}]": last[len(last) - 1][1]["account", i] for i in range(4)})

    def test_a_table_has_what_changes_of_sets_and_bags(self):
        with Storage([[["s"], {"set": [1]}], [["b", "a;b"], {"bag": []}]], 10) as storage:
            with storage.agent(0) as agent:
                agent.fire([["add", ["s"], 2], ["bagadd", ["b", "a;b"], "e", 2]])
                agent.fire([["put", ["s"], None]])
            out = io.StringIO()
            _exports.write_csv(storage.close_journal(), out)
        self.assertEqual(list(csv.reader(io.StringIO(out.getvalue())))[3:], [
            ["1", "0", "b", '["a\\u003bb"]', "", '{"counts":[["e",0,2]]}'],
            ["1", "0", "s", "[]", "", '{"added":[2],"removed":[]}'],
            ["2", "0", "s", "[]", '{"set":[1,2]}', "null"],
        ])
        self.assertNotIn(";", out.getvalue())

    def test_a_set_that_grows_gives_a_table_in_step_with_its_journal(self):
        with Storage([[["s"], {"set": []}]], 3000) as storage:
            with storage.agent(0) as agent:
                for i in range(3000):
                    agent.fire([["add", ["s"], i]])
            journal = storage.close_journal()
        out = io.StringIO()
        _exports.write_csv(journal, out)
        self.assertLess(len(out.getvalue()), len(journal))
        out = io.StringIO()
        _exports.write_itf(journal, out)
        last = json.loads(out.getvalue())["states"][-1]["s"]["#map"][0][1]["#set"]
        self.assertEqual(sorted(int(it["#bigint"]) for it in last), list(range(3000)))

    def test_the_informal_trace_format_has_the_values_of_each_state(self):
        with Storage([[["s"], {"set": [2]}], [["b"], {"bag": [["e", 1]]}], [["n"], 1]], 10) as storage:
            with storage.agent(0) as agent:
                agent.fire([["add", ["s"], "a"], ["remove", ["s"], 2], ["bagadd", ["b"], "e", 2], ["put", ["n"], None]])
                agent.fire([["put", ["s"], {"bag": []}], ["put", ["b"], {"list": [1]}]])
            journal = storage.close_journal()
        out = io.StringIO()
        _exports.write_itf(journal, out)
        for (_, values), state in zip(states(journal), json.loads(out.getvalue())["states"], strict=True):
            found = {name: entries["#map"] for name, entries in state.items() if name != "#meta" and entries["#map"]}
            self.assertEqual(found, {at[0]: [[{"#tup": []}, _exports._itf(json.loads(encode(value, "value")))]] for at, value in values.items()})

    def test_the_informal_trace_format_has_a_state_for_each_move(self):
        itf = json.loads(self.text_written(_exports.write_itf))
        self.assertEqual((itf["#meta"]["format"], itf["vars"]), ("ITF", ["account"]))
        self.assertEqual(len(itf["states"]), check(self.journal)[1] + 1)
        for index, ((_, values), state) in enumerate(zip(states(self.journal), itf["states"], strict=True)):
            self.assertEqual(state["#meta"]["index"], index)
            found = {("account", int(at["#tup"][0]["#bigint"])): int(value["#bigint"]) for at, value in state["account"]["#map"]}
            self.assertEqual(found, values)

    def test_the_informal_trace_format_is_bounded(self):
        complete = json.loads(self.text_written(_exports.write_itf))["states"]
        out = io.StringIO()
        _exports.write_itf(self.journal, out, first=3, last=5)
        self.assertEqual(json.loads(out.getvalue())["states"], complete[3:6])
        with mock.patch.object(_exports, "ITF_LIMIT", 1000):
            with self.assertRaisesRegex(TooLongError, "moves 0 to [0-9]+ have more than 1,000 characters: take fewer by --from and --to"):
                self.text_written(_exports.write_itf)

    def test_the_informal_trace_format_has_each_kind_of_value(self):
        for value, wanted in [
            (None, {}), (True, True), (-7, {"#bigint": "-7"}), ("a", "a"), ({"list": [1]}, [{"#bigint": "1"}]),
            ({"set": ["a", None]}, {"#set": ["a", {}]}), ({"bag": [["e", 2]]}, {"#map": [["e", {"#bigint": "2"}]]}),
        ]:
            self.assertEqual(_exports._itf(value), wanted)

    def test_trace_events_have_a_slice_for_each_call_and_an_arrow_for_each_stale_fire(self):
        events = json.loads(self.text_written(_exports.write_perfetto))["traceEvents"]
        slices = [event for event in events if event["ph"] == "X"]
        self.assertEqual(len(slices), check(self.journal)[0])
        stale = [event for event in slices if event["cat"] == "stale"]
        self.assertEqual(len([event for event in events if event["ph"] == "s"]), len(stale))
        self.assertEqual(len([event for event in events if event["ph"] == "f"]), len(stale))
        for begin, end in zip((it for it in events if it["ph"] == "s"), (it for it in events if it["ph"] == "f")):
            self.assertLess(begin["ts"], end["ts"])

    def test_the_command_line_takes_files(self):
        with tempfile.TemporaryDirectory() as room:
            good, bad = pathlib.Path(room, "good"), pathlib.Path(room, "bad")
            good.write_bytes(self.journal)
            bad.write_bytes(self.journal[:-1])

            # The package that is tested, wherever this is run.
            package = pathlib.Path(_exports.__file__).resolve().parents[1]

            def call(*words, **more):
                command = [sys.executable, "-m", "folugben", *words]
                return subprocess.run(command, capture_output=True, text=True, env=os.environ | {"PYTHONPATH": str(package)}, **more)

            ran = call("check", str(good), str(bad))
            calls, moves = check(self.journal)
            self.assertIn(f"{good}: legal {calls} {moves}\n", ran.stdout)
            self.assertEqual(ran.returncode, 1)
            self.assertEqual(call("check", "-", input=self.journal.decode()).stdout, f"legal {calls} {moves}\n")
            for command in ("replay", "trace", "csv", "itf", "perfetto", "view"):
                out = pathlib.Path(room, command)
                ran = call(command, str(good), "-o", str(out))
                self.assertEqual((ran.returncode, ran.stderr, out.stat().st_size > 20), (0, "", True), command)
                self.assertEqual(call(command, str(bad)).returncode, 1)
            self.assertIn('"trace":1', pathlib.Path(room, "view").read_text())
            self.assertEqual(call("csv", str(pathlib.Path(room, "absent"))).returncode, 2)
            ran = call("csv", str(good), "-o", str(good))
            self.assertEqual((ran.returncode, good.read_bytes()), (2, self.journal))
            self.assertIn("is read, so it can't be written", ran.stderr)
            ran = json.loads(call("itf", str(good), "--from", "2", "--to", "3").stdout)
            self.assertEqual([it["#meta"]["index"] for it in ran["states"]], [2, 3])


class RecordedRuns(own.Recorded, Runs):
    pass


if __name__ == "__main__":
    unittest.main()
