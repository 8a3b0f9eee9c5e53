"""Tests of shared runs over each database, for a class of one of them."""
import io
import json
import os
import random
import signal
import subprocess
import sys
import threading
import time
from unittest import mock

from folugben import BrokenError, ClashError, DamagedError, Error, ForkedError, MismatchError, Move, OverError, PastError, SharedRun, StaleError
from folugben import UnknownError, audit, check, states
from folugben._reading import save, texts, verify
from folugben_engine import bank
from folugben_engine.agents import live_all
from rooms import AT, COUNT, INIT, Rooms, environment, raised, until
from shared_bank import ACCOUNTS, BANK, MONEY
from threads import in_threads


class Shared(Rooms):
    """Properties over each database."""

    def setUp(self):
        super().setUp()
        self.target = str(self.room / "bank.db")

    def text(self):
        """Return the run as one text."""
        out = io.BytesIO()
        save(self.target, out)
        return out.getvalue()

    def assert_is_run(self, moves):
        """Check that the run is legal and has this many moves.

        Each of them raised the count.
        """
        self.assertEqual(audit(self.target).moves, moves)
        self.assertEqual(audit(io.BytesIO(self.text())), audit(self.target))
        counts = [values[("count",)] for _, values in states(_Target(self.target))]
        self.assertEqual(counts, list(range(moves + 1)))
        verify(self.target)


class Plays(Shared):
    def test_agents_in_threads(self):
        def work(own):
            with run.agent(own) as agent:
                for _ in range(30):
                    numbers[own].append(agent.play(raised)[0])
                self.assertEqual((agent.won, agent.number), (30, own))

        numbers = [[] for _ in range(4)]
        with SharedRun(self.target, INIT, 25) as run:
            self.assertEqual(in_threads(work, 4), ([], True))
            self.assertEqual(run.state(), (120, [(COUNT, 120)]))
        self.assertEqual(sorted(sum(numbers, [])), list(range(1, 121)))
        self.assertTrue(all(it == sorted(it) for it in numbers))
        self.assert_is_run(120)

    def test_two_replicas_have_the_same_states(self):
        with SharedRun(self.target, INIT, 4) as one, SharedRun(self.target) as other:
            with one.agent(0) as anna, other.agent(1) as ben:
                for number in range(1, 20, 2):
                    self.assertEqual(anna.play(raised), (number, None))
                    self.assertEqual(ben.follow(), number)
                    self.assertEqual((ben.peek(AT), ben.peek([COUNT])), ((number, number), (number, [number])))
                    self.assertEqual(ben.play(raised), (number + 1, None))
                    self.assertEqual(anna.follow(), number + 1)
                    self.assertEqual((anna.state(), anna.scan("count")), 2 * ((number + 1, [(COUNT, number + 1)]),))
            with SharedRun(self.target) as late:
                self.assertEqual([it.state() for it in (one, other, late)], 3 * [(20, [(COUNT, 20)])])
        self.assert_is_run(20)
        agents = [json.loads(line)["agent"] for line in self.text().splitlines() if b'"call"' in line]
        self.assertEqual(agents, 10 * [0, 1])

    def test_a_step_depends_on_its_reads_and_scans(self):
        with SharedRun(self.target, INIT, 100) as run, run.agent(0) as agent, run.agent(1) as other:
            for see, change in [
                (lambda step: step.get([COUNT]), [["put", COUNT, 7]]),
                (lambda step: step.get(AT), [["inc", COUNT, 1]]),
                (lambda step: step.scan("task"), [["put", ["task", 1], True]]),
                (lambda step: step.scan("task"), [["put", ["task", 1], None]]),
            ]:
                for is_changed in False, True:
                    with agent.step() as step:
                        see(step)
                        step.push([["put", ["own"], 1]])
                        if is_changed:
                            other.play(lambda step: step.push(change))
                            self.assertRaises(StaleError, step.commit)
                            self.assertEqual((step.try_commit(), step.fired), (0, 0))
                        else:
                            self.assertEqual(step.commit(), step.fired)
                            self.assertRaises(OverError, step.get, [COUNT])
            agent.play(lambda step: step.push([["put", ["s"], {"set": []}]]))
            with agent.step() as step:
                step.push([["add", ["s"], 1]])
                other.play(lambda step: step.push([["put", ["s"], 3]]))
                with self.assertRaises(ClashError) as caught:
                    step.commit()
                self.assertEqual(caught.exception.at, ("s",))
            number = run.state()[0]
            agent.play(lambda step: step.push(Move().put(COUNT, 1)))
            self.assertEqual(run.state()[0], number + 1)

    def test_partial_updates_of_two_agents_are_both_fired(self):
        with SharedRun(self.target, INIT, 100) as run, run.agent(0) as agent, run.agent(1) as other:
            with agent.step() as one, other.step() as two:
                one.push([["inc", COUNT, 2]])
                two.push([["inc", COUNT, 3]])
                self.assertEqual((one.offer(), one.number), ({"fire": (("inc", COUNT, 2),), "reads": ()}, 0))
                self.assertEqual((one.commit(), two.commit()), (1, 2))
            self.assertEqual(run.state(), (2, [(COUNT, 5)]))

    def test_a_step_of_a_segment_that_has_ended(self):
        with SharedRun(self.target, INIT, 3) as run, run.agent(0) as slow, run.agent(1) as quick:
            step = slow.step()
            step.push([["inc", COUNT, 1]])
            for _ in range(4):
                quick.play(raised)
            self.assertEqual((step.get(AT), step.number), (1, 0))
            self.assertEqual(step.try_commit(), 0)
            self.assertRaises(PastError, step.commit)
            step.free()
            self.assertEqual(slow.play(raised), (5, None))
            self.assertEqual(slow.seen, 5)
        self.assert_is_run(5)

    def test_stale_calls_end_a_segment_too(self):
        with SharedRun(self.target, INIT, 10) as run, run.agent(0) as agent, run.agent(1) as other:
            for number in range(1, 31):
                with agent.step() as step:
                    raised(step)
                    other.play(raised)
                    self.assertEqual(step.try_commit(), 0)
        calls, moves, parts = audit(self.target)
        self.assertEqual((moves, parts), (30, 4))
        self.assertTrue(all(check(text)[0] <= 20 for _, text in texts(self.target)))

    def test_numbers_of_agents(self):
        with SharedRun(self.target, INIT) as run, SharedRun(self.target) as other:
            agent = run.agent(3)
            for it, message in (run, "agent 3"), (other, "agent 3 is in use by another process"):
                with self.assertRaisesRegex(Error, message):
                    it.agent(3)
            agent.give()
            agent.give()
            for call in (agent.step, agent.follow, lambda: agent.peek(AT)):
                with self.assertRaisesRegex(Error, "was returned"):
                    call()
            with other.agent(3) as again:
                self.assertEqual(again.play(raised)[0], 1)
            for _ in range(300):
                with run.agent(3) as again:
                    again.peek(AT)
            self.assertRaises(Error, run.agent, 256)
        with self.assertRaisesRegex(Error, "the run was closed"):
            run.agent(3)

    def test_the_arguments_must_fit_the_run(self):
        self.assertRaises(FileNotFoundError, SharedRun, self.target)
        SharedRun(self.target, INIT, 7).close()
        SharedRun(self.target, INIT, 100).close()
        self.assertRaises(MismatchError, SharedRun, self.target, BANK)
        with SharedRun(self.target) as run, run.agent(0) as agent:
            for _ in range(10):
                agent.play(raised)
        self.assertEqual(audit(self.target), (10, 10, 3))
        self.alter("update run set format = 9")
        for call in (SharedRun, audit, verify):
            with self.assertRaisesRegex(MismatchError, "of version 9"):
                call(self.target)

    def test_altered_data_is_found(self):
        with SharedRun(self.target, INIT, 3) as run, run.agent(0) as agent:
            for _ in range(10):
                agent.play(raised)
        self.alter("update segment set digest = replace(digest, substr(digest, 1, 4), '0000') where number = 2")
        for call in audit, verify:
            with self.assertRaises(DamagedError) as caught:
                call(self.target)
            self.assertEqual(caught.exception.segment, 2)

    def test_replicas_that_differ_are_found(self):
        with self.assertRaises(BrokenError) as caught, SharedRun(self.target, INIT, 3) as run, SharedRun(self.target) as other:
            with run.agent(0) as agent, other.agent(1) as ben:
                era = other._worker.replica.era
                agent.play(raised)
                ben.follow()
                era.agents[0] = 7
                for _ in range(5):
                    agent.play(raised)
                # The second process to save it finds the other's.
                until(lambda: other._worker._fault is not None or run._worker._fault is not None)
                ben.follow()
                agent.follow()
        self.assertRegex(str(caught.exception.__cause__), "segment 1: another process has saved another text")

    def test_a_process_that_is_behind_rejoins(self):
        for is_sent in False, True:
            self.target += "x"
            with SharedRun(self.target, INIT, 2) as run, SharedRun(self.target) as other:
                with run.agent(0) as agent, other.agent(1) as ben:
                    ben.play(raised)
                    answers = []

                    def play():
                        try:
                            answers.append(ben.play(raised))
                        except UnknownError as unknown:
                            answers.append(unknown)

                    def exchanged(batch):
                        if batch and not is_behind.is_set():
                            has_batch.set()
                            is_behind.wait(60)
                        return exchange(batch)

                    thread, has_batch, is_behind = threading.Thread(target=play), threading.Event(), threading.Event()
                    exchange = other._worker._exchange
                    with mock.patch.object(other._worker, "_exchange", exchanged):
                        thread.start()
                        self.assertTrue(has_batch.wait(60))
                        for waiter in other._worker._sent_calls.values():
                            waiter.is_sent = is_sent
                        for _ in range(20):
                            agent.play(raised)
                        is_behind.set()
                        thread.join(60)
                    self.assertIsInstance(answers[0], UnknownError if is_sent else tuple)
                    self.assertEqual(ben.follow(), other.state()[0])
                    self.assertGreater(ben.play(raised)[0], 21)
                self.assertEqual(run.state(), other.state())

    def test_an_engine_over_two_replicas(self):
        programs = bank.PROGRAMS
        with SharedRun(self.target, bank.INIT, 50) as one, SharedRun(self.target) as other:
            half = len(programs) // 2
            lives = [threading.Thread(target=live_all, args=(run, some, None, first))
                     for run, some, first in ((one, programs[:half], 0), (other, programs[half:], half))]
            for life in lives:
                life.start()
            for life in lives:
                life.join(60)
            self.assertFalse(any(life.is_alive() for life in lives))
            self.assertEqual(one.state(), other.state())
        for _, values in states(one):
            accounts = [money for at, money in values.items() if at[0] == "account"]
            self.assertEqual(sum(accounts), bank.CUSTOMERS * bank.OPENING)

    def test_an_engine_in_two_processes(self):
        code = """
import sys
from folugben import SharedRun
from folugben_engine import bank
from folugben_engine.agents import live_all
first = int(sys.argv[2])
with SharedRun(sys.argv[1], bank.INIT, 50) as run:
    live_all(run, bank.PROGRAMS[first : first + 4], None, first)
"""
        command = [sys.executable, "-c", code, str(self.target)]
        children = [subprocess.Popen([*command, str(first)], env=environment(), stderr=subprocess.PIPE) for first in (0, 4)]
        self.assertEqual([(child.communicate(timeout=120)[1], child.returncode) for child in children], [(b"", 0)] * 2)
        self.assertEqual(audit(self.target).moves, bank.CUSTOMERS * bank.TIMES)
        for _, values in states(_Target(self.target)):
            accounts = [money for at, money in values.items() if at[0] == "account"]
            self.assertEqual(sum(accounts), bank.CUSTOMERS * bank.OPENING)

    def test_a_fork_is_refused_and_harms_nothing(self):
        with SharedRun(self.target, INIT) as run, run.agent(0) as agent:
            agent.play(raised)
            child = os.fork()
            if child == 0:
                status = 1
                try:
                    agent.play(raised)
                except ForkedError:
                    status = 0
                finally:
                    os._exit(status)
            self.assertEqual(os.waitpid(child, 0)[1], 0)
            self.assertEqual(agent.play(raised)[0], 2)
        self.assert_is_run(2)

    def test_processes_that_are_killed(self):
        self.kill(3, 2, 4, 6)

    # What else is done now and then.
    disturb = None

    def kill_many(self, kills):
        return self.kill(8, 4, 20, kills)

    def kill(self, processes, agents, times, kills):
        """Run processes on one run, and kill some of them.

        No answered move is lost or done twice.
        """
        rng, answers = random.Random(), []

        def start(place):
            words = [sys.executable, "shared_bank.py", self.target, agents * place, agents, times]
            return subprocess.Popen(list(map(str, words)), env=environment(), stdout=subprocess.PIPE, text=True,
                                    cwd=os.path.dirname(os.path.abspath(__file__)))

        alive = [start(place) for place in range(processes)]
        while kills:
            time.sleep(rng.random() * 0.4)
            if self.disturb is not None and rng.random() < 0.3:
                self.disturb()
            place = rng.randrange(processes)
            alive[place].send_signal(signal.SIGKILL)
            answers += alive[place].communicate()[0].splitlines()
            alive[place] = start(place)
            kills -= 1
        for child in alive:
            answers += child.communicate(timeout=300)[0].splitlines()
            self.assertEqual(child.returncode, 0)
        return self.assert_none_lost([json.loads(line) for line in answers if line.endswith("]")])

    def assert_none_lost(self, answers):
        """Check that each answered move is in the run once, with its number.

        Each state has the sum.
        """
        marks = []
        for _, values in states(_Target(self.target)):
            self.assertEqual(sum(values["account", own] for own in range(ACCOUNTS)), ACCOUNTS * MONEY)
            marks.append(values.get(("mark",)))
        self.assertEqual(len(set(marks)), len(marks))
        self.assertEqual({number: marks[number] for number, _ in answers}, dict(answers))
        self.assertEqual(audit(self.target).moves, len(marks) - 1)
        with SharedRun(self.target) as one, SharedRun(self.target) as other:
            self.assertEqual(one.state(), other.state())
        return len(marks), len(answers)


class _Target:
    """A substitute for a run."""

    def __init__(self, target):
        self.path = target
