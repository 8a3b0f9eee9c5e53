"""Tests of how runs end.

They end by close, by a lost agent or a failed write, in a fork, and by signal handlers that raise.
"""
import errno
import gc
import json
import os
import signal
import sys
import threading
import time
import unittest
from unittest import mock

from folugben import Agent, BrokenError, Error, ForkedError, MissingError, NestedError, Run, Storage, audit
from rooms import AT, COUNT, INIT, Rooms, raised, run_python, until
from threads import in_threads


class Ends(Rooms):
    def test_close_returns_all_agents_and_ends_steps(self):
        run = Run(self.path, INIT, 5)
        agents = [run.agent(own) for own in range(3)]
        for _ in range(4):
            agents[0].play(raised)
            agents[1].play(raised)
        step = agents[2].step()
        step.push([["inc", COUNT, 1]])
        run.close()
        run.close()
        for call in (
            step.commit, step.try_commit, lambda: step.get(AT), lambda: step.push([]), agents[0].step, agents[1].follow,
            lambda: agents[2].play(raised), lambda: run.agent(5), lambda: agents[0].peek(AT), lambda: agents[0].fire([]),
        ):
            with self.assertRaisesRegex(Error, "the run was closed"):
                call()
        agents[0].give()
        agents[1].abandon()
        self.assertEqual(([agent.won for agent in agents], agents[0].seen), ([4, 4, 0], 7))
        self.assertEqual(audit(self.path), (8, 8, 3))
        self.assertIn("8 moves in 3 parts", repr(run))

    def test_close_while_threads_are_at_work(self):
        def work(own):
            if own == 0:
                until(lambda: run.parts > 5)
                run.close()
                return
            # The run may be closed before it gives the agent.
            try:
                with run.agent(own) as agent:
                    while True:
                        last[own] = agent.play(raised)[0]
            except Error as error:
                self.assertEqual(type(error), Error)
                self.assertIn("the run was closed", str(error))

        last = [0] * 5
        with Run(self.path, INIT, 20) as run:
            self.assertEqual(in_threads(work, 5), ([], True))
        self.assertGreaterEqual(audit(self.path).moves, max(last))
        self.assertEqual(self.last_state(), [(COUNT, audit(self.path).moves)])

    def test_what_the_body_raises_closes_the_run(self):
        with self.assertRaises(KeyError), Run(self.path, INIT, 5) as run, run.agent(0) as agent:
            for _ in range(7):
                agent.play(raised)
            raise KeyError
        self.assertEqual(audit(self.path), (7, 7, 3))

    def test_a_run_without_a_move(self):
        Run(self.path, INIT).close()
        self.assertEqual((audit(self.path), self.last_state()), ((0, 0, 1), INIT))
        with Run.resume(self.path) as run:
            run.agent(0).follow()
        self.assertEqual(audit(self.path), (0, 0, 1))

    def test_an_agent_that_is_lost_ends_the_run_for_all(self):
        def work(own):
            with run.agent(own) as agent:
                agent.play(raised)
                start.wait()
                try:
                    while True:
                        agent.play(raised)
                        if own == 2 and run.parts > 3:
                            agent.play(raised)
                            return agent.abandon()
                except BrokenError as broken:
                    errors.append(broken)

        errors, start = [], threading.Barrier(4)
        with self.assertRaises(BrokenError) as caught, Run(self.path, INIT, 20) as run:
            self.assertEqual(in_threads(work, 4), ([], True))
        self.assertEqual(len(errors), 3)
        parts = audit(self.path).parts
        for broken in (*errors, caught.exception):
            self.assertEqual((broken.part, type(broken.__cause__)), (parts, MissingError))
            self.assertRegex(str(broken), f"part {parts} couldn't be written: .*agent 2 was abandoned")
        self.assertEqual(audit(self.path).moves, 20 * (parts - 1))
        # The complete part continues.
        with Run.resume(self.path, 20) as run, run.agent(2) as agent:
            self.assertEqual(agent.play(raised), (20 * (parts - 1) + 1, None))

    def assert_broken(self, fault, kind, is_named=False):
        def work(own):
            with run.agent(own) as agent:
                start.wait()
                with self.assertRaises(BrokenError) as caught:
                    while True:
                        agent.play(raised)
            errors.append(caught.exception)

        errors, start = [], threading.Barrier(3)
        with self.assertRaises(BrokenError), Run(self.path, INIT, 20) as run, run.agent(9) as other, fault:
            self.assertEqual(in_threads(work, 3), ([], True))
            for call in (other.step, other.follow, lambda: run.agent(8), run.close, lambda: other.play(raised)):
                with self.assertRaises(BrokenError):
                    call()
        counts = audit(self.path)
        self.assertEqual({(it.part, type(it.__cause__)) for it in errors}, {(run.parts, kind)})
        self.assertEqual(run.saved, 20 * (run.parts - 1))
        # A file that has its name is there, though nobody was informed.
        self.assertEqual(counts[1:], (run.saved + 20 * is_named, run.parts + is_named))
        return run.parts

    def test_a_write_that_fails_ends_the_run_and_harms_nothing(self):
        for number, last in enumerate((OSError(errno.ENOSPC, os.strerror(errno.ENOSPC)), 0)):
            self.path = self.room / f"run{number}"
            writes, real = [0], os.write

            def full(fd, data):
                writes[0] += 1
                if writes[0] == 5:
                    return real(fd, data[:100])
                if writes[0] == 6 and last:
                    raise last
                return real(fd, data) if writes[0] < 6 else 0  # which accepted no byte

            self.assertEqual(self.assert_broken(mock.patch.object(os, "write", full), OSError), 5)
            self.assertFalse((self.path / "new").exists())

    def test_a_flush_that_fails_ends_the_run(self):
        # The seventh is that of the fourth file, the eighth that of the folder, where the file has its name.
        for number in 7, 8:
            self.path = self.room / f"run{number}"
            syncs, real = [0], os.fsync

            def fails(fd):
                syncs[0] += 1
                if syncs[0] == number:
                    raise OSError(errno.EIO, os.strerror(errno.EIO))
                real(fd)

            self.assertEqual(self.assert_broken(mock.patch.object(os, "fsync", fails), OSError, number == 8), 4)

    def test_refused_memory_of_the_writer_ends_the_run(self):
        real, asked = Storage.close_journal, [0]

        def refused(storage):
            asked[0] += 1
            if asked[0] == 3:
                raise MemoryError
            return real(storage)

        self.assertEqual(self.assert_broken(mock.patch.object(Storage, "close_journal", refused), MemoryError), 3)

    def test_refused_memory_of_an_opening_is_reported_and_tried_again(self):
        real, asked = Agent.go_on, [0]

        def refused(*words):
            asked[0] += 1
            if asked[0] % 2:
                raise MemoryError
            return real(*words)

        with Run(self.path, INIT, 3) as run, run.agent(0) as agent:
            with mock.patch.object(Agent, "go_on", refused):
                saved = 0
                for _ in range(20):
                    try:
                        agent.play(raised)
                    except MemoryError:
                        saved += 1
        self.assertEqual((saved, audit(self.path).moves), (5, 15))

    def test_a_full_disk(self):
        """A limit of the process takes the place of the disk."""
        code = """
import resource, sys
from folugben import BrokenError, Run
resource.setrlimit(resource.RLIMIT_FSIZE, (3_000, 3_000))
try:
    with Run(sys.argv[1], [[["count"], 0]], 30) as run, run.agent(0) as agent:
        while True:
            text = "x" * (run.parts * 20)
            agent.play(lambda step: step.push([["put", ["count"], text]]))
except BrokenError as broken:
    print(broken.part, broken.__cause__.errno, broken)
"""
        ran = run_python(code, self.path)
        number, error, message = ran.stdout.split(" ", 2)
        counts = audit(self.path)
        self.assertEqual((int(number), int(error), ran.stderr), (counts.parts, errno.EFBIG, ""))
        self.assertEqual(counts.moves, 30 * (counts.parts - 1))
        self.assertLess(counts.moves, 2_000)

    def test_a_run_that_nobody_closes_is_written(self):
        run = Run(self.path, INIT, 5)
        agent = run.agent(0)
        for _ in range(7):
            agent.play(raised)
        with self.assertWarnsRegex(ResourceWarning, "wasn't closed"):
            del agent, run
            gc.collect()
        until(lambda: audit(self.path).moves == 7)
        code = """
import sys
from folugben import Run
run = Run(sys.argv[1], [[["count"], 0]], 5)
agent = run.agent(0)
for _ in range(7):
    agent.play(lambda step: step.push([["inc", ["count"], 1]]))
"""
        other = self.room / "other"
        ran = run_python(code, other)
        self.assertEqual((ran.returncode, ran.stderr, audit(other)), (0, "", (7, 7, 3)))


class Processes(Rooms):
    def write_what_is_refused(self, run, agent, other, step, pipe):
        outcomes = []
        for call in (
            agent.step, lambda: agent.play(raised), other.step, lambda: other.play(raised), lambda: run.agent(3), run.close,
            step.commit, lambda: step.get([COUNT]), agent.follow, lambda: agent.fire([]), agent.give, agent.abandon,
        ):
            try:
                call()
                outcomes.append("done")
            except ForkedError:
                outcomes.append("forked")
            except BaseException as error:
                outcomes.append(repr(error))
        with Run(self.room / "own", INIT, 5) as own, own.agent(0) as new:
            outcomes.append(str(new.play(lambda step: step.push([["inc", COUNT, 1]]))))
        os.write(pipe, json.dumps(outcomes).encode() + b"\n")

    def test_a_fork_is_refused_and_holds_no_lock(self):
        run = Run(self.path, INIT, 5)
        agent, other = run.agent(0), run.agent(1)
        agent.play(raised)
        step = agent.step()
        ready, report, done = os.pipe(), os.pipe(), os.pipe()
        child = os.fork()
        if child == 0:
            try:
                self.write_what_is_refused(run, agent, other, step, report[1])
                os.read(ready[0], 1)
                os._exit(0)
            finally:
                os._exit(1)
        with open(report[0], "rb") as pipe:
            outcomes = json.loads(pipe.readline())
        self.assertEqual(outcomes, ["forked"] * 12 + ["folugben.Played(number=1, result=None)"])
        step.free()
        for _ in range(10):
            agent.play(raised)
        run.close()
        with Run.resume(self.path, 5) as run, run.agent(0) as agent:  # while the child is there
            agent.play(raised)
        self.assertEqual(audit(self.path).moves, 12)
        os.write(ready[1], b"x")
        self.assertEqual(os.waitpid(child, 0)[1], 0)
        for fd in (*ready, report[1], *done):
            os.close(fd)

    def test_a_child_that_ends_as_python_does(self):
        code = """
import os, sys
from folugben import Run
with Run(sys.argv[1], [[["count"], 0]], 5) as run, run.agent(0) as agent:
    for _ in range(7):
        agent.play(lambda step: step.push([["inc", ["count"], 1]]))
    if os.fork() == 0:
        sys.exit(0)
    os.wait()
    agent.play(lambda step: step.push([["inc", ["count"], 1]]))
"""
        ran = run_python(code, self.path)
        self.assertEqual(ran.returncode, 0, ran.stderr)
        self.assertEqual(audit(self.path), (8, 8, 3))


class Signals(Rooms):
    def test_a_handler_that_raises_leaves_the_run_fit_for_use(self):
        class Alarm(Exception):
            pass

        ready, alarms = False, 0

        def handler(*_):
            nonlocal ready
            if ready:
                ready = False
                raise Alarm

        was = signal.signal(signal.SIGALRM, handler)
        self.addCleanup(signal.signal, signal.SIGALRM, was)
        self.addCleanup(signal.setitimer, signal.ITIMER_REAL, 0)
        stop = threading.Event()

        def rival():
            with run.agent(1) as agent:
                while not stop.is_set():
                    agent.play(raised)

        def work():
            nonlocal ready, alarms
            short, end = None, time.monotonic() + 60
            while alarms < 300:
                try:
                    ready = True
                    agent.play(raised)
                    with run.agent(2) as short:
                        short.read([COUNT])
                    ready = False
                except Alarm:
                    alarms += 1
                    short = None  # which may not have reached its end
                self.assertLess(time.monotonic(), end)

        with mock.patch.object(sys, "unraisablehook", lambda _: None), Run(self.path, INIT, 3, receipts=64) as run:
            thread, agent = threading.Thread(target=rival, daemon=True), run.agent(0)
            thread.start()
            signal.setitimer(signal.ITIMER_REAL, 0.0005, 0.0003)
            work()
            signal.setitimer(signal.ITIMER_REAL, 0)
            stop.set()
            thread.join(60)
            self.assertFalse(thread.is_alive())
            before = agent.follow()
            self.assertEqual(agent.play(raised), (before + 1, None))
        self.assertEqual(self.last_state(), [(COUNT, before + 1)])
        self.assertEqual(audit(self.path).moves, before + 1)

    def test_no_call_comes_between_two_lines_of_another(self):
        outcomes = []
        real = Agent.go_on

        def between(*words):
            for call in (
                agent.step, lambda: agent.play(raised), other.step, run.close, lambda: run.agent(5), other.give, other.abandon,
            ):
                try:
                    call()
                    outcomes.append("done")
                except NestedError:
                    outcomes.append("nested")
            return real(*words)

        with Run(self.path, INIT, 2) as run, run.agent(0) as agent, run.agent(1) as other:
            other.play(raised)
            with mock.patch.object(Agent, "go_on", between):
                for _ in range(3):
                    agent.play(raised)
        self.assertEqual(outcomes, ["nested"] * 7)
        self.assertEqual(audit(self.path).moves, 4)

if __name__ == "__main__":
    unittest.main()
