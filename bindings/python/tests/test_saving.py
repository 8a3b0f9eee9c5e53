"""Tests of when the moves of a run are on the disk: flushes, time and signals.

They also cover readers of a run from outside.
"""
import contextlib
import io
import itertools
import os
import random
import signal
import subprocess
import sys
import threading
import time
import unittest
from unittest import mock

from folugben import BadJournalError, Error, PastError, Run, Storage, __main__, _part, _parts, audit, check, import_run, interleave, states
from core_work import used_bytes
from rooms import BANK, COUNT, INIT, Rooms, environment, raised, run_python, segments, text_of, transfer, until
from threads import in_threads


class Clock:
    """The time of runs, which advances as a test says; nobody waits for it."""

    sleep = staticmethod(time.sleep)

    def __init__(self):
        self.now = 5.0

    def monotonic(self):
        return self.now


class Days(Rooms):
    """Runs of few moves, whose parts end by the clock."""

    def setUp(self):
        super().setUp()
        self.clock = Clock()
        for module in _part, _parts:
            self.enterContext(mock.patch.object(module, "time", self.clock))
        # The writer polls the clock.
        for name in "_SOON", "_LATER":
            self.enterContext(mock.patch.object(_parts, name, 0.001))

    def test_a_day_of_a_slow_run(self):
        rng = random.Random(3)
        moves, parts, grown = self.live_a_day([rng.expovariate(1 / 600) for _ in range(200)], 60.0)
        self.assertGreater(moves, 100)
        self.assertGreater(parts, 80)
        self.assertLess(grown, 2**22)

    def live_a_day(self, gaps, every):
        """Play a move after each of this many seconds, for 24 hours.

        Return how many moves and parts there are, and how many bytes of memory came in the second half.
        """
        times = [at for at in itertools.accumulate(gaps) if at < 86_400]
        start, wanted, before, clock = self.clock.now, [0], 0, self.clock
        with Run(self.path, INIT, every=every) as run, run.agent(0) as agent:
            for at in times:
                if wanted[1:] and start + at >= ends:
                    clock.now = ends
                    self.end_part(run, agent, wanted)
                clock.now = start + at
                is_first = run._chain.newest().moves() == 0
                self.assertEqual(agent.play(raised)[0], sum(wanted) + 1)
                if is_first:
                    until(lambda: run._chain.newest().first_move_at == clock.now)
                    ends = clock.now + every
                    wanted.append(0)
                wanted[-1] += 1
                before = before or used_bytes() * (at > 43_200)
            clock.now = ends
            self.end_part(run, agent, wanted)
            grown = used_bytes() - before
            self.assertEqual(run.state(), (len(times), [(COUNT, len(times))]))
        self.assertEqual([check(file.read_bytes())[1] for file in segments(self.path)], wanted)
        self.assertEqual(audit(self.path), (len(times), len(times), len(wanted)))
        self.assertEqual(len(os.listdir(self.path)), len(wanted) + 1)
        with Run.resume(self.path, every=every) as run, run.agent(0) as agent:
            self.assertEqual(agent.play(raised)[0], len(times) + 1)
        self.assertEqual(self.last_state(), [(COUNT, len(times) + 1)])
        return len(times), len(wanted), grown

    def end_part(self, run, agent, wanted):
        """Wait until the part whose time is over is on the disk, and for agents in a step."""
        if len(wanted) % 10 == 0:
            with agent.step() as step:
                raised(step)
                until(lambda: run._chain.newest().most == 0)
                self.assertEqual(run.parts, len(wanted) - 1)
                self.clock.now += 2 * _part.PATIENCE
                until(lambda: run.parts == len(wanted))
                self.assertRaises(PastError, step.commit)
        until(lambda: run.parts == len(wanted))
        self.assertEqual(run.saved, sum(wanted))
        # It was the only one that wasn't saved, and its memory is released.
        until(lambda: run._chain._oldest is run._chain.newest())


class Races(Rooms):
    """The writer's view of an agent during a call of the agent."""

    def test_an_agent_is_returned_only_between_its_steps(self):
        with Run(self.path, INIT, 100) as run, run.agent(0) as agent:
            agent.play(raised)
            step = agent.step()
            self.assertFalse(agent._in._try_return(False))
            step.push([["inc", COUNT, 1]])
            self.assertEqual((step.commit(), step.number, step.fired), (2, 1, 2))
            self.assertTrue(agent._in._try_return(False))
            self.assertEqual(agent.play(raised), (3, None))
            with agent.step() as step:
                self.assertTrue(agent._in._try_return(True))
                with self.assertRaises(PastError):
                    step.get([COUNT])
            self.assertEqual(agent.play(raised), (4, None))
        self.assertEqual(audit(self.path).moves, 4)

    def test_an_agent_that_is_in_a_call_is_not_returned(self):
        # A large state makes its calls long, and the calls that return it come during them.
        state, ended = INIT + [[["y", number], "y" * 100] for number in range(50_000)], threading.Event()

        def poll():
            while not ended.is_set():
                inner._try_return(False)

        with Run(self.path, state, 1000) as run, run.agent(0) as agent:
            thread = threading.Thread(target=poll)
            agent.follow()
            inner = agent._in
            thread.start()
            for _ in range(5):
                self.assertEqual(len(agent.state()[1]), 50_000 + len(INIT))
                agent.play(raised)
            ended.set()
            thread.join()
        self.assertEqual(audit(self.path).moves, 5)


class Saving(Rooms):
    def test_a_flush_saves_all_moves_up_to_now(self):
        with Run(self.path, INIT) as run, run.agent(0) as agent, run.agent(1) as other:
            run.flush()
            self.assertEqual((run.saved, run.parts), (0, 1))
            for number in range(1, 6):
                agent.play(raised)
                other.follow()
                run.flush()
                self.assertEqual((run.saved, audit(self.path)[1:]), (number, (number, number + 1)))
            run.flush()
            self.assertEqual(run.parts, 6)
        with self.assertRaisesRegex(Error, "the run was closed"):
            run.flush()

    def test_a_flush_waits_for_no_step_for_long(self):
        with Run(self.path, INIT) as run, run.agent(0) as agent, run.agent(1) as slow, slow.step() as step:
            agent.play(raised)
            start = time.monotonic()
            run.flush()
            self.assertEqual((run.saved, step.try_commit()), (1, 0))
            self.assertTrue(0.05 < time.monotonic() - start < 5)
            self.assertRaises(PastError, step.commit)
            with slow.step() as step:
                step.push([["inc", COUNT, 1]])
                self.assertEqual(step.commit(), 2)

    def test_flushes_while_threads_are_at_work(self):
        def work(own):
            rng = random.Random(own)
            with run.agent(own) as agent:
                for _ in range(60):
                    number, _ = transfer(agent, rng)
                    if rng.random() < 0.2:
                        run.flush()
                        self.assertGreaterEqual(run.saved, number)

        with Run(self.path, BANK, 50) as run:
            self.assertEqual(in_threads(work, 4), ([], True))
        self.assertEqual(audit(self.path).moves, 240)
        for _, values in states(run):
            self.assertEqual(sum(values.values()), 600)

    def test_a_flush_by_turns(self):
        with Run(self.path, BANK, 50) as run:
            agents = [run.agent(own) for own in range(3)]

            def work(agent):
                rng = random.Random(agent.number)
                for _ in range(5):
                    number, _ = transfer(agent, rng)
                    run.flush()
                    self.assertGreaterEqual(run.saved, number)

            interleave(agents, [work] * 3, 1)
        self.assertEqual(audit(self.path).moves, 15)

    def test_what_is_refused_makes_no_folder(self):
        for words in {"every": 0}, {"every": "x"}, {"receipts": -1}, {"receipts": "x"}:
            with self.assertRaisesRegex(ValueError, f"{next(iter(words))} is a .*number .*, and not"):
                Run(self.path, INIT, **words)
        self.assertFalse(self.path.exists())

    def test_a_part_ends_by_time(self):
        with Run(self.path, INIT, every=0.1) as run, run.agent(0) as agent:
            time.sleep(0.3)
            self.assertEqual(run.parts, 1)
            for number in range(1, 4):
                agent.play(raised)
                until(lambda: run.saved == number)
                self.assertEqual(audit(self.path).moves, number)

    def test_sigterm_ends_the_with(self):
        code = """
import sys, time
from concurrent.futures import ThreadPoolExecutor
from threading import Event
from folugben import Error, Run
def work(own):
    with run.agent(own) as agent:
        while True:
            agent.play(lambda step: step.push([["inc", ["count"], 1]]))
with Run(sys.argv[1], [[["count"], 0]]) as run, ThreadPoolExecutor() as pool:
    for own in range(2):
        pool.submit(work, own)
    # An event of its own: an exit from within `wait` of futures may hold the locks that their threads need to end.
    idle = Event()
    while run.state()[0] < 100:
        time.sleep(0.01)
    print("begun", flush=True)
    # Python handles a signal that arrives just before it blocks only afterwards.
    while True:
        idle.wait(1) if sys.argv[2] == "wait" else time.sleep(1)
"""
        for how in "wait", "sleep":
            path = self.room / how
            with subprocess.Popen([sys.executable, "-c", code, path, how], env=environment(), stdout=subprocess.PIPE) as child:
                self.assertEqual(child.stdout.readline(), b"begun\n")
                child.send_signal(signal.SIGTERM)
                self.assertEqual(child.wait(30), 128 + signal.SIGTERM)
            self.assertGreaterEqual(audit(path).moves, 100)

    def test_the_handler_of_a_program_stays(self):
        was = signal.signal(signal.SIGTERM, lambda *_: None)
        self.addCleanup(signal.signal, signal.SIGTERM, was)
        own = signal.getsignal(signal.SIGTERM)
        with Run(self.path, INIT):
            self.assertIs(signal.getsignal(signal.SIGTERM), own)
        signal.signal(signal.SIGTERM, signal.SIG_DFL)
        with Run(self.room / "1", INIT), Run(self.room / "2", INIT):
            self.assertNotIn(signal.getsignal(signal.SIGTERM), (own, signal.SIG_DFL))
        self.assertIs(signal.getsignal(signal.SIGTERM), signal.SIG_DFL)

    def test_the_state_of_a_run(self):
        with Run(self.path, INIT, 4) as run:
            self.assertEqual(run.state(), (0, INIT))
            with run.agent(0) as agent, run.agent(1) as other:
                for number in range(1, 10):
                    agent.play(raised)
                    self.assertEqual(run.state(), (number, [(COUNT, number)]))
                    other.follow()
            self.assertEqual(run.state(), (9, [(COUNT, 9)]))
            agents = [run.agent(own) for own in range(5)]
            for agent in agents:
                agent.play(raised)
            self.assertEqual(run.state(), (14, [(COUNT, 14)]))
        self.assertEqual(audit(self.path)[1], 14)
        with self.assertRaisesRegex(Error, "the run was closed"):
            run.state()

    def test_states_of_an_active_run(self):
        with Run(self.path, INIT, 4) as run, run.agent(0) as agent:
            for _ in range(9):
                agent.play(raised)
            until(lambda: run.saved == 8)
            for it in run, self.path:
                self.assertEqual([number for number, _ in states(it)], list(range(9)))


class Commands(Rooms):
    def setUp(self):
        super().setUp()
        with Run(self.path, INIT, 4) as run, run.agent(0) as agent:
            for _ in range(6):
                agent.play(raised)

    def run_command(self, *words):
        with contextlib.redirect_stdout(io.StringIO()) as out, contextlib.redirect_stderr(io.StringIO()) as error:
            status = __main__.main([str(word) for word in words])
        return status, out.getvalue(), error.getvalue()

    def test_commands_on_a_folder(self):
        self.assertEqual(self.run_command("audit", self.path), (0, "legal 6 6 3\n", ""))
        self.assertRegex(self.run_command("verify", self.path)[1], "^3 segments, 6 moves, digest [0-9a-f]{64}\n$")
        out = self.room / "one"
        self.assertEqual(self.run_command("save", self.path, "-o", out), (0, "", ""))
        self.assertEqual(out.read_bytes(), text_of(self.path))
        for command in "check", "replay", "trace", "csv", "itf", "perfetto", "view":
            status, _, message = self.run_command(command, self.path)
            self.assertEqual(status, 2)
            self.assertIn("one part: --part 0 and so on", message)
            self.assertEqual(self.run_command(command, self.path, "--part", "1", "-o", out), (0, "", ""), command)
        self.assertEqual(self.run_command("check", self.path, "--part", "1")[1], "legal 4 4\n")
        segments(self.path)[1].write_bytes(b"")
        for command in "audit", "verify", "save":
            words = ["-o", out] if command == "save" else []
            self.assertEqual(self.run_command(command, self.path, *words)[::2],
                             (1, f"folugben: {self.path}: segment 1: its text isn't the one that was saved\n"))
        self.assertEqual(self.run_command("verify", self.room / "absent")[0], 2)

    def test_an_audit_that_follows(self):
        command = [sys.executable, "-m", "folugben", "follow", self.path]
        # A process in the background of a script ignores Ctrl-C, and so would its child.
        heard = {"preexec_fn": lambda: signal.signal(signal.SIGINT, signal.SIG_DFL)}
        with subprocess.Popen(command, env=environment(), stdout=subprocess.PIPE, text=True, **heard) as child:
            try:
                self.assertEqual(child.stdout.readline(), "legal so far 6 6 3\n")
                with Run.resume(self.path, 4) as run, run.agent(0) as agent:
                    agent.play(raised)
                    run.flush()
                    self.assertEqual(child.stdout.readline(), "legal so far 7 7 4\n")
                child.send_signal(signal.SIGINT)
                self.assertEqual(child.wait(30), 0)
            finally:
                child.kill()


class Imports(Rooms):
    """Runs that are one file."""

    def setUp(self):
        super().setUp()
        with Run(self.room / "made", INIT, 4) as run, run.agent(0) as agent:
            for _ in range(10):
                agent.play(raised)
        self.complete = text_of(self.room / "made")
        self.file = self.room / "file"

    def test_a_file_is_imported(self):
        self.file.write_bytes(self.complete)
        self.assertEqual(import_run(self.file, self.path), ((10, 10, 4), 0))
        self.assertEqual([it.name for it in segments(self.path)], [it.name for it in segments(self.room / "made")])
        with Run.resume(self.path) as run, run.agent(0) as agent:
            self.assertEqual(agent.play(raised), (11, None))
        self.assertRaises(FileExistsError, import_run, self.file, self.path)
        self.assertEqual(self.file.read_bytes(), self.complete)
        ran = run_python("import sys; from folugben.__main__ import main; sys.exit(main(['import', *sys.argv[1:]]))", self.file, self.room / "2")
        self.assertEqual((ran.stdout, ran.stderr, ran.returncode), ("10 moves in 4 parts\n", "", 0))

    def test_an_incomplete_last_part_is_left_out(self):
        last = len(self.complete) - segments(self.room / "made")[3].stat().st_size
        for number, more in enumerate([b"", bytes(100), *(self.complete[last:end] for end in (last + 1, last + 50, -1))]):
            self.file.write_bytes(self.complete[:last] + more)
            path = self.room / str(number)
            self.assertEqual(import_run(self.file, path), ((8, 8, 3), len(more)))
            self.assertEqual(audit(path), (8, 8, 3))

    def test_other_faults_are_refused(self):
        middle = len(self.complete) // 2
        for text in (b"", b"{", self.complete[:30], self.complete[:middle] + self.complete[middle + 1 :],
                     self.complete.replace(b'{"fired":3}', b'{"fired":7}', 1), self.complete[:-4] + b"7}}\n"):
            self.file.write_bytes(text)
            with self.assertRaises(BadJournalError):
                import_run(self.file, self.path)
            self.assertEqual(sorted(it.name for it in self.room.iterdir()), ["file", "made"])

    def test_a_journal_with_calls_has_an_opening_segment(self):
        with Storage(INIT, 10) as storage:
            with storage.agent(0) as agent:
                agent.play(raised)
            self.file.write_bytes(storage.close_journal())
        self.assertEqual(import_run(self.file, self.path), ((1, 1, 1), 0))
        self.assertEqual(audit(self.path), (1, 1, 2))


if __name__ == "__main__":
    unittest.main()
