"""Tests of the folders of runs: owners, content, and killed and resumed runs."""
import contextlib
import fcntl
import hashlib
import io
import os
import random
import re
import signal
import subprocess
import sys
import time
import unittest

from checkout import ROOT
from folugben import Error, Run, audit, states
from folugben._reading import verify
from rooms import ACCOUNTS, AT, COUNT, INIT, MONEY, Rooms, environment, raised, run_python, segments, transfer


class Folders(Rooms):
    def test_a_folder_belongs_to_one_run(self):
        with Run(self.path, INIT, 5) as run, run.agent(0) as agent:
            agent.play(raised)
            with self.assertRaises(FileExistsError):
                Run(self.path, INIT)
            with self.assertRaisesRegex(BlockingIOError, "another run uses the folder"):
                Run.resume(self.path)
            code = "import sys, folugben; folugben.Run.resume(sys.argv[1])"
            ran = run_python(code, self.path)
            self.assertIn("BlockingIOError", ran.stderr)
            agent.play(raised)
        with self.assertRaisesRegex(FileExistsError, "which Run.resume continues"):
            Run(self.path, INIT)
        with self.assertRaises(FileNotFoundError):
            Run.resume(self.room / "absent")
        with self.assertRaises(FileNotFoundError):
            Run(self.room / "absent" / "run", INIT)
        self.assertEqual(sorted(it.name for it in self.room.iterdir()), ["run"])
        self.assertEqual(audit(self.path), (2, 2, 2))

    def test_words_are_refused(self):
        for moves in (0, 2**20 + 1):
            with self.assertRaisesRegex(Error, "a capacity is"):
                Run(self.path, INIT, moves)
        with self.assertRaises(Error):
            Run(self.path, [[COUNT]])
        for words in ({"every": 0}, {"receipts": "x"}):
            with self.assertRaises(ValueError):
                Run(self.room / str(words), INIT, **words)
        self.assertRaises(ValueError, Run.resume, self.path, check="none")
        self.assertFalse(self.path.exists())

    def test_a_run_is_resumed(self):
        for times in range(1, 4):
            with (Run.resume(self.path, 4, check="all" if times > 2 else "last") if times > 1 else Run(self.path, INIT, 4)) as run, run.agent(0) as agent:
                self.assertEqual(run.path, self.path)
                for _ in range(10):
                    number, _ = agent.play(raised)
                self.assertEqual((number, agent.won), (10 * times, 10))
                self.assertEqual(agent.peek(AT), (10 * times - 1, 10 * times - 1))
                self.assertEqual(agent.follow(), 10 * times)
                self.assertEqual(agent.state(), (10 * times, [(COUNT, 10 * times)]))
        self.assertEqual(audit(self.path)[1:], (30, 10))

    def test_a_folder_that_holds_something_else_is_left(self):
        other = self.room / "other"
        other.mkdir()
        (other / "notes").write_text("x")
        with self.assertRaisesRegex(FileExistsError, "isn't empty"):
            Run(other, INIT)
        with self.assertRaisesRegex(FileNotFoundError, "no run"):
            Run.resume(other)
        with self.assertRaisesRegex(FileExistsError, "there is a file"):
            Run(other / "notes", INIT)
        with self.assertRaisesRegex(NotADirectoryError, "folugben import"):
            Run.resume(other / "notes")
        self.assertEqual([it.name for it in other.iterdir()], ["notes"])

    def test_what_a_kill_within_creation_leaves_is_no_run(self):
        self.path.mkdir()
        (self.path / "lock").touch()
        (self.path / "new").write_text('{"agents":0,')
        self.assertRaises(FileNotFoundError, Run.resume, self.path)
        with Run(self.path, INIT) as run:
            self.assertEqual(run.parts, 1)
        self.assertEqual(audit(self.path), (0, 0, 1))

    def test_names_modes_and_digests(self):
        with Run(self.path, INIT, 4) as run, run.agent(0) as agent:
            for _ in range(6):
                agent.play(raised)
        self.assertEqual(sorted(it.name for it in self.path.iterdir() if it.name != "lock"), [it.name for it in segments(self.path)])
        self.assertEqual({it.stat().st_mode & 0o777 for it in self.path.iterdir()}, {0o600})
        self.assertEqual(self.path.stat().st_mode & 0o777, 0o700)
        before, first = "0" * 64, 0
        for number, file in enumerate(segments(self.path)):
            moves = (0, 4, 2)[number]
            text = file.read_bytes()
            line = f"{before} {number} {first} {moves} {moves} {len(text)}\n"
            digest = hashlib.sha256(line.encode() + text).hexdigest()
            self.assertEqual(file.name, f"{number:08}-{first}-{moves}-{moves}-{before}-{digest}.journal")
            before, first = digest, first + moves
        last = verify(self.path)[-1]
        self.assertEqual((last.number, last.end, last.digest), (2, 6, before))

    def test_a_link_is_read_and_not_written(self):
        with Run(self.path, INIT, 4) as run, run.agent(0) as agent:
            agent.play(raised)
        link, above, empty = self.room / "link", self.room / "above", self.room / "empty"
        link.symlink_to(self.path)
        above.symlink_to(self.room)
        self.assertEqual(audit(link).moves, 1)
        for call in lambda: Run.resume(link), lambda: Run(link, INIT), lambda: Run.resume(f"{link}/"):
            with self.assertRaisesRegex(OSError, "a link leads to the folder"):
                call()
        empty.symlink_to(self.room / "absent")
        self.assertRaises(OSError, Run, empty, INIT)
        self.assertFalse((self.room / "absent").exists())
        with Run.resume(above / "run") as run, run.agent(0) as agent:
            self.assertEqual(agent.play(raised), (2, None))

    @unittest.skipUnless(os.geteuid() == 0, "only root gives a folder to others")
    def test_a_folder_of_another_user_is_refused(self):
        Run(self.path, INIT).close()
        other = self.room / "other"
        other.mkdir()
        for path in self.path, other:
            os.chown(path, 65534, 65534)
        before = {it: sorted(it.iterdir()) for it in (self.path, other)}
        for call in lambda: Run.resume(self.path), lambda: Run(other, INIT):
            with self.assertRaisesRegex(PermissionError, "belongs to another user"):
                call()
        self.assertEqual({it: sorted(it.iterdir()) for it in (self.path, other)}, before)
        self.assertEqual(audit(self.path).parts, 1)

    def test_the_lock_of_others_keeps_nobody_out(self):
        with Run(self.path, INIT) as run:
            self.assertEqual((self.path / "lock").stat().st_mode & 0o777, 0o600)
        with contextlib.closing(open(segments(self.path)[0])) as file, open(self.path / "lock") as lock:
            fcntl.flock(file, fcntl.LOCK_EX)
            Run.resume(self.path).close()
            fcntl.flock(lock, fcntl.LOCK_EX)
            self.assertRaises(BlockingIOError, Run.resume, self.path)

    def test_what_is_killed_is_resumed(self):
        self.assert_resumed(10)

    def assert_resumed(self, times):
        """Kill a process at random moments of its run.

        Each folder continues, and retains the sum of all accounts.
        """
        code = "import sys, rooms; rooms.live_in_bank(sys.argv[1])"
        rng, before, leftovers = random.Random(), 0, 0
        for _ in range(times):
            child = subprocess.Popen([sys.executable, "-c", code, self.path], env=environment(), stdout=subprocess.PIPE)
            assert child.stdout is not None
            if rng.random() < 0.9:
                child.stdout.read(1)  # it has begun
                time.sleep(rng.random() ** 2 * 0.3)
            else:
                time.sleep(rng.random() * 0.2)
            child.send_signal(signal.SIGKILL)
            child.communicate()
            if not segments(self.path):
                continue
            saved = audit(self.path).moves
            leftovers += (self.path / "new").exists()
            self.assertGreaterEqual(saved, before)
            with Run.resume(self.path, 20, check=rng.choice(["all", "last"])) as run, run.agent(0) as agent:
                self.assertFalse((self.path / "new").exists())
                self.assertEqual((agent.follow(), run.saved), (saved, saved))
                self.assertEqual(agent.state()[1], self.last_state())
                self.assertEqual(sum(money for _, money in agent.scan("account")[1]), ACCOUNTS * MONEY)
                transfer(agent, rng)
            before = audit(self.path).moves
            self.assertEqual(before, saved + 1)
        checked = 0
        for _, values in states(self.path):
            self.assertEqual(sum(values.values()), ACCOUNTS * MONEY)
            checked += 1
        self.assertEqual(checked, before + 1)
        return checked, leftovers


class Pages(Rooms):
    """Each sample of a page in turn, in one folder, with what it prints and writes."""

    def samples(self, name):
        page = (ROOT / "docs" / name).read_text()
        names, out, count = {}, io.StringIO(), 0
        was = os.getcwd()
        self.addCleanup(os.chdir, was)
        os.chdir(self.room)
        for code, command, printed in re.findall(r"```python\n([\s\S]*?)```|^    \$ (.*)\n((?:    [^$\n].*\n)*)", page, re.MULTILINE):
            count += 1
            if code:
                with contextlib.redirect_stdout(out):
                    exec(code, names)
                continue
            own = re.sub("^folugben", f"{sys.executable} -P -m folugben", command)
            ran = subprocess.run(own, shell=True, capture_output=True, text=True, env=environment())
            # How many calls were stale is another number each time.
            calls = re.compile(r"legal \d+")
            self.assertEqual(calls.sub("legal", ran.stdout), calls.sub("legal", printed.replace("    ", "")), command)
            self.assertEqual((ran.returncode, ran.stderr), (0, ""), command)
        return count, out.getvalue()

    def test_the_page_does_what_it_shows(self):
        self.assertEqual(self.samples("DURABILITY.md"), (9, "20000 moves on the disk\n20001\n1 bank.db\n"))


if __name__ == "__main__":
    unittest.main()
