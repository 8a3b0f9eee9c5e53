"""Tests of runs whose first segments are dropped, and of copies."""
import contextlib
import io
import os
import shutil
import signal
import subprocess
import sys
import threading
import unittest
from unittest import mock

from folugben import BadJournalError, BrokenError, DamagedError, Run, __main__, audit, copy_run, part, prune_run, states
from folugben import _folder
from folugben._reading import Reading, follow, verify
from rooms import COUNT, INIT, Rooms, environment, raised, segments, text_of, until

NO_KEEPS = (0, -1, True, 1.5, "2", [1])
# Prunes a run, and is killed at one of the calls that remove names and flush, before or after it.
PRUNE = """
import os, signal, sys, folugben
left, is_after = int(sys.argv[2]), sys.argv[3] == "after"
def dying(call):
    def work(*words, **named):
        global left
        left -= 1
        if left == 0 and not is_after:
            os.kill(os.getpid(), signal.SIGKILL)
        try:
            call(*words, **named)
        finally:
            if left == 0:
                os.kill(os.getpid(), signal.SIGKILL)
    return work
os.unlink, os.fsync = dying(os.unlink), dying(os.fsync)
folugben.prune_run(sys.argv[1], 2)
"""


def since(counts):
    return counts, counts.first_segment, counts.moves_before


class Kept(Rooms):
    def write(self, moves, **words):
        with Run(self.path, INIT, 4, **words) as run, run.agent(0) as agent:
            for _ in range(moves):
                agent.play(raised)

    def run_command(self, *words):
        with contextlib.redirect_stdout(io.StringIO()) as out, contextlib.redirect_stderr(io.StringIO()) as error:
            try:
                status = __main__.main([str(word) for word in words])
            except SystemExit as ended:
                status = ended.code
        return status, out.getvalue(), error.getvalue()


class Keep(Kept):
    def test_only_the_last_segments_stay(self):
        for keep, moves, left in [(1, 14, [4]), (2, 14, [3, 4]), (3, 14, [2, 3, 4]), (5, 14, [0, 1, 2, 3, 4]), (9, 14, [0, 1, 2, 3, 4]),
                                  (1, 0, [0]), (1, 1, [1])]:
            self.write(moves, keep=keep)
            self.assertEqual([int(it.name[:8]) for it in segments(self.path)], left)
            before = max(0, 4 * (left[0] - 1))
            self.assertEqual(since(audit(self.path)), ((moves - before, moves - before, len(left)), left[0], before))
            self.assertEqual([(number, values[COUNT]) for number, values in states(self.path)], [(it, it) for it in range(before, moves + 1)])
            shutil.rmtree(self.path)

    def test_a_run_without_its_first_segments_is_resumed(self):
        self.write(14, keep=2)
        for check, keep, left in [("all", None, 3), ("last", 3, 3), ("all", 1, 1), ("last", None, 2)]:
            with Run.resume(self.path, 4, check=check, keep=keep) as run, run.agent(0) as agent:
                saved, parts = run.saved, run.parts
                self.assertEqual(agent.play(raised), (saved + 1, None))
                run.flush()
                self.assertEqual((run.saved, run.parts), (saved + 1, parts + 1))
            self.assertEqual(len(segments(self.path)), left)
        counts = audit(self.path)
        self.assertEqual((counts.moves_before + counts.moves, counts.first_segment), (18, 7))
        self.assertEqual(self.last_state(), [(COUNT, 18)])

    def test_all_readers_say_where_it_begins(self):
        self.write(14, keep=2)
        self.assertEqual(self.run_command("audit", self.path), (0, "legal 6 6 2 from segment 3 move 8\n", ""))
        digest = segments(self.path)[-1].name[-72:-8]
        self.assertEqual(self.run_command("verify", self.path), (0, f"2 segments, 6 moves, digest {digest}, from segment 3 move 8\n", ""))
        self.assertEqual(self.run_command("check", self.path, "--part", 3)[:2], (0, "legal 4 4\n"))
        self.assertEqual(part(self.path, 4), segments(self.path)[1].read_bytes())
        for number in 2, 5, -1:
            with self.assertRaisesRegex(IndexError, f"there is no part {number}, as the run has the parts 3 to 4"):
                part(self.path, number)
        self.assertEqual(self.run_command("save", self.path, "-o", self.room / "one")[0], 0)
        self.assertEqual((self.room / "one").read_bytes(), text_of(self.path))
        # What is missing within them is found, and so is what is altered.
        last = segments(self.path)[1]
        last.rename(self.path / last.name.replace("-12-2-2-", "-11-2-2-"))
        for call in audit, verify, Run.resume:
            with self.assertRaisesRegex(DamagedError, "segment 4: its name has another PREVIOUS or FIRST"):
                call(self.path)

    def test_other_numbers_are_refused(self):
        for keep in NO_KEEPS:
            with self.assertRaisesRegex(ValueError, "keep is a whole number of segments from 1, and not "):
                Run(self.path, INIT, keep=keep)
        self.assertFalse(self.path.exists())
        self.write(5)
        for keep in NO_KEEPS:
            for call in lambda: Run.resume(self.path, keep=keep), lambda: prune_run(self.path, keep):
                with self.assertRaisesRegex(ValueError, "keep is a whole number"):
                    call()
        for words in [(), ("--keep",), ("--keep", "0"), ("--keep", "-1"), ("--keep", "x"), ("--keep", "1.5")]:
            status, out, message = self.run_command("prune", self.path, *words)
            self.assertEqual((status, out), (2, ""), words)
            self.assertIn("keep", message)
        self.assertEqual(since(audit(self.path)), ((5, 5, 3), 0, 0))

    def test_a_removal_that_fails_ends_the_run(self):
        remove = os.unlink

        def unlink(name, **words):
            if str(name).endswith(".journal"):
                raise OSError(5, "no removal")
            remove(name, **words)

        with mock.patch.object(os, "unlink", unlink), self.assertRaisesRegex(BrokenError, "its part 2 .*no removal"):
            self.write(4, keep=1)
        self.assertEqual(since(audit(self.path)), ((4, 4, 2), 0, 0))

    def test_readers_beside_a_run_that_drops(self):
        """What is dropped while it is read isn't reported as damage."""
        ended, seen = threading.Event(), []

        def read():
            while not ended.is_set():
                for call in audit, verify:
                    call(self.path)
                counts = copy_run(self.path, self.room / str(len(seen)))
                seen.append((counts, audit(self.room / str(len(seen)))))

        with Run(self.path, INIT, 2, keep=2) as run, run.agent(0) as agent:
            reader = threading.Thread(target=read)
            reader.start()
            while len(seen) < 5 and reader.is_alive():
                agent.play(raised)
            ended.set()
            reader.join()
        self.assertGreaterEqual(len(seen), 5)
        for counts, found in seen:
            self.assertEqual(since(counts), since(found))

    def test_an_audit_that_follows_begins_again(self):
        self.write(6)
        counts = follow(self.path)
        self.assertEqual(since(next(counts)), ((6, 6, 3), 0, 0))
        with Run.resume(self.path, 4, keep=1) as run, run.agent(0) as agent:
            for _ in range(9):
                agent.play(raised)
        self.assertEqual(since(next(counts)), ((1, 1, 1), 5, 14))

    def test_a_segment_that_is_dropped_meanwhile(self):
        self.write(14)
        with contextlib.closing(_folder.RunFolder(self.path)) as folder:
            listed, reading = folder.names(), Reading(folder)
            reading.audit(listed[:2])
            prune_run(self.path, 2)
            for call in lambda: reading.audit(folder.names()), lambda: Reading(folder).audit(listed):
                with self.assertRaisesRegex(DamagedError, "dropped meanwhile"):
                    call()
        # Whoever lists them again begins later.
        real, first = _folder.RunFolder.names, [listed]
        with mock.patch.object(_folder.RunFolder, "names", lambda it: first.pop() if first else real(it)):
            self.assertEqual(since(audit(self.path)), ((6, 6, 2), 3, 8))


class Prune(Kept):
    def test_a_run_is_pruned(self):
        self.write(14)
        for keep, left in (9, 5), (5, 5), (3, 3), (1, 1):
            self.assertEqual(since(prune_run(self.path, keep)), since(audit(self.path)))
            self.assertEqual(len(segments(self.path)), left)
        self.assertEqual(self.run_command("prune", self.path, "--keep", 1), (0, "legal 2 2 1 from segment 4 move 12\n", ""))
        with Run.resume(self.path) as run, run.agent(0) as agent:
            self.assertRaises(BlockingIOError, prune_run, self.path, 1)
            self.assertEqual(agent.play(raised), (15, None))
        self.assertEqual(self.run_command("prune", self.room / "absent", "--keep", 1)[0], 2)

    def test_what_stays_is_audited_first(self):
        self.write(14)
        first, last = segments(self.path)[1], segments(self.path)[4]
        for file, text in (first, b"x"), (last, b"x"):
            original = file.read_bytes()
            file.write_bytes(text)
            if file == last:
                self.assertEqual(self.run_command("prune", self.path, "--keep", 2),
                                 (1, "", f"folugben: {self.path}: segment 4: its text isn't the one that was saved\n"))
                self.assertRaises(DamagedError, prune_run, self.path, 4)
            self.assertRaises(DamagedError, prune_run, self.path, 5)
            self.assertEqual(len(segments(self.path)), 5)
            file.write_bytes(original)
        first.write_bytes(b"x")
        self.assertEqual(since(prune_run(self.path, 3)), ((10, 10, 3), 2, 4))

    def test_a_prune_that_is_killed_leaves_a_run(self):
        self.write(14)
        original = self.path.rename(self.room / "original")
        for number in range(1, 20):
            ends = []
            for how in "before", "after":
                shutil.copytree(original, self.path)
                command = [sys.executable, "-c", PRUNE, self.path, str(number), how]
                ends.append(subprocess.run(command, env=environment(), check=False).returncode)
                counts = audit(self.path)
                self.assertEqual(counts.moves_before + counts.moves, 14)
                self.assertGreaterEqual(counts.parts, 2)
                self.assertEqual(segments(self.path)[-2:], [self.path / it.name for it in segments(original)[-2:]])
                with Run.resume(self.path, 4) as run, run.agent(0) as agent:
                    self.assertEqual(agent.play(raised), (15, None))
                shutil.rmtree(self.path)
            if ends == [0, 0]:
                break
            self.assertEqual(ends, [-signal.SIGKILL] * 2)
        # The folder and the one above, an old `new`, and for each of three segments a removal and a flush.
        self.assertEqual(number, 10)


class Copies(Kept):
    def test_a_run_is_copied_while_it_is_written(self):
        to = self.room / "to"
        with Run(self.path, INIT, 4) as run, run.agent(0) as agent:
            for _ in range(6):
                agent.play(raised)
            until(lambda: run.saved == 4)
            self.assertEqual(since(copy_run(self.path, to)), ((4, 4, 2), 0, 0))
        self.assertEqual([it.name for it in sorted(to.iterdir())], [it.name for it in segments(self.path)[:2]])
        self.assertEqual(text_of(to), b"".join(it.read_bytes() for it in segments(self.path)[:2]))
        self.assertEqual(({it.stat().st_mode & 0o777 for it in to.iterdir()}, to.stat().st_mode & 0o777), ({0o600}, 0o700))
        with Run.resume(to) as run, run.agent(0) as agent:
            self.assertEqual(agent.play(raised), (5, None))
        empty = self.room / "empty"
        empty.mkdir()
        prune_run(self.path, 2)
        self.assertEqual(self.run_command("copy", self.path, empty), (0, "legal 6 6 2 from segment 1 move 0\n", ""))
        self.assertEqual(text_of(empty), text_of(self.path))

    def test_what_is_there_stays(self):
        self.write(6)
        other = self.room / "other"
        other.mkdir()
        (other / "notes").write_text("x")
        for to in other, other / "notes":
            with self.assertRaisesRegex(FileExistsError, "there is something already"):
                copy_run(self.path, to)
            self.assertEqual(self.run_command("copy", self.path, to)[:2], (2, ""))
        with self.assertRaisesRegex(OSError, "in the folder of the run"):
            copy_run(self.path, self.path / "copy")
        self.assertRaises(FileNotFoundError, copy_run, other, self.room / "to")
        self.assertEqual((other / "notes").read_text(), "x")
        self.assertEqual(sorted(it.name for it in self.room.iterdir()), ["other", "run"])

    def test_damage_is_not_copied(self):
        self.write(14)
        for number, text, error in (2, b"x", DamagedError), (3, None, DamagedError):
            file = segments(self.path)[number]
            original = file.read_bytes()
            file.write_bytes(text) if text else file.unlink()
            with self.assertRaisesRegex(error, f"segment {number}: "):
                copy_run(self.path, self.room / "to")
            self.assertEqual(self.run_command("copy", self.path, self.room / "to")[:2], (1, ""))
            file.write_bytes(original)
        writer, names = _folder.RunWriter.resume(self.path)
        writer.trail.skip(names)
        writer.begin()
        writer.save(memoryview(part(self.path, 4).replace(b'{"fired":1}', b'{"fired":9}')), 2, 2)
        writer.close()
        self.assertRaises(BadJournalError, copy_run, self.path, self.room / "to")
        self.assertEqual([it.name for it in self.room.iterdir()], ["run"])


if __name__ == "__main__":
    unittest.main()
