"""Tests of runs with damage, a power failure, or lines that are too long."""
import contextlib
import random
import shutil
import unittest
from unittest import mock

import crashes
from folugben import BadJournalError, BrokenError, Code, DamagedError, Location, Move, Run, Storage, TooLongError, audit, part, states
from folugben import _parts
from folugben._folder import RunWriter
from folugben._reading import save, verify
from rooms import COUNT, INIT, Rooms, raised, segments, text_of, until


class Folders(Rooms):
    def setUp(self):
        super().setUp()
        with Run(self.path, INIT, 4) as run, run.agent(0) as agent:
            for _ in range(14):
                agent.play(raised)

    def assert_refused(self, number, is_last=True):
        """Check that all readers refuse the run, and that nothing in it is changed."""
        before = {it.name: it.read_bytes() for it in self.path.iterdir()}
        for call in (audit, verify, Run.resume, *[lambda path: Run.resume(path, check="last")] * is_last):
            with self.assertRaises(DamagedError) as caught:
                call(self.path)
            self.assertEqual(caught.exception.segment, number)
            self.assertIn(f"segment {number}: ", str(caught.exception))
        self.assertEqual({it.name: it.read_bytes() for it in self.path.iterdir()}, before)

    def test_flipped_bits_and_cut_files_are_found(self):
        self.flip(60)

    def flip(self, times):
        rng = random.Random(5)
        for _ in range(times):
            number = rng.randrange(5)
            file = segments(self.path)[number]
            original = file.read_bytes()
            altered = bytearray(original)
            if rng.random() < 0.6:
                altered[rng.randrange(len(altered))] ^= 1 << rng.randrange(8)
            elif rng.random() < 0.8:
                del altered[rng.randrange(len(altered)) :]
            else:
                altered += original[: rng.randrange(1, len(original))]
            file.write_bytes(altered)
            self.assert_refused(number, number == 4)
            file.write_bytes(original)
        self.assertEqual(audit(self.path), (14, 14, 5))

    def test_another_legal_text_is_found(self):
        file = segments(self.path)[2]
        file.write_bytes(file.read_bytes().replace(b'["put",["count"],6]', b'["put",["count"],9]'))
        self.assert_refused(2, False)
        # A name that fits the text doesn't fit the next one.
        with Run(self.room / "other", [[COUNT, 1]], 4) as run, run.agent(0) as agent:
            for _ in range(14):
                agent.play(raised)
        file.unlink()
        shutil.copy(segments(self.room / "other")[2], self.path)
        self.assert_refused(2)

    def test_names_are_checked(self):
        names = [it.name for it in segments(self.path)]
        for number, altered in [
            (2, lambda: (self.path / names[2]).unlink()),
            (2, lambda: (self.path / names[2]).rename(self.path / "00000009-4-4-4-00-00.journal")),
            (1, lambda: shutil.copy(self.path / names[1], self.path / names[1].replace("-4-4-", "-4-5-"))),
            (5, lambda: (self.path / "0005.journal").touch()),
            *((number, lambda number=number, old=old, new=new: (self.path / names[number]).rename(self.path / names[number].replace(old, new)))
              for number, old, new in [
                  (0, "-0-0-0-", "-1-0-0-"), (0, "-0-0-0-", "-0-1-0-"), (0, "-0-0-0-", "-0-0-1-"), (0, f"-{'0' * 64}-", f"-{'1' * 64}-"),
                  (2, "-4-4-4-", "-0-4-4-"), (2, "-4-4-4-", "-5-4-4-"), (2, "-4-4-4-", "-4-4-"), (2, "-4-4-4-", "-04-4-4-"),
                  (2, "-4-4-4-", "-4-4-+4-"), (2, "-4-4-4-", f"-4-{2**64 - 4}-4-"), (2, "-4-4-4-", f"-4-4-{2**64}-"), (2, "-4-4-4-", "-4-4-4-0"),
                  (2, f"{names[1][-72:-8]}-", f"{'0' * 64}-"), (2, f"{names[1][-72:-8]}-", ""),
              ]),
        ]:
            copy = self.room / "copy"
            shutil.copytree(self.path, copy)
            altered()
            self.assert_refused(number)
            shutil.rmtree(self.path)
            copy.rename(self.path)
        # Whoever reads its text finds the altered one; by the names alone it is the next one.
        for old, new, moves in [("-4-4-4-", "-4-3-4-", 7), (names[2][-72:-8], "0" * 64, 8)]:
            altered = self.path / names[2].replace(old, new)
            (self.path / names[2]).rename(altered)
            for call in audit, verify, Run.resume:
                with self.assertRaisesRegex(DamagedError, "segment 2: its text isn't the one that was saved"):
                    call(self.path)
            with self.assertRaisesRegex(DamagedError, f"segment 3: its name has another PREVIOUS or FIRST than .* of {moves} moves"):
                Run.resume(self.path, check="last")
            altered.rename(self.path / names[2])
        # Files that a copy or an editor leaves there have no effect, and neither does the removal of the last segments.
        (self.path / "notes").touch()
        (self.path / names[4]).unlink()
        self.assertEqual(audit(self.path), (12, 12, 4))

    def replace_last(self, text, moves, events):
        """Replace the last segment by a text of these numbers, with a right digest."""
        segments(self.path)[4].unlink()
        writer, names = RunWriter.resume(self.path)
        writer.trail.skip(names)
        writer.begin()
        writer.save(memoryview(text), moves, events)
        writer.close()

    def test_numbers_of_a_name_are_those_of_its_text(self):
        text = part(self.path, 4)
        for text, moves, events in [(text, 1, 2), (text, 2, 3), (2 * text, 4, 4)]:
            self.replace_last(text, moves, events)
            for check in "all", "last":
                with self.assertRaises((DamagedError, BadJournalError)) as caught:
                    Run.resume(self.path, check=check)
                self.assertRegex(str(caught.exception), "segment 4: its text has other numbers|part 4: ")

    def test_an_illegal_segment_is_reported_with_its_number(self):
        self.replace_last(part(self.path, 4).replace(b'{"fired":1}', b'{"fired":9}'), 2, 2)
        for check in "all", "last":
            with self.assertRaises(BadJournalError) as caught:
                Run.resume(self.path, check=check)
            self.assertEqual((caught.exception.part, caught.exception.call), (4, 0))

    def test_one_file_has_all(self):
        with (self.room / "file").open("wb") as file:
            save(self.path, file)
        self.assertEqual((self.room / "file").read_bytes(), text_of(self.path))
        self.assertEqual(audit(self.room / "file"), audit(self.path))
        self.assertEqual(part(self.room / "file", 3), part(self.path, 3))
        for number in (-1, 5):
            self.assertRaises(IndexError, part, self.path, number)
        self.assertEqual([(number, dict(values)) for number, values in states(self.path)],
                         [(number, {("count",): number}) for number in range(15)])


class AtWork(Rooms):
    def assert_detected(self, alter, message):
        with contextlib.suppress(BrokenError), Run(self.path, INIT, 4) as run, run.agent(0) as agent:
            for _ in range(6):
                agent.play(raised)
            until(lambda: run.saved == 4)
            alter()
            with self.assertRaises(BrokenError) as caught:
                run.flush()
            self.assertRegex(str(caught.exception), message)
            self.assertIsInstance(caught.exception.__cause__, DamagedError)
            self.assertEqual((run.saved, caught.exception.part), (4, 2))

    def test_a_folder_that_is_moved_removed_or_replaced(self):
        moved = self.room / "moved"
        self.assert_detected(lambda: self.path.rename(moved), "was removed")
        self.assertEqual(audit(moved), (4, 4, 2))
        self.assert_detected(lambda: shutil.rmtree(self.path), "was removed")
        self.assert_detected(lambda: (shutil.copytree(self.path, self.room / "c"), shutil.rmtree(self.path),
                                     (self.room / "c").rename(self.path)), "moved or replaced")
        self.assertEqual(audit(self.path), (4, 4, 2))

    def test_a_file_that_is_removed_or_truncated(self):
        self.assert_detected(lambda: segments(self.path)[1].unlink(), "was removed")
        shutil.rmtree(self.path)
        self.assert_detected(lambda: segments(self.path)[1].write_bytes(b"x"), "another size")
        shutil.rmtree(self.path)
        self.assert_detected(self.replace_last, "was replaced")

    def replace_last(self):
        """Put a file of the same size in the place of the last one."""
        last, other = segments(self.path)[1], self.room / "other"
        other.write_bytes(bytes(last.stat().st_size))
        other.replace(last)

    def test_a_lock_that_is_replaced(self):
        self.assert_detected(lambda: ((self.path / "lock").unlink(), (self.path / "lock").touch()), "lock in .* was replaced")


class PowerFailures(Rooms):
    """After a failure at a random moment, a run has all that was reported as saved."""

    def fail(self, times, notes_folder=True):
        rng, failures = random.Random(times), 0
        for _ in range(max(1, times // 60)):
            shutil.rmtree(self.path, ignore_errors=True)
            log = crashes.Log(self.path, notes_folder)
            with log.noting():
                self.write(rng)
            saves = [place for place, call in enumerate(log.calls) if call[0] == "saved"]
            for _ in range(min(times, 60)):
                end = rng.choice((rng.randint(0, len(log.calls)), min(len(log.calls), rng.choice(saves) + rng.randint(0, 4))))
                failures += not self.continues(*crashes.crash_state(log.calls[:end], rng), rng)
        return failures

    def write(self, rng):
        for times in range(3):
            keep = rng.choice((None, 1, 2, 3))
            with (Run.resume(self.path, 3, check="last", keep=keep) if times else Run(self.path, INIT, 3, keep=keep)) as run, run.agent(0) as agent:
                for _ in range(rng.randrange(1, 12)):
                    agent.play(raised)
                    if rng.random() < 0.2:
                        run.flush()

    def continues(self, files, saved, rng):
        """Return whether a run continues after a failure, with all that was saved."""
        path = self.room / "left"
        shutil.rmtree(path, ignore_errors=True)
        if files is not None:
            path.mkdir()
            for name, text in files.items():
                (path / name).write_bytes(text)
        try:
            run = Run.resume(path, 3, check=rng.choice(["all", "last"]))
        except FileNotFoundError:
            run = Run(path, INIT, 3)
            if saved:
                run.close()
                return False
        with run, run.agent(0) as agent:
            if run.parts < saved:
                return False
            number = run.saved
            self.assertEqual(agent.play(raised), (number + 1, None))
        counts = audit(path)
        self.assertEqual(counts.moves_before + counts.moves, number + 1)
        return True

    def test_nothing_is_lost(self):
        self.assertEqual(self.fail(60), 0)

    def test_without_the_flush_of_the_folder_segments_are_lost(self):
        self.assertGreater(self.fail(60, notes_folder=False), 0)


class Lines(Rooms):
    """What would make a line that an audit can't read is refused, and nothing changes."""

    # A byte of it has six in a line, so that four of these texts are too long.
    fourth = "\x01" * (2**30 // 24)

    def test_a_move_that_is_too_long(self):
        move = Move()
        for own in range(4):
            move.put(Location(["a", own]), self.fourth)
        with Run(self.path, [], 100) as run, run.agent(0) as agent:
            with self.assertRaises(TooLongError):
                agent.play(lambda step: step.push(move))
            agent.play(lambda step: step.put("b", 1))
        self.assertEqual(audit(self.path), (1, 1, 2))

    def test_a_state_that_is_too_long(self):
        with Storage([], 4) as storage, storage.agent(0) as agent:
            for own in range(4):
                agent.play(lambda step: step.push(Move().put(Location(["a", own]), self.fourth)))
            agent.follow()
            with self.assertRaises(TooLongError):
                agent.go_on(4)

    def test_a_flush_of_a_state_that_is_too_long(self):
        with Run(self.path, [], 100) as run, run.agent(0) as agent:
            agent.play(lambda step: step.put("b", 1))
            with mock.patch.object(_parts.Chain, "_end_idle", side_effect=TooLongError(Code.LONG_LINE)), self.assertRaises(TooLongError):
                run.flush()
            agent.play(lambda step: step.put("b", 2))
            run.flush()
            self.assertEqual(run.saved, 2)
        self.assertEqual(audit(self.path)[1], 2)


if __name__ == "__main__":
    unittest.main()
