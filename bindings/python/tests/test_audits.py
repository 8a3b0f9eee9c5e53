"""Tests of audits and of the commands that run them.

They cover runs of several parts, in chunks of any length, with each kind of fault.
"""
import contextlib
import io
import json
import os
import pathlib
import random
import subprocess
import sys
import tempfile
import unittest
from unittest import mock

import folugben
import own
from folugben import Auditor, BadJournalError, ClashError, Code, Counts, Error, StaleError, Storage, audit, check, part, replay
from folugben import __main__ as main
from random_moves import INIT, move
from threads import in_threads

APART, CUT, EMPTY, ILLEGAL, LONG_LINE, NO_PART, NOT_JSON, SHAPE, VERSION = map(
    Code.__getitem__, "APART CUT EMPTY ILLEGAL LONG_LINE NO_PART NOT_JSON SHAPE VERSION".split())


def parts_of_a_run(seed: int, count: int = 4) -> list[bytes]:
    """Return the journals of a run of random moves, some of which are stale or clash."""
    rng = random.Random(seed)
    storage, journals = Storage(INIT, 1_000), []
    for _ in range(count):
        first, second = storage.agent(0), storage.agent(1)
        for _ in range(rng.randrange(30)):
            agent = rng.choice([first, second])
            number, _ = agent.read([["set"], ["number"]])
            try:
                rng.choice([first, second]).fire(move(rng), [[["set"], rng.randrange(min(number, first.seen, second.seen) + 1)]])
            except (StaleError, ClashError):
                pass
        first.give()
        second.give()
        journals.append(storage.close_journal())
        storage = storage.next(1_000)
    return journals


def audit_in_chunks(text: bytes, size: int) -> tuple[object, ...]:
    """Return the result of an audit of the bytes in chunks of this size."""
    auditor = Auditor()
    try:
        for start in range(0, len(text), size):
            auditor.feed(text[start : start + size])
        return (*auditor.end(), auditor.state())
    except BadJournalError as bad:
        return bad.code, bad.part, bad.numbers, bad.call, bad.line, str(bad)


def alter_line(text: bytes, line: int, change) -> bytes:
    lines = text.splitlines(keepends=True)
    lines[line] = json.dumps(change(json.loads(lines[line])), separators=(",", ":")).encode() + b"\n"
    return b"".join(lines)


class Audits(unittest.TestCase):
    @classmethod
    def setUpClass(cls) -> None:
        cls.journals = next(it for it in map(parts_of_a_run, range(100)) if all(journal.count(b"\n") > 8 for journal in it))
        cls.text = b"".join(cls.journals)

    def assert_counts(self, text: bytes, *wanted: object) -> None:
        """Check the same in chunks of each size; the report of a fault begins so."""
        results = [audit_in_chunks(text, size) for size in (1, 61, 4096, 1 << 20)]
        self.assertEqual(results, results[:1] * 4)
        self.assertEqual(results[0][: len(wanted)], wanted)

    def test_a_run_of_several_parts_is_counted(self):
        for seed in range(20):
            journals = parts_of_a_run(seed)
            numbers = [check(journal) for journal in journals]
            calls, moves = (sum(it) for it in zip(*numbers))
            self.assert_counts(b"".join(journals), calls, moves, 4, replay(journals[-1]))
        self.assert_counts(self.journals[0], *check(self.journals[0]), 1, replay(self.journals[0]))

    def test_each_fault_is_reported_with_its_part_and_its_place(self):
        first, second = self.journals[0], self.journals[1]
        number = first.count(b"\n")

        def wrong(event):
            return event | {"reply": {"fired": 999} if "fire" in event["call"] else {"number": 998, "values": [1, 2]}}

        for text, *wanted in [
            (b"", CUT, 0, ()),
            (first[:-1], CUT, 0, ()),
            (first + second[:30], NOT_JSON, 1, (1,), None, 1),
            (first + b"".join(second.splitlines(keepends=True)[:3]), CUT, 1, ()),
            (first + b"{\n", NOT_JSON, 1, (1,), None, 1),
            (first + alter_line(second, 2, lambda event: event["call"]), SHAPE, 1, (3,), None, 3),
            (first + alter_line(second, 0, lambda header: header | {"version": 9}), VERSION, 1, ()),
            (first + alter_line(second, 3, wrong) + self.journals[2], ILLEGAL, 1, (2,), 2, None),
            (alter_line(first, number - 1, wrong) + second, ILLEGAL, 0, (number - 2,), number - 2, None),
            (first + alter_line(second, 0, lambda header: header | {"init": []}), APART, 1, ()),
            (first + self.journals[2] + second, APART, 1, ()),
            (second + first, APART, 1, ()),
        ]:
            with self.subTest(wanted):
                self.assert_counts(text, *wanted)
        bad = audit_in_chunks(first + alter_line(second, 3, wrong), 100)
        self.assertEqual(bad[-1], f"part 1: {folugben.error_text(ILLEGAL)} (call 2, counted from 0)")

    def test_a_line_may_be_longer_than_a_complete_journal_that_is_checked(self):
        auditor = Auditor()
        auditor.feed(self.text)
        for _ in range(17):
            auditor.feed(b" " * (1 << 20))
        with self.assertRaises(BadJournalError) as caught:
            auditor.feed(b"\n")
        self.assertEqual((caught.exception.code, caught.exception.part), (NOT_JSON, 4))

    @unittest.skipUnless("FOLUGBEN_LONG" in os.environ, "it takes 3 GiB of memory")
    def test_a_line_above_the_limit_is_reported(self):
        auditor = Auditor()
        auditor.feed(self.text)
        with self.assertRaises(BadJournalError) as caught:
            for _ in range(1025):
                auditor.feed(b" " * (1 << 20))
        self.assertEqual((caught.exception.code, caught.exception.part), (LONG_LINE, 4))
        self.assertIn("1,073,741,824 bytes", str(caught.exception))

    def test_a_fault_is_reported_at_its_line_and_from_then_on(self):
        lines = alter_line(self.text, 4, lambda event: event | {"reply": "full", "call": {"fire": [], "reads": []}}).splitlines(True)
        auditor = Auditor()
        for line in lines[:4]:
            auditor.feed(line.decode())
        self.assertEqual(auditor.counts[::2], (3, 0))
        with self.assertRaises(BadJournalError) as caught:
            auditor.feed(lines[4])
        feeds = lambda: auditor.feed(lines[5]), lambda: auditor.feed(b"")
        for call in (*feeds, auditor.end, auditor.state, lambda: auditor.counts):
            with self.assertRaises(BadJournalError) as again:
                call()
            self.assertEqual(str(again.exception), str(caught.exception))
            self.assertEqual((again.exception.part, again.exception.call), (0, 3))
        self.assertEqual(repr(auditor), f"<Auditor, {caught.exception}>")

    def test_the_counts_so_far_can_be_asked_for(self):
        auditor = Auditor()
        self.assertEqual(auditor.counts, Counts(0, 0, 0))
        with self.assertRaises(Error) as caught:
            auditor.state()
        self.assertEqual((caught.exception.code, "no part has begun" in str(caught.exception)), (NO_PART, True))
        total = Counts(0, 0, 0)
        for number, journal in enumerate(self.journals, 1):
            header, *events = journal.splitlines(keepends=True)
            self.assertEqual(auditor.feed(header), (*total[:2], number - 1))
            self.assertEqual(auditor.state(), own.pairs(json.loads(header)["init"]))
            with self.assertRaises(BadJournalError) as caught:
                auditor.end()
            self.assertEqual((caught.exception.code, caught.exception.part), (CUT, number - 1))
            auditor.feed(b"".join(events))
            total = Counts(total[0] + len(events), total[1] + check(journal)[1], number)
            self.assertEqual((auditor.end(), auditor.counts), (total, total))
            self.assertEqual(auditor.state(), replay(journal))
        self.assertEqual(repr(auditor), f"<Auditor, {total.calls} calls, {total.moves} moves, 4 parts>")

    def test_an_audit_that_was_freed_raises_an_error(self):
        with Auditor() as freed:
            freed.feed(self.text)
        for call in (lambda: freed.feed(b""), freed.end, freed.state):
            with self.assertRaisesRegex(Error, "the audit was freed") as caught:
                call()
            self.assertEqual(caught.exception.code, EMPTY)

    def test_audits_run_beside_each_other(self):
        def work(own):
            self.assertEqual(audit_in_chunks(self.text, 100 + own)[2], 4)

        self.assertEqual(in_threads(work, 8), ([], True))


class Files(unittest.TestCase):
    def setUp(self) -> None:
        room = tempfile.TemporaryDirectory()
        self.addCleanup(room.cleanup)
        self.room = pathlib.Path(room.name)
        self.journals = parts_of_a_run(5)
        self.run_file = self.room / "run"
        self.run_file.write_bytes(b"".join(self.journals))
        calls, moves = (sum(it) for it in zip(*map(check, self.journals)))
        self.numbers = Counts(calls, moves, 4)

    def test_a_file_is_audited_by_its_path_and_open(self):
        seen: list[int] = []
        self.assertEqual(audit(self.run_file, seen.append), self.numbers)
        self.assertEqual((seen[-1], audit(str(self.run_file))), (self.run_file.stat().st_size, self.numbers))
        with self.run_file.open("rb") as file, self.run_file.open() as text:
            self.assertEqual((audit(file), audit(text)), (self.numbers, self.numbers))
        with self.assertRaisesRegex(TypeError, "feed bytes to an Auditor"):
            audit(b"run")
        with self.assertRaises(FileNotFoundError):
            audit(self.room / "absent")

    def test_a_wrong_answer_in_a_pipe_is_reported_before_its_end(self):
        read_end, write_end = os.pipe()
        lines = self.run_file.read_bytes().splitlines(True)
        with open(read_end, "rb") as pipe, open(write_end, "wb", buffering=0) as out:
            out.write(b"".join(lines[:3]) + b"{}\n")  # and the pipe stays open
            with self.assertRaises(BadJournalError) as caught:
                audit(pipe)
        self.assertEqual((caught.exception.part, caught.exception.line), (0, 4))

    def test_a_part_is_a_journal(self):
        self.assertEqual([part(self.run_file, number) for number in range(4)], self.journals)
        with self.run_file.open("rb") as file:
            self.assertEqual(part(file, 2), self.journals[2])
        for number in (4, -1):
            with self.assertRaisesRegex(IndexError, f"no part {number}"):
                part(self.run_file, number)

    def test_progress_is_shown_on_a_terminal(self):
        times, terminal = iter(range(0, 1000, 2)), io.StringIO()
        terminal.isatty = lambda: True
        with mock.patch.object(main.time, "monotonic", lambda: next(times)), mock.patch.object(sys, "stderr", terminal):
            with contextlib.redirect_stdout(io.StringIO()) as output:
                self.assertEqual(main.main(["audit", str(self.run_file)]), 0)
        size = f"{self.run_file.stat().st_size:,}"
        self.assertEqual(terminal.getvalue(), f"\r{self.run_file}: 100 % of {size} bytes \r\033[K")
        self.assertEqual(output.getvalue(), "legal {} {} {}\n".format(*self.numbers))

    def run_folugben(self, *words: str, **more) -> subprocess.CompletedProcess:
        # The package that is tested, wherever this is run.
        package = pathlib.Path(folugben.__file__).resolve().parents[1]
        environment = os.environ | {"PYTHONPATH": str(package)}
        return subprocess.run([sys.executable, "-m", "folugben", *words], capture_output=True, env=environment, **more)

    def test_the_command_line_takes_runs(self):
        legal = "legal {} {} {}\n".format(*self.numbers).encode()
        ran = self.run_folugben("audit", str(self.run_file))
        self.assertEqual((ran.returncode, ran.stdout, ran.stderr), (0, legal, b""))
        self.assertEqual(self.run_folugben("audit", "-", input=self.run_file.read_bytes()).stdout, legal)
        cut, absent = self.room / "cut", self.room / "absent"
        cut.write_bytes(self.run_file.read_bytes()[:-1])
        ran = self.run_folugben("audit", str(self.run_file), str(cut))
        self.assertEqual(ran.returncode, 1)
        self.assertEqual(ran.stdout.decode(), f"{self.run_file}: {legal.decode()}{cut}: part 3: {folugben.error_text(CUT)}\n")
        self.assertEqual(self.run_folugben("audit", str(absent)).returncode, 2)
        self.assertEqual(self.run_folugben("part", "-p", "2", str(self.run_file)).stdout, self.journals[2])
        ran = self.run_folugben("check", "-p", "1", str(self.run_file))
        self.assertEqual(ran.stdout.decode(), "legal {} {}\n".format(*check(self.journals[1])))
        ran = self.run_folugben("part", "-p", "4", str(self.run_file))
        self.assertEqual((ran.returncode, ran.stdout), (1, b""))
        self.assertIn(b"there is no part 4", ran.stderr)


if __name__ == "__main__":
    unittest.main()
