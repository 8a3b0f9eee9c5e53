"""Tests of traces: python3 test.py runs all tests."""
import json
import unittest

import random_moves
from folugben import BadJournalError, StaleError, Storage, trace

tracing, journals = random_moves.model("tracing"), random_moves.model("journal")
INIT = [[["s"], {"set": [1, 2]}], [["b"], {"bag": [["e", 2]]}], [["x"], 7]]


def journal_of_two() -> bytes:
    """Return a move that changes a set, a bag and a number, and a fire it makes stale."""
    with Storage(INIT, 10) as storage:
        with storage.agent(0) as first, storage.agent(1) as second:
            number, _values = second.read([["x"]])
            first.fire([["add", ["s"], 3], ["remove", ["s"], 1], ["bagadd", ["b"], "f", 1], ["put", ["x"], None]])
            try:
                second.fire([["put", ["x"], 8]], [[["x"], number]])
            except StaleError:
                pass
        return storage.close_journal()


class Traces(unittest.TestCase):
    def setUp(self):
        self.journal = journal_of_two()

    def test_each_call_reports_what_it_did(self):
        header, *events = trace(self.journal)
        self.assertEqual((header["trace"], header["events"], header["init"]), (1, 3, sorted(INIT)))
        fired = [event for event in events if "updates" in event]
        self.assertEqual(len(fired), 1)
        self.assertEqual(fired[0]["updates"], [
            [["b"], {"counts": [["f", 0, 1]]}], [["s"], {"added": [3], "removed": [1]}], [["x"], 7, None],
        ])
        self.assertEqual([event["event"] for event in events], [0, 1, 2])
        self.assertFalse(any("right" in event for event in events))

    def test_a_wrong_read_has_the_positions_that_differ_beside_it(self):
        wrong = self.journal.replace(b'"values":[7]', b'"values":[6]')
        events = list(trace(wrong))[1:]
        self.assertEqual([event["right"] for event in events if "right" in event], [{"differs": [0], "number": 0}])

    def test_it_is_what_the_model_writes(self):
        lines = [json.dumps(line, separators=(",", ":")).encode() for line in trace(self.journal)]
        self.assertEqual(lines, tracing.write_trace(journals.read_journal(self.journal)).splitlines())

    def test_what_is_no_journal_is_refused_at_once(self):
        for bad, line in [(b"", ()), (b"[]\n", (1,)), (self.journal + b"[]\n", (5,))]:
            with self.subTest(bad[-9:]), self.assertRaises(BadJournalError) as caught:
                trace(bad)
            self.assertEqual(tuple(caught.exception.numbers), line)


if __name__ == "__main__":
    unittest.main()
