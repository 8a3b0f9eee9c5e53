"""Tests of an agent's own state and of storages that continue from one.

python3 test.py runs all tests.
"""
import json
import unittest

import folugben
from folugben import Error, Storage, check
from threads import in_threads

COUNT = [["count"]]
STATE = [[["count"], 0], [["f", 1], "one"], [["f", True], {"set": [1, True]}], [["g"], "ü"]]


class OwnState(unittest.TestCase):
    def setUp(self):
        self.storage = Storage(STATE, 100)
        self.addCleanup(self.storage.free)
        self.agent, self.rival = self.storage.agent(0), self.storage.agent(1)

    def test_scans_that_are_refused(self):
        where = "scan 2: "
        with self.assertRaises(Error) as caught:
            self.agent.fire([], [[["g"], 0]], [["g", 0], ["f", 1]])
        self.assertEqual(str(caught.exception), where + '"f" is named at 1, and the agent has seen 0')
        for scan in (["f"], ["f", 0, 0], [["f"], 0], ["f", -1], ["f", 2**32], ["f", 0.5], ["f", True], "f", 7):
            with self.subTest(scan), self.assertRaisesRegex(Error, "scan 2: a scan is a tuple or a list") as caught:
                self.agent.fire([], [], [["g", 0], scan])
            self.assertEqual(caught.exception.code, folugben.Code.SHAPE)
        with self.assertRaisesRegex(Error, "read 1: a read is a tuple or a list"):
            self.agent.fire([], [["g"]], [["f"]])
        self.assertEqual((self.agent.seen, self.agent.misses), (0, 0))

    def test_what_is_no_list_is_refused(self):
        for wrong in ("", "count", b"", {}, {"count": 0}, set(), frozenset()):
            for call in (self.agent.stands, lambda it: self.agent.fire([], it), lambda it: self.agent.fire([], [], it)):
                with self.subTest(wrong), self.assertRaisesRegex(Error, "^the (reads|scans) are a list or a tuple, and not ") as caught:
                    call(wrong)
                self.assertEqual(caught.exception.code, folugben.Code.SHAPE)
        self.assertEqual((self.agent.stands(iter([])), self.agent.fire([], (), ())), (None, 1))


class Next(unittest.TestCase):

    def test_numbers_and_slots(self):
        storage = Storage()
        with storage.agent(0):
            pass
        journal = storage.close_journal()
        for capacity in (0, 2**20 + 1, 2**32 + 1, -1):
            with self.assertRaises(Error) as caught:
                storage.next(capacity)
            self.assertEqual(caught.exception.code, folugben.Code.CAPACITY)
        self.assertRaises(TypeError, storage.next, 0.5)
        with storage.next() as following:
            self.assertIsInstance(following, Storage)
            self.assertEqual(storage.close_journal(), journal)
        for again in (storage, following):
            again.free()
            with self.assertRaises(Error) as caught:
                again.next()
            self.assertEqual(caught.exception.code, folugben.Code.EMPTY)

    def test_a_run_of_several_storages_in_threads(self):
        def work(own):
            with storage.agent(own) as agent:
                for _ in range(20):
                    while True:
                        number, (count,) = agent.read(COUNT)
                        try:
                            agent.fire([["put", ["count"], count + 1]], [[["count"], number]])
                            break
                        except (folugben.StaleError, folugben.BusyError):
                            pass

        storage, journals = Storage([[["count"], 0]], 160), []
        for _ in range(3):
            self.assertEqual(in_threads(work, 8), ([], True))
            journals.append(storage.close_journal())
            storage = storage.next(160)
        inits = [json.loads(journal.splitlines()[0])["init"] for journal in journals]
        self.assertEqual(inits, [[[["count"], count]] for count in (0, 160, 320)])
        self.assertEqual([check(journal)[1] for journal in journals], [160] * 3)
        self.assertEqual(storage.agent(0).read(COUNT), (0, [480]))


if __name__ == "__main__":
    unittest.main()
