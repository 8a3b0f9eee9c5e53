"""Tests of what a storage shows of its state, and of rules that workers play on it.

python3 test.py runs all tests.
"""
import threading
import time
import unittest

import folugben
from folugben import Error, Location, Storage, check
from threads import in_threads


class Readers(unittest.TestCase):
    def test_the_present_state(self):
        with Storage({"count": 7, ("f", 1): "one"}, 5000) as storage:
            self.assertEqual(storage.state(), (0, [(("count",), 7), (("f", 1), "one")]))
            self.assertEqual((storage["count"], storage[("f", 1)], storage[Location(("f", 1))], storage["none"]), (7, "one", "one", None))
            with storage.agent(0) as agent:
                for number in range(3000):
                    agent.fire([("put", "count", number)])
                self.assertEqual(storage["count"], 2999)
                agent.fire([("put", ("f", 1), None)])
            self.assertEqual(storage.state(), (3001, [(("count",), 2999)]))
            # It leaves no receipt, is in no journal, and discards none.
            self.assertEqual(check(storage.close_journal()), (3001, 3001))
            self.assertEqual(storage["count"], 2999)
            with storage.next(10) as following:
                self.assertEqual((following["count"], following.state()), (2999, (0, [(("count",), 2999)])))

    def test_places_that_are_refused(self):
        storage, place = Storage({"count": 7}, 10), Location("count")
        for wrong in ["no name", ("f", {1}), 7, ("f", 0.5)]:
            with self.subTest(wrong), self.assertRaises((Error, TypeError)):
                storage[wrong]
        place.free()
        with self.assertRaisesRegex(Error, "the location was freed"):
            storage[place]
        self.assertEqual(storage["count"], 7)
        storage.free()
        for call in (storage.state, lambda: storage["count"]):
            with self.assertRaisesRegex(Error, "the storage was freed"):
                call()

    def test_its_number_is_left_to_others(self):
        with Storage({"count": 0}, 10) as storage:
            last = storage.agent(255)
            self.assertEqual(storage["count"], 0)
            with self.assertRaises(Error):
                storage.take(254)
            agent = storage.agent(254)
            agent.play(lambda step: step.inc("count", 1))
            self.assertEqual(storage["count"], 1)
            self.assertRaises(Error, storage.agent, 254)
            agent.give()
            last.give()
            self.assertEqual(check(storage.close_journal())[1], 1)
        with Storage({"count": 0}, 10) as storage:
            agents = [storage.agent(own) for own in range(256)]
            for call in (storage.state, lambda: storage["count"]):
                with self.assertRaisesRegex(Error, "all 256 agents") as caught:
                    call()
                self.assertEqual(caught.exception.code, folugben.Code.NUMBER)
            self.assertEqual(agents[7].state()[0], 0)

    def test_it_is_read_while_others_fire(self):
        with Storage({"count": 0}, 20000) as storage:
            done = threading.Event()

            def work(own):
                if own == 0:
                    last = 0
                    while not done.is_set():
                        now = storage["count"]
                        assert now >= last
                        last = now
                        number, ((_, value),) = storage.state()
                        assert number == value
                else:
                    storage.run(lambda step: step.inc("count", 1), workers=3, times=300)
                    done.set()

            self.assertEqual(in_threads(work, 2), ([], True))
            self.assertEqual(storage["count"], 900)

    def test_workers_play_a_rule(self):
        with Storage({"count": 0}, 5000) as storage:
            def raise_count(step):
                step["count"] = step["count"] + 1

            self.assertEqual(storage.run(raise_count), 1)
            held = storage.agent(1)
            self.assertEqual(storage.run(raise_count, workers=4, times=100), 400)
            self.assertEqual(storage.run(lambda step: None, 3, 5), 0)
            self.assertEqual((storage["count"], storage.run(raise_count, times=0)), (401, 0))
            held.give()
            self.assertEqual(check(storage.close_journal())[1], 401)
            for words, message in [((0, 1), "0 workers"), ((1, -1), "-1 times"), ((257, 1), "257 workers: the storage has 25")]:
                with self.subTest(message), self.assertRaisesRegex((ValueError, Error), message):
                    storage.run(raise_count, *words)

    def test_an_error_ends_all_workers(self):
        with Storage({"count": 0}, 100000) as storage:
            def rule(step):
                step.inc("count", 1)
                if step["count"] == 50:
                    raise KeyError("fifty")

            begun = time.monotonic()
            with self.assertRaisesRegex(KeyError, "fifty"):
                storage.run(rule, workers=3, times=10000)
            self.assertLess(time.monotonic() - begun, 30)
            self.assertEqual(storage["count"], 49)
            # Its agents were returned.
            self.assertEqual(check(storage.close_journal())[1], 49)


if __name__ == "__main__":
    unittest.main()
