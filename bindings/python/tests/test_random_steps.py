"""Tests of steps at random and in threads: python3 test.py runs all tests."""
import json
import random
import unittest
from collections import Counter

import own
import random_moves
from folugben._texts import encode
from folugben import ClashError, ConflictError, MovedError, StaleError, Storage, check, replay
from threads import in_threads

moves, values = random_moves.model("moves"), random_moves.model("values")


class Twin:
    """The model of a step: the state below, and the moves over it with extensions."""

    def __init__(self, pairs):
        self.below, self.frames = values.read_state(json.loads(encode(pairs, "state"))), []

    def after(self, *further):
        """Return the pairs that are seen through the moves and further ones."""
        state = dict(self.below)
        for move in [*sum(self.frames, []), *further]:
            for at, value in moves.updates_on(state, list(map(moves.read_instruction, move))).items():
                values.write_to(state, at, value)
        return own.pairs(values.pairs_json(state))

    def push(self, move):
        self.frames.append([move])

    def extend(self, move):
        if not self.frames:
            self.frames.append([])
        self.frames[-1].append(move)

    def pop(self):
        self.frames.pop()


def up_to(journal, number):
    """Return the state after the first moves of a journal, this many."""
    header, *events = journal.splitlines()
    fired = 0
    for count in range(len(events) + 1):
        if fired == number:
            break
        fired += "fired" in json.loads(events[count])["reply"]
    header = json.dumps({**json.loads(header), "events": count}).encode()
    return replay(b"".join(line + b"\n" for line in [header, *events[:count]]))


class RandomSteps(unittest.TestCase):
    def grown(self, step, twin, word, move):
        """Push or extend, and check that the model and firing in turn do the same.

        Return whether all of them do it. Otherwise all report the same clash.
        """
        try:
            expected = twin.after(move)
        except moves.Clash as clash:
            expected = own.place(values.location_json(clash.at)), clash.cause
        try:
            getattr(step, word)(move)
        except ClashError as clash:
            self.assertEqual(repr((clash.at, clash.cause)), repr(expected))
            self.assertEqual(repr(self.fire_in_turn(twin, move)), repr(expected))
            return False
        getattr(twin, word)(move)
        self.assertEqual(repr(twin.after()), repr(expected))
        return True

    def fire_in_turn(self, twin, *further):
        """Return the state after the moves on a copy, or the clash of the last one.

        The moves are fired one after the other.
        """
        with Storage(values.pairs_json(twin.below)) as storage, storage.agent(0) as agent:
            try:
                for move in [*sum(twin.frames, []), *further]:
                    agent.fire(move)
            except ClashError as clash:
                return clash.at, clash.cause
            agent.follow()
            return agent.state()[1]

    def assert_seen(self, rng, step, twin):
        """Check that gets and scans return the values of the model."""
        pairs = twin.after()
        found = {repr(at): value for at, value in pairs}
        places = rng.sample(random_moves.PLACES, rng.randrange(4))
        self.assertEqual(repr(step.get(places)), repr([found.get(repr(own.place(at))) for at in places]))
        name = rng.choice(["free", "set", "number", "none"])
        self.assertEqual(repr(step.scan(name)), repr([pair for pair in pairs if pair[0][0] == name]))

    def run_step(self, rng, agent, number):
        """Run a step of random calls, which is the move of this number."""
        with agent.step() as step:
            self.assertEqual(step.number, number - 1)
            twin = Twin(agent.state()[1])
            for _ in range(rng.randrange(10)):
                word = rng.choice(["push", "push", "extend", "extend", "pop"])
                if word != "pop":
                    self.done[word, self.grown(step, twin, word, random_moves.move(rng))] += 1
                elif twin.frames:
                    step.pop()
                    twin.pop()
                    self.done[word, True] += 1
                self.assertEqual(step.depth, len(twin.frames))
                self.assert_seen(rng, step, twin)
            self.assertEqual(step.commit(), number)
        state = repr(twin.after())
        self.assertEqual(agent.follow(), number)
        self.assertEqual(repr(agent.state()), f"({number}, {state})")
        self.assertEqual(repr(self.fire_in_turn(twin)), state)

    def test_random_steps(self):
        self.done, rng = Counter(), random.Random(7)
        for _ in range(40):
            with Storage(random_moves.INIT, 20) as storage:
                with storage.agent(0) as agent:
                    for number in range(1, 21):
                        self.run_step(rng, agent, number)
                self.assertEqual(check(storage.close_journal()), (20, 20))
        self.assertEqual(len(self.done), 5, self.done)


class Threads(unittest.TestCase):
    def test_eight_threads_of_steps_and_polls(self):
        accounts, snapshots, refused = [[["account", k], 100] for k in range(20)], [], []

        def transfer(rng, step, own):
            source, target = rng.sample(range(20), 2)
            step.push([["inc", ["account", source], -70]])
            if step.get([["account", source]])[0] < 0:
                step.pop()
                step.push([["put", ["poor", own], source]])
            else:
                step.push([["inc", ["account", target], 70], ["put", ["last", own], {"list": [source, target]}]])

        def work(own):
            rng, done = random.Random(own), 0
            with storage.agent(own) as agent:
                while done < 20:
                    with agent.step() as step:
                        # A scan of the step makes it stale more often than a scan of its agent.
                        scan = step.scan if rng.random() < 0.2 else lambda name: agent.scan(name)[1]
                        snapshots.append((step.number, scan("account")))
                        transfer(rng, step, own)
                        snapshots.append((step.number, agent.scan("account")[1]))
                        if rng.random() < 0.2:
                            agent.stands([])
                        try:
                            done += step.commit() > 0
                        except ConflictError as error:
                            refused.append(error)
                    snapshots.append(agent.state())

        with Storage(accounts, 160) as storage:
            self.assertEqual(in_threads(work, 8), ([], True))
            journal = storage.close_journal()
        calls, fired = check(journal)
        self.assertEqual((fired, calls), (160, 160 + sum(isinstance(error, StaleError) for error in refused)))
        states = {number: up_to(journal, number) for number, _ in snapshots}
        for number, pairs in snapshots:
            expected = states[number]
            if len(pairs) == len(accounts):
                expected = [pair for pair in expected if pair[0][0] == "account"]
            self.assertEqual(pairs, expected)
            self.assertEqual(sum(value for at, value in pairs if at[0] == "account"), 2000)

    def test_threads_that_share_an_agent(self):
        fired = Counter()

        def work(own):
            while fired[own] < 50:
                with agent.step() as step:
                    try:
                        (count,) = step.get([["count"]])
                        step.push([["put", ["count"], count + 1]])
                        step.commit()
                        fired[own] += 1
                    except (MovedError, StaleError):
                        pass

        with Storage([[["count"], 0]], 400) as storage:
            with storage.agent(0) as agent:
                self.assertEqual(in_threads(work, 8), ([], True))
                self.assertEqual(agent.read([["count"]]), (400, [400]))
            self.assertEqual(check(storage.close_journal())[1], 400)


class RecordedRandomSteps(own.Recorded, RandomSteps):
    pass


class RecordedThreads(own.Recorded, Threads):
    pass


if __name__ == "__main__":
    unittest.main()
