"""Tests of agents that one thread plays by turns, and of united moves.

python3 test.py runs them too.
"""
import random
import threading
import time
import unittest

import own
import random_moves
from folugben import ClashError, Code, Error, Location, ManyError, Move, MovedError, Storage, check
from threads import in_threads

COUNT = Location("count")


def raised(step):
    step.put(COUNT, step[COUNT] + 1)


class Turns(unittest.TestCase):
    def cost(self, count, moves=2000):
        """Return the processor time, in seconds, of moves by agents by turns."""
        with Storage({"count": 0}, moves) as storage:
            agents = [storage.agent(own) for own in range(count)]
            start = time.process_time()
            for number in range(moves):
                agents[number % count].play(raised)
            seconds = time.process_time() - start
            for agent in agents:
                agent.give()
            self.assertEqual(check(storage.close_journal()), (moves, moves))
        return seconds

    def test_many_agents_cost_about_what_one_does(self):
        one, many = (min(self.cost(count) for _ in range(3)) for count in (1, 256))
        self.assertLess(many, 4 * one)

    def test_an_agent_in_a_step_keeps_its_state(self):
        with Storage({"count": 0}, 9) as storage:
            anna, ben, carl = (storage.agent(own) for own in range(3))
            carl.fire([("put", "count", 1)])
            first, second = anna.step(), anna.step()
            second.free()
            # Of the two steps one is open.
            self.assertEqual(ben.play(raised)[0], 2)
            self.assertEqual(first[COUNT], 1)
            first.free()
            self.assertEqual(ben.play(raised)[0], 3)
            with anna.step() as step:
                self.assertEqual((step.number, step[COUNT]), (3, 3))
                self.assertEqual(ben.read([COUNT.place]), (3, [3]))
                self.assertEqual(step[COUNT], 3)

    def test_its_own_state_never_goes_back(self):
        rng = random.Random(3)
        for _ in range(60):
            with Storage({"count": 0}, 200) as storage:
                agents = [storage.agent(own) for own in range(4)]
                last, values, fired = [0] * 4, {0: 0}, 0
                steps = {}
                for _ in range(120):
                    own = rng.randrange(4)
                    agent = agents[own]
                    call = rng.choice(["peek", "at", "state", "scan", "follow", "play", "read", "fire", "begin", "end", "take"])
                    if call == "take":
                        agent.give()
                        agents[own] = storage.take(own)
                        steps.pop(own, None)
                        continue
                    if call == "play":
                        fired = agent.play(raised)[0]
                        values[fired] = values[fired - 1] + 1
                        continue
                    if call == "fire":
                        fired = agent.fire([("inc", "count", 5)])
                        values[fired] = values[fired - 1] + 5
                        continue
                    if call == "begin":
                        steps[own] = agent.step()
                        number, value = steps[own].number, steps[own].see(COUNT)
                    elif call == "end":
                        if own in steps and steps[own].depth == 0:
                            steps.pop(own).free()
                        continue
                    elif call == "follow":
                        number, value = agent.follow(), values[fired]
                    elif call == "at":
                        number, value = agent.peek(COUNT)
                    elif call in ("read", "peek"):
                        number, (value,) = getattr(agent, call)([("count",)])
                    else:
                        number, ((_, value),) = agent.state() if call == "state" else agent.scan("count")
                    self.assertGreaterEqual(number, last[own])
                    self.assertEqual(value, values[number])
                    last[own] = number
                for agent in agents:
                    agent.give()
                self.assertEqual(check(storage.close_journal())[1], fired)

    def test_agents_that_threads_share(self):
        moves, agents, done = 4000, [], []
        with Storage({"count": 0}, moves + 8) as storage:
            agents += [storage.agent(own) for own in range(8)]

            def work(own):
                rng = random.Random(own)
                while len(done) < moves:
                    agent = rng.choice(agents)
                    before = agent.peek(COUNT)[0] if rng.random() < 0.3 else 0
                    try:
                        done.append(agent.play(raised))
                        if rng.random() < 0.3:
                            assert agent.peek(COUNT)[0] >= before
                    except MovedError:
                        pass  # another thread has begun a step of the agent
                    except Error as error:
                        assert error.code == Code.FULL, error

            self.assertEqual(in_threads(work, 4), ([], True))
            for agent in agents:
                agent.give()
            moves = check(storage.close_journal())[1]
        self.assertEqual(moves, len(done))

    def test_an_agent_that_was_freed_is_no_other_one(self):
        with Storage({"count": 0}, 300) as storage:
            for own in range(100):
                agent = storage.agent(own)
                self.assertEqual(agent.play(raised)[0], own + 1)
                if own % 3:
                    agent.give()
                del agent
            threading.Thread(target=lambda: storage.agent(200).play(raised)).start()


class UnitedMoves(unittest.TestCase):
    def test_random_moves_do_both_at_once(self):
        rng, seen = random.Random(5), set()
        for _ in range(600):
            one, two = random_moves.move(rng), random_moves.move(rng)

            def gather(instructions):
                move = Move()
                for word, *words in instructions:
                    getattr(move, word.replace("bag", "bag_"))(*words)
                return move

            def effect(push):
                with Storage(random_moves.INIT) as storage, storage.agent(0) as agent, agent.step() as step:
                    try:
                        step.push(push)
                    except ClashError as clash:
                        return clash.at, clash.cause
                    finally:
                        seen.add(step.depth)
                    return repr(sorted(map(repr, step.offer()["fire"])))

            first, second = gather(one), gather(two)
            both, third = first | second, gather(one)
            self.assertIs(third.unite(second), third)
            self.assertEqual([len(it) for it in (first, second, both, third)], [len(one), len(two), *2 * [len(one) + len(two)]])
            wanted = effect([*one, *two])
            self.assertEqual((effect(both), effect(third)), (wanted, wanted))
            third = gather(one)
            third |= second
            self.assertEqual((effect(third), effect(first), effect(second)), (wanted, effect(one), effect(two)))
        self.assertEqual(seen, {0, 1})

    def test_operators_unite(self):
        first, second, third = Move().put("x", 1), Move().inc("n", 1).add("s", 2), Move().put("x", 1)
        both = first | second
        self.assertIs(third.unite(second), third)
        third |= second
        self.assertEqual([len(it) for it in (first, second, both, third)], [1, 2, 3, 5])

    def test_limits_and_slots(self):
        half = Move()
        for number in range(2049):
            half.put(("x", number), number)
        full = Move().unite(half)
        with self.assertRaisesRegex(ManyError, "2,049 instructions and 2,049 more: a move has at most 4,096"):
            full.unite(half)
        self.assertEqual((len(full), len(half)), (2049, 2049))
        self.assertRaises(ManyError, lambda: full | half)
        self.assertRaises(TypeError, full.unite, full)
        self.assertRaises(TypeError, full.unite, [("put", "x", 1)])
        self.assertRaises(TypeError, lambda: full | 1)
        self.assertEqual(len(Move() | Move()), 0)
        half.free()
        for call in (lambda: full.unite(half), lambda: half.unite(full), lambda: half | full):
            with self.assertRaisesRegex(Error, "the move was freed"):
                call()
        with Storage() as storage, storage.agent(0) as agent, agent.step() as step:
            step.push(Move())
            step.put("count", 1)
            popped = step.pop_move()
            step.push(Move().put("y", 2) | popped)
            self.assertEqual((step["count"], step["y"], step.commit()), (1, 2, 1))


class RecordedTurns(own.Recorded, Turns):
    pass


if __name__ == "__main__":
    unittest.main()
