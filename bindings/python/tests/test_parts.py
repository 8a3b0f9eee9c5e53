"""Tests of runs without an end.

Agents pass from part to part, by numbers of the run, and parts exceed the limit of receipts.
"""
import contextlib
import gc
import itertools
import random
import time
import unittest
from unittest import mock

import own
from folugben import BrokenError, ClashError, Error, Move, PastError, ConflictError, Run, StaleError
from folugben import _folder, _part, _parts, audit, check, interleave, states
from rooms import AT, BANK, COUNT, INIT, Rooms, raised, text_of, transfer, until
from threads import in_threads


class Parts(Rooms):
    def test_agents_in_threads_pass_from_part_to_part(self):
        agents, times, numbers = 4, 300, [[] for _ in range(4)]

        def work(own):
            with run.agent(own) as agent:
                for _ in range(times):
                    numbers[own].append(agent.play(raised)[0])
                self.assertEqual((agent.won, agent.number), (times, own))
                self.assertGreaterEqual(agent.seen, numbers[own][-1])

        with Run(self.path, INIT, 50) as run:
            self.assertEqual(in_threads(work, agents), ([], True))
        self.assertEqual(sorted(itertools.chain(*numbers)), list(range(1, agents * times + 1)))
        self.assertTrue(all(it == sorted(it) for it in numbers))
        calls, moves, parts = audit(self.path)
        self.assertEqual((moves, parts, run.saved, run.parts), (1200, 25, 1200, 25))
        self.assertGreaterEqual(calls, moves)
        self.assertEqual(self.last_state(), [(COUNT, 1200)])
        journals = self.journals()
        self.assertEqual(check(journals[0]), (0, 0))
        self.assertEqual([check(journal)[1] for journal in journals[1:]], [50] * 24)
        self.assertEqual([next(states(journal))[1] for journal in journals],
                         [{("count",): 0}, *({("count",): 50 * number} for number in range(24))])

    def test_a_part_of_one_move(self):
        with Run(self.path, INIT, 1) as run, run.agent(7) as agent:
            for number in range(1, 20):
                self.assertEqual(agent.play(raised), (number, None))
                self.assertEqual((agent.seen, agent.won), (number, number))
        self.assertEqual(audit(self.path), (19, 19, 20))

    def test_a_step_that_has_begun_sees_its_state_and_fires_no_more(self):
        # A slow machine ends no step.
        for module in _part, _parts:
            self.enterContext(mock.patch.object(module, "PATIENCE", 60))
        with Run(self.path, INIT, 5) as run, run.agent(0) as slow, run.agent(1) as quick:
            with slow.step() as step:
                for _ in range(12):
                    quick.play(raised)
                self.assertEqual((step.number, step.get([COUNT]), step.get(AT)), (0, [0], 0))
                step.push([["inc", COUNT, 1]])
                # It is stale too.
                self.assertEqual((step.get(AT), step.try_commit(), step.fired), (1, 0, 0))
                self.assertRaises(StaleError, step.commit)
            self.assertEqual(slow.play(raised), (13, None))
            with slow.step() as step:
                step.push([["inc", COUNT, 1]])
                for _ in range(12):
                    quick.play(raised)
                self.assertEqual((step.get([["x"]]), step.try_commit(), step.fired), ([None], 0, 0))
                with self.assertRaisesRegex(PastError, "begin another step") as caught:
                    step.commit()
                self.assertIsInstance(caught.exception, ConflictError)
            with slow.step() as step:
                self.assertEqual((step.number, step.get(AT)), (25, 25))
        self.assertEqual(audit(self.path)[1:], (25, 6))

    def test_a_step_whose_agent_has_moved_on_raises_an_error(self):
        with Run(self.path, INIT, 5) as run, run.agent(0) as slow, run.agent(1) as quick:
            with slow.step() as step:
                for _ in range(7):
                    quick.play(raised)
                self.assertEqual(slow.follow(), 7)
                for call in (step.commit, lambda: step.get(AT), lambda: step.push([]), lambda: step.scan("count")):
                    with self.assertRaisesRegex(PastError, "begin another step"):
                        call()
                self.assertEqual(step.try_commit(), 0)
            with slow.step() as step:
                slow.give()
                with self.assertRaisesRegex(Error, "the agent was returned"):
                    step.get(AT)

    def test_a_part_waits_for_no_agent_that_is_idle(self):
        with Run(self.path, INIT, 10) as run, run.agent(0) as idle, run.agent(1) as busy:
            idle.play(raised)
            while run.parts < 5:
                busy.play(raised)
            number = busy.play(raised)[0]
            self.assertEqual((idle.won, idle.seen), (1, 1))
            self.assertEqual(idle.play(raised)[0], number + 1)
            self.assertEqual((idle.won, idle.seen), (2, number + 1))
        self.assertEqual(audit(self.path).moves, number + 1)

    def test_reads_and_fires_by_numbers_of_the_run(self):
        with Run(self.path, INIT, 4) as run, run.agent(0) as agent, run.agent(1) as other:
            old = agent.read([COUNT])
            self.assertEqual(old, (0, [0]))
            for number in range(1, 8):
                seen, (count,) = agent.read([COUNT])
                self.assertEqual((seen, count), (number - 1, number - 1))
                self.assertIsNone(agent.stands([[COUNT, seen]]))
                self.assertEqual(agent.fire([["put", COUNT, count + 1]], [(COUNT, seen)]), number)
            for call in (lambda: agent.fire([], [(COUNT, old[0])]), lambda: agent.stands([(COUNT, 3)])):
                with self.assertRaisesRegex(PastError, "read again"):
                    call()
            with self.assertRaisesRegex(Error, r'\["count"\] is named at 8, and the agent has seen 7'):
                agent.follow()
                agent.fire([], [(COUNT, 8)])
            self.assertEqual(agent.follow(), 7)
            with self.assertRaises(StaleError):
                agent.fire([["put", COUNT, 0]], [(COUNT, 5)])
            self.assertEqual(agent.stands([[COUNT, 4]]), COUNT)
            with self.assertRaises(ClashError):
                agent.fire([["put", COUNT, 0], ["put", COUNT, 1]])
            with self.assertRaisesRegex(Error, "read"):
                agent.fire([], [[COUNT]])
            self.assertEqual((agent.peek([COUNT]), agent.peek(AT)), ((7, [7]), (7, 7)))
            self.assertEqual((agent.state(), agent.scan("count")), ((7, [(COUNT, 7)]), (7, [(COUNT, 7)])))
            with self.assertRaises(StaleError):
                agent.fire([["put", COUNT, 0]], scans=[("count", 5)])
            with self.assertRaisesRegex(PastError, 'scan 1 names "count" at 0'):
                agent.fire([], scans=[("count", 0)])
            with self.assertRaisesRegex(Error, 'scan 1: "count" is named at 8, and the agent has seen 7'):
                agent.fire([], scans=[("count", 8)])
            # The eighth move is the part's last: the next part opens with the state after it, at the same number.
            seen, _ = agent.read([COUNT])
            other.fire([["put", ["else"], 1]])
            self.assertEqual((seen, agent.follow()), (7, 8))
            self.assertEqual(agent.read([COUNT]), (8, [7]))
            self.assertEqual(agent.fire([["put", COUNT, 9]], [(COUNT, 8)]), 9)
            # A fire that names nothing continues by itself.
            self.assertEqual([agent.fire([["inc", COUNT, 1]]) for _ in range(10)], list(range(10, 20)))
        self.assertEqual(audit(self.path).moves, 19)

    def test_an_agent_that_waits_for_a_value_enters_the_newest_part(self):
        def work(own):
            with run.agent(own) as agent:
                if own == 0:
                    for _ in range(30):
                        agent.play(raised)
                else:
                    until(lambda: agent.follow() == 30)
                    self.assertEqual(agent.peek(AT), (30, 30))

        with Run(self.path, INIT, 7) as run:
            self.assertEqual(in_threads(work, 3), ([], True))

    def test_numbers_are_free_again(self):
        with Run(self.path, INIT, 4) as run:
            first = run.agent(0)
            first.play(raised)
            with self.assertRaisesRegex(Error, "agent 0"):
                run.agent(0)
            first.give()
            first.give()
            others = lambda: first.play(raised), lambda: first.read([COUNT]), lambda: first.fire([])
            for call in (first.step, first.follow, *others):
                with self.assertRaisesRegex(Error, "the agent was returned"):
                    call()
            self.assertEqual((first.won, first.seen, repr(first)), (1, 1, "<RunAgent 0, returned>"))
            # In the same part it is checked out again, with what it has seen and its receipts.
            for number in range(2, 12):
                with run.agent(0) as again:
                    self.assertEqual((again.won, again.play(raised)[0], again.won), (0, number, 1))
                    self.assertRaises(Error, first.step)
            run.agent(0).play(raised)  # nobody holds it any more
            gc.collect()
            self.assertEqual(run.agent(0).play(raised), (13, None))
            for number, message in [(256, "numbers are below 256"), (-1, "numbers are below 256")]:
                with self.assertRaisesRegex(Error, message):
                    run.agent(number)
            self.assertEqual(repr(run.agent(3)), "<RunAgent 3, 0 moves seen>")
        self.assertEqual(audit(self.path).moves, 13)

    def test_what_a_rule_raises_fires_nothing(self):
        with Run(self.path, INIT, 4) as run, run.agent(0) as agent:
            for _ in range(10):
                with self.assertRaises(ZeroDivisionError):
                    agent.play(lambda step: (raised(step), 1 // 0))
                agent.play(raised)
            with self.assertWarns(ResourceWarning), agent.step() as step:
                raised(step)
        self.assertEqual(audit(self.path), (10, 10, 4))

    def test_steps_without_text_and_extensions(self):
        move = Move()
        with Run(self.path, INIT, 3) as run, run.agent(0) as agent:
            for number in range(1, 11):
                with agent.step() as step:
                    step.push(move.clear().inc(COUNT, 1))
                    step.extend(move.clear().inc(COUNT, 1))
                    self.assertEqual((step.commit(), step.fired), (number, number))
        self.assertEqual(self.last_state(), [(COUNT, 20)])

    def test_offers_have_numbers_of_the_run_and_popped_moves_last(self):
        with Run(self.path, INIT, 3) as run, run.agent(0) as agent:
            for number in range(10):
                with agent.step() as step:
                    self.assertEqual((step.see([COUNT]), step.get([COUNT])), ([number], [number]))
                    if number == 0:
                        step.push([["inc", COUNT, 1]])
                        popped = step.pop_move()
                    step.push(popped)
                    self.assertEqual(step.offer(), {"fire": (("inc", COUNT, 1),), "reads": ((COUNT, step.number),)})
                    self.assertEqual((step.number, step.commit()), (number, number + 1))
        self.assertEqual(self.last_state(), [(COUNT, 10)])

    def test_the_writer_limits_how_many_parts_are_in_memory(self):
        chain = None
        most = [0]
        real = _folder.RunWriter.save

        def slow(folder, journal, *counts):
            part, count = chain._oldest, 0
            while part is not None:
                part, count = part.next, count + 1
            most[0] = max(most[0], count)
            time.sleep(0.02)
            real(folder, journal, *counts)

        def work(own):
            with run.agent(own) as agent:
                for _ in range(100):
                    agent.play(raised)

        with Run(self.path, INIT, 10) as run:
            chain = run._chain
            with mock.patch.object(_folder.RunWriter, "save", slow):
                self.assertEqual(in_threads(work, 4), ([], True))
                run.close()
        self.assertEqual(audit(self.path)[1:], (400, 41))
        self.assertIn(most[0], (2, 3))

    def test_one_schedule_gives_one_file(self):
        def played(seed, name):
            path = self.room / name
            with Run(path, BANK, 7) as run:
                agents = [run.agent(own) for own in range(3)]

                def work(agent):
                    rng = random.Random(agent.number)
                    return [transfer(agent, rng)[0] for _ in range(12)]

                answers = interleave(agents, [work] * 3, seed)
            return answers, text_of(path)

        for seed in range(6):
            self.assertEqual(played(seed, f"{seed} a"), played(seed, f"{seed} b"))
            self.assertEqual(audit(self.room / f"{seed} a")[1:], (36, 7))


    def test_an_agent_that_stays_in_a_step_by_turns_holds_at_most_two_parts(self):
        def played(name):
            answers, most = [], 0
            with Run(self.room / name, INIT, 5) as run:
                def stays(agent):
                    with agent.step() as step:
                        for _ in range(100):
                            try:
                                answers.append(step.get(AT))
                            except PastError:
                                return

                def raises(agent):
                    nonlocal most
                    for _ in range(40):
                        agent.play(raised)
                        part, count = run._chain._oldest, 1
                        while (part := part.next) is not None:
                            count += 1
                        most = max(most, count)

                interleave([run.agent(0), run.agent(1)], [stays, raises], 3)
            self.assertLessEqual(most, 5)
            return answers, text_of(self.room / name)

        self.assertEqual(played("one"), played("other"))
        answers, text = played("a third")
        self.assertEqual(set(answers), {answers[0]})
        self.assertTrue(10 < len(answers) < 60, answers)
        self.assertEqual(audit(self.room / "one").moves, 40)


class Random(Rooms):
    """Agents act at random, in small parts, each of which may end in any way."""

    def live(self, run, own, rng, answers):
        """Repeatedly check an agent out, act with it, and release it.

        Return the numbers of the moves that it fired.
        """
        for _ in range(rng.randrange(5, 15)):
            with run.agent(own) as agent:
                for _ in range(rng.randrange(8)):
                    rng.choice([self.plays, self.fires, self.holds, self.polls])(agent, rng, answers)
                    time.sleep(rng.choice([0, 0, 0, 0.002]))

    def plays(self, agent, rng, answers):
        answers.append(agent.play(raised)[0])

    def fires(self, agent, rng, answers):
        number, (count,) = agent.read([COUNT])
        with contextlib.suppress(ConflictError):
            answers.append(agent.fire([["put", COUNT, count + 1]], [(COUNT, number)]))

    def holds(self, agent, rng, answers):
        with agent.step() as step:
            step.push([["put", COUNT, step.get(AT) + 1]])
            time.sleep(rng.choice([0, 0.001, 0.005]))
            self.assertEqual(step.get(AT), step.number + 1)
            if number := step.try_commit():
                answers.append(number)

    def polls(self, agent, rng, answers):
        number = agent.follow()
        self.assertEqual(agent.peek(AT)[0], agent.peek(AT)[1])
        self.assertGreaterEqual(agent.peek(AT)[0], number)
        self.assertGreaterEqual(agent.seen, number)

    def test_nothing_is_lost_and_nothing_done_twice(self):
        for seed in range(6):
            rng, self.path = random.Random(seed), self.room / str(seed)
            answers = [[] for _ in range(5)]

            def work(own):
                self.live(run, own, random.Random(f"{seed} {own}"), answers[own])

            limits = {"receipts": rng.choice([None, 64]), "every": rng.choice([None, 0.05])}
            with Run(self.path, INIT, rng.choice([1, 2, 7, 500]), **limits) as run:
                self.assertEqual(in_threads(work, 5), ([], True))
            numbers = sorted(itertools.chain(*answers))
            self.assertEqual(numbers, list(range(1, len(numbers) + 1)))
            self.assertEqual((audit(self.path).moves, self.last_state()), (len(numbers), [(COUNT, len(numbers))]))
            self.assertTrue(all(it == sorted(it) for it in answers))


class Receipts(Rooms):
    """A part that retains too much ends early, once its agents are at rest.

    At rest they are between two steps.
    """

    def stale(self, agent, other, times):
        for _ in range(times):
            with agent.step() as step:
                step.get([COUNT])
                other.fire([["put", COUNT, 0]])
                step.push([["inc", COUNT, 1]])
                self.assertEqual(step.try_commit(), 0)

    def test_a_part_with_too_many_receipts_ends_between_steps(self):
        with Run(self.path, INIT, 10_000, receipts=100) as run, run.agent(0) as agent, run.agent(1) as other:
            number = 0
            for _ in range(30):
                for _ in range(20):
                    agent.read([["x"]])
                number += 1
                self.assertEqual(other.fire([["inc", COUNT, 1]]), number)
                self.assertEqual(agent.follow(), number)
            until(lambda: run.parts >= 4)
        calls, moves, parts = audit(self.path)
        # A read that polled on to a part that had to end is repeated.
        self.assertEqual((calls >= 630, moves), (True, 30))
        self.assertLessEqual(max(check(journal)[0] for journal in self.journals()), 200)
        self.assertEqual(self.last_state(), [(COUNT, 30)])

    def test_stale_fires_in_threads_end_parts(self):
        def work(own):
            with run.agent(own) as agent:
                for _ in range(200):
                    agent.play(lambda step: (raised(step), time.sleep(0)))

        with Run(self.path, INIT, 10_000, receipts=150) as run:
            self.assertEqual(in_threads(work, 4), ([], True))
        calls, moves, parts = audit(self.path)
        self.assertEqual((moves, self.last_state()), (800, [(COUNT, 800)]))
        self.assertGreaterEqual(parts, 4)

    def test_a_step_that_lasts_is_ended(self):
        def work(own):
            with run.agent(own) as agent:
                for _ in range(300):
                    agent.play(raised)

        with Run(self.path, INIT, 10_000, receipts=100) as run:
            with run.agent(9) as slow, slow.step() as step:
                self.assertEqual((step.get(AT), in_threads(work, 2)), (0, ([], True)))
                self.assertGreaterEqual(run.parts, 3)
                with self.assertRaisesRegex(PastError, "begin another step"):
                    step.get(AT)
                self.assertEqual(step.try_commit(), 0)
            self.assertEqual(slow.won, 0)
        self.assertEqual(audit(self.path).moves, 600)

    def test_a_step_that_lasts_bounds_memory_and_stops_no_saving(self):
        with Run(self.path, INIT, 10) as run, run.agent(0) as slow, run.agent(1) as quick:
            with slow.step() as step:
                start = time.monotonic()
                for number in range(1, 200):
                    quick.play(raised)
                    self.assertLess(number - run.saved, 40)
                self.assertLess(time.monotonic() - start, 5)
                with self.assertRaises(PastError):
                    step.get(AT)

            def lasts(step):
                tries.append(step.get(AT))
                if len(tries) < 3:
                    for _ in range(40):
                        quick.play(raised)
                return step.push([["put", COUNT, step.get(AT) + 1]])

            tries = []
            self.assertEqual(slow.play(lasts), (280, None))
            self.assertEqual(tries, [199, 239, 279])
        self.assertEqual(self.last_state(), [(COUNT, 280)])

    def test_an_agent_that_was_abandoned_is_reported_between_steps_too(self):
        with contextlib.suppress(BrokenError), Run(self.path, INIT, 10_000, receipts=64) as run, run.agent(0) as agent:
            with run.agent(1) as abandoned:
                abandoned.play(raised)
                abandoned.abandon()
            with self.assertRaises(BrokenError) as caught:
                for _ in range(1_000):
                    agent.read([COUNT])
            self.assertRegex(str(caught.exception), "part 1 couldn't be written: .*: agent 1 was abandoned .move 1.")
        self.assertEqual(audit(self.path), (0, 0, 1))

class RecordedParts(own.Recorded, Parts):
    pass


if __name__ == "__main__":
    unittest.main()
