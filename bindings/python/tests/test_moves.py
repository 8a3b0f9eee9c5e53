"""Tests of moves on a state and in sequence: python3 test.py runs all tests."""
import random
import unittest

import own
import random_moves
from folugben import ClashError, LargeError, aggregate, compose


class Moves(unittest.TestCase):

    def test_random_moves_do_in_sequence_what_the_model_does(self):
        moves, values = random_moves.model("moves"), random_moves.model("values")
        rng, seen = random.Random(6), set()

        def outcome(call, *arguments):
            try:
                return call(*arguments)
            except (ClashError, moves.Clash) as clash:
                at = clash.at if isinstance(clash, ClashError) else values.location_json(clash.at)
                return "clash", own.place(at), clash.cause
            except (LargeError, moves.LargeAmount) as large:
                return "large", large.at if isinstance(large, LargeError) else own.place(values.location_json(large.at))

        def model_compose(*two):
            move = moves.compose_moves(*(list(map(moves.read_instruction, it)) for it in two))
            return list(own.call({"fire": map(moves.instruction_json, move), "reads": []})["fire"])

        def updates(state, move):
            written = moves.updates_on(values.read_state(state), list(map(moves.read_instruction, move)))
            return own.pairs([[values.location_json(at), values.value_json(it)] for at, it in sorted(written.items())])

        for _ in range(4000):
            first, second = random_moves.move(rng), random_moves.move(rng)
            state = rng.choice([random_moves.INIT, [[at, random_moves.value(rng)] for at in random_moves.PLACES]])
            one = outcome(compose, first, second)
            self.assertEqual(repr(one), repr(outcome(model_compose, first, second)), (first, second))
            self.assertEqual(repr(outcome(aggregate, state, first)), repr(outcome(updates, state, first)), (state, first))
            seen.add(one[0] if isinstance(one, tuple) else bool(one))
        self.assertEqual(seen, {"clash", "large", True, False})


if __name__ == "__main__":
    unittest.main()
