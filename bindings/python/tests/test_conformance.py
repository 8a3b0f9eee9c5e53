"""Tests against the table of calls and answers that every package must return.

bindings/conformance has the table, and describes its lines.
"""
import json
import pickle
import re
import unittest
from collections import Counter

import folugben
import own
from checkout import ROOT
from folugben import Auditor, BadJournalError, ClashError, CommitClashError, Error, LargeError, Location, Move, OverError, StaleError, Storage

TABLES = ROOT / "bindings" / "conformance"
FORMS = ["LOCATIONS", "MOVE", "STATE", "EVENT", "SCRIPT"]
# The codes that have a class of their own.
KINDS = {
    "STALE": StaleError, "CLASH": ClashError, "LARGE": LargeError, "FULL": folugben.FullError, "MANY": folugben.ManyError,
    "LONG_MOVE": folugben.ManyError, "MISSING": folugben.MissingError, "MOVED": folugben.MovedError, "DEEP": folugben.DeepError,
}


def expanded(line):
    """Return the line with the items that each {"each":COUNT,"of":ITEM} stands for."""
    return re.sub(r'\{"each":(\d+),"of":([^{}]*)\}', lambda it: ",".join(it[2].replace('"#"', str(at)) for at in range(int(it[1]))), line)


class Replayer:
    """Runs the calls of a table's lines; each method returns the answer."""

    def __init__(self, record):
        self.record = record
        self.case("")

    def case(self, _name):
        self.storage, self.agents, self.steps, self.gathered, self.text = None, {}, {}, {}, b""
        self.reads = Counter()

    def open(self, state, capacity):
        self.storage, self.agents = Storage(state, capacity, record=self.record), {}

    def next(self, capacity):
        self.storage, self.agents = self.storage.next(capacity), {}

    def go_on(self, own, capacity):
        self.storage, self.agents = self.agents[own].go_on(capacity), {}

    def agent(self, own):
        self.agents[own] = self.storage.agent(own)

    def take(self, own):
        self.agents[own] = self.storage.take(own)

    def give(self, own):
        self.agents[own].give()

    def abandon(self, own):
        self.agents[own].abandon()

    def learn(self, own, other):
        self.agents[own].learn(self.agents[other])

    def read(self, own, places):
        reading = dict(zip(("number", "values"), self.agents[own].read(places)))
        self.reads[own] += 1
        return reading

    def peek(self, own, places):
        return dict(zip(("number", "values"), self.agents[own].peek(places)))

    def peek_at(self, own, place):
        number, value = self.agents[own].peek(Location(place))
        return {"number": number, "values": [value]}

    def answer(self, own):
        answer = self.agents[own].answer()
        is_object = isinstance(answer, dict)
        return {key: list(it) if key in ("clash", "values") else it for key, it in answer.items()} if is_object else answer

    def fire(self, own, instructions, reads, scans):
        return {"fired": self.agents[own].fire(instructions, reads, scans)}

    def follow(self, own):
        return self.agents[own].follow()

    def stands(self, own, reads):
        at = self.agents[own].stands(reads)
        return at if at is None else {"stale": at}

    def state(self, own, number):
        assert self.agents[own].state()[0] == number
        return self.agents[own].state()[1]

    def scan(self, own, name, number):
        assert self.agents[own].scan(name)[0] == number
        return self.agents[own].scan(name)[1]

    def counted(self, own, name):
        return getattr(self.agents[own], name)

    def seen(self, own):
        return self.agents[own].seen

    def won(self, own):
        return self.agents[own].won

    def misses(self, own):
        return self.agents[own].misses

    def moves(self):
        return self.storage.moves()

    def begin(self, own):
        self.steps[own] = self.agents[own].step()
        return self.steps[own].number

    def end(self, own):
        self.steps[own].free()

    def on_step(self, name, own, *words):
        if self.record and name in ("has", "count_of", "size"):
            words = Location(words[0]), *words[1:]
        return getattr(self.steps[own], name)(*words)

    def get_at(self, own, place):
        return [self.steps[own].get(Location(place))]

    def push_move(self, own, move):
        self.steps[own].push(self.gathered[move])

    def extend_move(self, own, move):
        self.steps[own].extend(self.gathered[move])

    def pop_move(self, own, move):
        self.gathered[move] = self.steps[own].pop_move()

    def move(self, number):
        return self.gathered.setdefault(number, Move())

    def gather(self, move, instructions):
        for word, *words in instructions:
            getattr(self.move(move), word.replace("bag", "bag_"))(*words)

    def instructions(self, move):
        return [(word.replace("_", ""), *words) for word, *words in self.move(move)]

    def unite(self, move, other):
        self.move(move).unite(self.move(other))

    def drop(self, move):
        self.gathered.pop(move, None)

    def length(self, move):
        return len(self.move(move))

    def step_stands(self, own):
        at = self.steps[own].stands()
        return at if at is None else {"stale": at}

    def depth(self, own):
        return self.steps[own].depth

    def commit(self, own):
        step = self.steps[own]
        if self.record and step.try_commit() == 0:
            assert step.fired == 0
            return self.answer(own)
        return {"fired": step.fired if self.record else step.commit()}

    def get_all(self, own, name):
        return self.steps[own].scan(name)

    def close(self):
        self.text = self.storage.close_journal()

    def journal(self):
        calls, moves = folugben.check(self.text)
        # Commits have recorded the reads that no agent made by itself.
        own = sum(self.reads[number] for number, agent in self.agents.items() if not agent._is_full)
        return [calls - (self.text.count(b',"call":{"read":') - own), moves]

    def lines(self):
        return list(map(json.loads, self.text.splitlines()[1:]))

    recorded = lines

    def left(self):
        return folugben.replay(self.text)

    def check(self, text):
        return list(folugben.check(text))

    def audit(self, text):
        auditor = Auditor()
        auditor.feed(text)
        return list(auditor.end())

    def explain(self, form, text):
        return folugben.explain(FORMS.index(form), text)

    def call(self, name, *words):
        """Return the answer to a call, in the words of the table."""
        try:
            if name in ("get", "see", "has", "count_of", "size", "any", "count", "push", "extend", "pop", "offer"):
                return self.on_step(name, *words)
            return getattr(self if hasattr(self, name) else folugben, name)(*words)
        except Error as error:
            expect_words(name, error)
            return refused(error)


def expect_words(call, error):
    """Check the class and the words of an error, which its copies have too."""
    code, text = error.code.name, str(error)
    kind = KINDS.get(code, Error)
    if call in ("check", "replay", "audit"):
        kind = BadJournalError
    elif call == "commit" and kind is ClashError:
        kind = CommitClashError
    assert type(error) is kind or type(error) is OverError and code == "EMPTY", repr(error)
    assert error.detail in text and (folugben.error_text(error.code) in text or error.detail or type(error) is OverError), text
    assert all(str(number) in text for number in error.numbers), text
    assert str(pickle.loads(pickle.dumps(error))) == text


def refused(error):
    """Return the table's form of an error.

    It has its location, or its code, and where and why, and its numbers, with that of the part in an audit.
    """
    match error:
        case StaleError():
            return {"stale": error.at}
        case ClashError():
            return {"clash": [error.at, error.cause]}
        case LargeError():
            return {"large": error.at}
    part = [error.part] if isinstance(error, BadJournalError) and error.part is not None else []
    return {"error": error.code.name, "said": error.detail, "numbers": [*error.numbers, *part]}


def in_python(call, wanted):
    """Return an answer of the table in Python's own values."""
    is_error = isinstance(wanted, dict) and "error" in wanted
    if call == "get_at" and not is_error:
        return [own.value(wanted)]
    if isinstance(wanted, dict):
        if "said" in wanted and call not in ("check", "audit"):
            # Of values, and not of a line of JSON.
            wanted = wanted | {"said": wanted["said"].replace("is an array of", "is a tuple or a list of")}
        wanted = wanted | {kind: own.place(wanted[kind]) for kind in ("stale", "large") if kind in wanted}
        if "clash" in wanted:
            return {"clash": [own.place(wanted["clash"][0]), wanted["clash"][1]]}
        if "values" in wanted:
            return wanted | {"values": list(map(own.value, wanted["values"]))}
        return own.call(wanted) if "fire" in wanted else wanted
    if call in ("get", "see"):
        return list(map(own.value, wanted))
    if call in ("state", "scan", "get_all", "aggregate", "replay", "left"):
        return own.pairs(wanted)
    return list(own.call({"fire": wanted, "reads": []})["fire"]) if call in ("compose", "instructions") else wanted


class Conformance(unittest.TestCase):
    def assert_answer(self, call, answer, wanted, where):
        if isinstance(wanted, dict) and "error" in wanted and isinstance(answer, dict) and "error" in answer:
            answer = {key: value for key, value in answer.items() if key in wanted}
        wanted = in_python(call, wanted)
        answer, wanted = (sorted(it.items()) if isinstance(it, dict) else it for it in (answer, wanted))
        # True and 1 are different values.
        self.assertEqual(repr(answer), repr(wanted), where)

    def replay(self, name, record):
        """Make the calls of a table, and return how many they are."""
        replayer, case, count, times = Replayer(record), "", 0, 1
        for number, line in enumerate((TABLES / f"{name}.jsonl").read_text().splitlines(), 1):
            call, *words = json.loads(expanded(line))
            if call == "case":
                (case,) = words
                replayer.case(case)
            elif call == "repeat":
                (times,) = words
            # The journal of agents that record has their reads too. A call here takes values, and no texts that aren't JSON.
            elif call not in ("text", "lines" if record else "recorded"):
                *words, wanted = [*words, None] if call == "end" else words
                for _ in range(times):
                    self.assert_answer(call, replayer.call(call, *words), wanted, f"{name}.jsonl:{number}, {case}: {line[:200]}")
                count, times = count + 1, 1
        return count

    def test_each_call_of_the_table_has_its_answer(self):
        for name in ("moves", "calls", "polls", "steps", "gathered", "commits", "journals"):
            for record in (False, True):
                self.assertGreater(self.replay(name, record), 20, name)


if __name__ == "__main__":
    unittest.main()
