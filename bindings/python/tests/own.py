"""Python's own values for JSON, and what gets return beside what is recorded.

The conversion is written independently of the package.
"""
import contextlib
import json
import pathlib
import sys
import unittest
from collections import Counter, defaultdict
from unittest import mock

import folugben
from folugben._texts import encode


def value(it):
    """Return a JSON value as Python's own.

    It is unchanged if Python considers two of its elements equal.
    """
    if not isinstance(it, dict):
        return it
    ((kind, members),) = it.items()
    if kind == "bag":
        pairs = [(value(element), count) for element, count in members]
        bag = Counter(dict(pairs))
        return bag if len(bag) == len(pairs) else {"bag": pairs}
    elements = [value(element) for element in members]
    if kind == "list":
        return tuple(elements)
    return frozenset(elements) if len(set(elements)) == len(elements) else {"set": elements}


def place(it):
    return it[0], *map(value, it[1:])


def pairs(it):
    return [(place(at), value(number)) for at, number in it]


def call(it):
    """Return a move with its reads."""
    fire = tuple((word, place(at), *map(value, operands)) for word, at, *operands in it["fire"])
    return {"fire": fire, "reads": tuple((place(at), number) for at, number in it["reads"])}


class Watch:
    """Record what gets return, and check each journal with those values.

    They replace what commits have recorded there.
    """

    def __init__(self):
        self._check, self.faults = folugben.check, []
        # What gets returned, by the storage and the number of moves; how often agents read; how many reads commits have recorded
        # in a journal.
        self._values_read, self._reads, self._recorded = defaultdict(dict), Counter(), {}

    def add_read(self, step, places, values):
        """Record what was read of the state, through no pushed move."""
        if step.depth == 0:
            names = (repr(place(json.loads(encode(getattr(at, "place", at), "place")))) for at in places)
            self._values_read[step._agent._storage, step._own_number].update(zip(names, values))

    def read(self, agent):
        self._reads[agent._storage] += 1

    def closed(self, storage, journal):
        """Check the journal of a storage, and return it."""
        if storage.record:
            header, *lines = journal.splitlines(keepends=True)
            self._recorded[journal] = -self._reads[storage]
            next_of = {}
            for at, event in reversed([*enumerate(map(json.loads, lines))]):
                if "read" in event["call"]:
                    self._recorded[journal] += 1
                    lines[at] = self._with_values_read(storage, event, next_of.get(event["agent"]))
                next_of[event["agent"]] = event
            try:
                self._check(b"".join([header, *lines]))
            except folugben.BadJournalError as bad:
                self.faults.append(f"{bad}: {lines[bad.call or 0]}")
        return journal

    def _with_values_read(self, storage, event, following):
        """Return the line of a read, with what was read.

        If the agent's next fire names what the read has, and isn't stale, these were read at the number of its names.
        """
        reply = event["reply"]
        number = reply["number"]
        if following is not None and "fire" in following["call"] and "stale" not in following["reply"]:
            names = following["call"]["reads"]
            if names and [at for at, _ in names] == event["call"]["read"]:
                number = names[0][1]
        values_read = self._values_read.get((storage, number), {})
        for at, where in enumerate(event["call"]["read"]):
            name = repr(place(where))
            if name in values_read:
                reply["values"][at] = json.loads(encode(values_read[name], "value"))
        return json.dumps(event, separators=(",", ":")).encode() + b"\n"

    def without_recorded(self, counts, its):
        """Return the counts of `check` or `audit` without the reads that commits recorded.

        The argument is a journal or a run.
        """
        journals = [its] if isinstance(its, bytes) else [file.read_bytes() for file in pathlib.Path(its).glob("*.journal")]
        calls, *others = counts
        adjusted = calls - sum(self._recorded.get(journal, 0) for journal in journals), *others
        return adjusted if type(counts) is tuple else type(counts)(*adjusted)


class Recorded(unittest.TestCase):
    """The tests of a case again, with storages and runs that record.

    Calls are counted without the reads that commits record.
    """

    def setUp(self):
        self.watch, self.patches = Watch(), contextlib.ExitStack()
        self.addCleanup(self.assert_judged)
        self.patch(folugben.Step, "get", self.recording)
        self.patch(folugben.Step, "__getitem__", self.recording)
        self.patch(folugben.Agent, "read", lambda read: lambda its, places: (read(its, places), self.watch.read(its))[0])
        self.patch(folugben.Storage, "close_journal", lambda close: lambda its: self.watch.closed(its, close(its)))
        for kind, name in (folugben.Storage, "__init__"), (folugben.Run, "__init__"), (folugben.Run, "resume"):
            self.patch(kind, name, lambda make: lambda *words, **named: make(*words, **{"record": True} | named))
        for module in sys.modules[type(self).__module__], folugben:
            for name in {"audit", "check"} & vars(module).keys():
                self.patch(module, name, lambda counts: lambda its: self.watch.without_recorded(counts(its), its))
        super().setUp()

    def patch(self, owner, name, make):
        self.patches.enter_context(mock.patch.object(owner, name, make(getattr(owner, name))))

    def recording(self, get):
        def get_recorded(step, places):
            values = get(step, places)
            is_list = isinstance(values, list) and get.__name__ == "get"
            self.watch.add_read(step, places if is_list else [places], values if is_list else [values])
            return values

        return get_recorded

    def assert_judged(self):
        self.patches.close()
        self.assertEqual(self.watch.faults, [])
