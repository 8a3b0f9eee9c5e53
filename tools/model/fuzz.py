#!/usr/bin/env python3
"""Run the program and the model on random inputs; compare status and output.

    fuzz.py PROGRAM [--seed S] [--inputs N] [--seconds T] [--jobs J] [--only KIND] [--save DIR]

Outputs are compared byte for byte. Each difference is printed, and its input saved with its words. The last lines count the
outcomes of the runs. The status is 1 if there was a difference. One seed and number always make the same inputs, whatever the
jobs; journals of several agents depend on how the threads ran.
"""

import argparse
import multiprocessing
import re
import subprocess
import sys
import tempfile
import time
from collections import Counter
from collections.abc import Iterator
from pathlib import Path
from random import Random
from typing import NamedTuple

import model
from altered import change_journal, changed, cut, spell
from inputs import Maker
from journal import BadJournal, read_journal, write_journal
from play import SeveralAgents
from runs import NoRun, check_run
from script import read_script
from tracing import NoTrace, check_trace

TIME_LIMIT = 120
# How often each kind of input is made; see `trials`.
KINDS = {
    "script": 25,
    "spelled": 8,
    "sequence": 6,
    "blocks": 20,
    "apart": 5,
    "changed": 22,
    "cut": 10,
    "journal": 8,
    "history": 12,
    "run": 12,
    "window": 12,
    "contending": 1,
    "words": 3,
    "large": 1,
    "long": 0.05,
}
# The commands that read a journal.
READING = [["check"], ["rewrite"], ["trace"]]
CAPACITIES = ["1", "2", "3", "5", "+4", "007", "1048576"]
BAD_WORDS = [
    *[[], [""], ["Run"], ["Rewrite"], ["run", "check"], ["check", "run"], ["check", "--journal"], ["run", "x"]],
    *[["rewrite", "check"], ["check", "rewrite"], ["rewrite", "--journal"], ["rewrite", "--capacity", "8"], ["rewrit"]],
    *[["Trace"], ["trace", "check"], ["run", "trace"], ["trace", "--journal"], ["trace", "--capacity=8"], ["traces"]],
    *[["trace", "--part"], ["trace", "--part", "4294967296"], ["trace", "--from=-1"], ["trace", "--to", "1.0"]],
    *[["trace", "--from", "2", "--to", "1"], ["trace", "--to=0", "--from=4294967295"], ["trace", "--part=1", "--part=1"]],
    *[["check", "--part", "0"], ["audit", "--from", "0"], ["--part", "0", "trace"], ["trace", "--par", "0"], ["trace", "--to="]],
    *[["run", "--capacity"], ["run", "--capacity", "0"], ["run", "--capacity", "1048577"], ["run", "--capacity="]],
    *[["run", "--capacity", it] for it in ["-1", "1.0", "1e2", "0x8", " 8", "8 ", "++8", "+", "٣", 30 * "9"]],
    *[["run", "--capacity", "1", "--capacity", "1"], ["run", "--journal", "--journal"], ["run", "--journal=1"]],
    *[["run", "--terms", "--terms"], ["run", "--terms=1"], ["check", "--terms"], ["run", "--term"]],
    *[["audit", "x"], ["audit", "--every"], ["audit", "--every", "0"], ["audit", "--every", "4294967296"]],
    *[["audit", "--every", "1", "--every", "1"], ["audit", "--every="], ["audit", "--every", "-1"], ["audit", "-e", "1"]],
    *[["audit", "--capacity", "8"], ["check", "--every", "1"], ["--every", "1", "audit"], ["audits"], ["audit", "--eve", "8"]],
    *[["run", "--cap", "8"], ["run", "-j"], ["--journal", "run"], ["--capacity", "8", "run"], ["run", "--Journal"]],
]


class Trial(NamedTuple):
    """Words and an input for the program and the model."""

    words: list[str]
    text: bytes


class Difference(NamedTuple):
    trial: Trial
    details: str


class Job(NamedTuple):
    program: str
    seed: str
    number: int
    kinds: list[str]


class JobResult(NamedTuple):
    counts: Counter[str]
    differences: list[Difference]


class Fuzz:
    """The outcome of the input of one number."""

    def __init__(self, job: Job) -> None:
        self.program = job.program
        self.random = Random(f"{job.seed} {job.number}")
        self.maker = Maker(self.random)
        weights = [KINDS[kind] for kind in job.kinds]
        self.kind = self.random.choices(job.kinds, weights)[0]
        self.counts: Counter[str] = Counter()
        self.differences: list[Difference] = []

    def result(self) -> JobResult:
        if self.kind == "contending":
            self.contend()
        else:
            for trial in self.trials():
                self.compare(trial)
        return JobResult(self.counts, self.differences)

    def trials(self) -> Iterator[Trial]:
        random, maker = self.random, self.maker
        words = ["run", *self.capacity()]
        # A report doesn't show what a move names and the order of its instructions; a journal does.
        either = random.choice([words, [*words, "--terms"], [*words, "--journal"]])
        if self.kind == "history":
            yield from self.journals(write_journal(maker.history()))
        elif self.kind == "run":
            yield from self.audits()
        elif self.kind == "window":
            yield from self.windows()
        elif self.kind == "words":
            yield Trial(random.choice(BAD_WORDS), b'{"init":[],"agents":[]}')
        elif self.kind == "long":
            yield Trial(random.choice([words, *READING, ["audit"]]), self.long_text())
        elif self.kind == "apart":
            yield Trial(random.choice([["run"], ["run", "--terms"]]), self.text(maker.independent()))
        elif self.kind == "sequence":
            yield Trial(either, self.text(maker.sequence()))
        elif self.kind == "blocks":
            yield Trial(either, self.text(maker.blocks(), is_plain=True))
        elif self.kind == "large":
            yield Trial(either, self.text(maker.large()))
        elif self.kind == "journal":
            trial = Trial([*words, "--journal"], self.text(maker.script()))
            yield from self.journals(self.compare(trial).output)
        elif self.kind == "changed":
            yield Trial(words, self.text(changed(maker.script(), random)))
        elif self.kind == "cut":
            yield Trial(random.choice([words, words, *READING]), cut(self.text(maker.script()), random))
        else:
            yield Trial(either, self.text(maker.script(), self.kind == "script"))

    def journals(self, text: bytes) -> Iterator[Trial]:
        """Yield the journal in both versions, each checked, rewritten and traced.

        Some are altered.
        """
        versions = [text, in_version_1(text)]
        for words in READING:
            yield from (Trial(words, version) for version in versions)
        for version in [*versions, self.random.choice(versions)]:
            yield Trial(self.random.choice(READING), change_journal(version, self.random))

    def audits(self) -> Iterator[Trial]:
        for run in self.alter_runs(self.parts()):
            yield Trial(["audit", *self.every()], run)

    def windows(self) -> Iterator[Trial]:
        """Yield windows of a run, and of altered ones.

        Of each part there is one that has a call at least, if the part has some.
        """
        parts = self.parts()
        run = b"".join(parts)
        for number, part in enumerate(parts):
            yield Trial(self.window(number, part.count(b"\n") - 1), run)
        for run in self.alter_runs(parts):
            number = self.random.randrange(len(parts) + 1)
            yield Trial(self.window(number, parts[number % len(parts)].count(b"\n") - 1), run)

    def window(self, part: int, calls: int) -> list[str]:
        """Return words that ask for a window of a part with this many calls.

        Sometimes it goes beyond, or is empty.
        """
        first, last = sorted(self.random.choices(range(calls + 1), k=2))
        last = self.random.choice([last, last, last, calls, calls + 1])
        options = [[], ["--from", str(first)], [f"--to={last}"], ["--from", f"+{first}", "--to", str(last)]]
        return ["trace", *self.random.choice(options), *([f"--part={part}"] if part or self.random.random() < 0.5 else [])]

    def parts(self) -> list[bytes]:
        """Return the parts of a run, of either version."""
        parts = [write_journal(it) for it in self.maker.run()]
        return [in_version_1(it) if self.random.random() < 0.3 else it for it in parts]

    def alter_runs(self, parts: list[bytes]) -> Iterator[bytes]:
        """Yield the run unchanged and altered.

        It is altered in a part or with its parts mixed, and cut.
        """
        mixed = self.random.choices(parts, k=len(parts))
        at = self.random.randrange(len(parts))
        altered = [*parts[:at], change_journal(parts[at], self.random), *parts[at + 1 :]]
        for chosen in (parts, mixed, altered):
            yield b"".join(chosen)
        yield cut(b"".join(parts), self.random)

    def every(self) -> list[str]:
        every = self.random.choice(["1", "1", "2", "3", "+5", "007", "4294967295"])
        return self.random.choice([[], ["--every", every], [f"--every={every}"]])

    def capacity(self) -> list[str]:
        pick = self.random.random()
        if pick < 0.7:
            return []
        capacity = self.random.choice(CAPACITIES)
        return ["--capacity", capacity] if pick < 0.95 else [f"--capacity={capacity}"]

    def text(self, value: object, is_plain: bool = False) -> bytes:
        return spell(value, self.random, is_plain or self.random.random() < 0.5).encode()

    def long_text(self) -> bytes:
        script = self.text(self.maker.script(), is_plain=True)
        return script.ljust(model.MAX_INPUT + self.random.choice([-1, 0, 1, 2]))

    def compare(self, trial: Trial) -> model.Answer:
        """Return what the program did, and record where the model differs."""
        ran = self.ran(trial)
        try:
            wanted = model.answer(trial.words, trial.text)
        except SeveralAgents:
            self.counts["left out, as the order of several agents may show"] += 1
            return ran
        self.counts["inputs"] += 1
        self.counts.update(sorts_of(ran))
        if ran != wanted:
            self.differences.append(Difference(trial, f"program {show(ran)}\n  model   {show(wanted)}"))
        elif trial.words == ["trace"] and ran.status == 0:
            self.check_trace(trial, ran)
        return ran

    def check_trace(self, trial: Trial, ran: model.Answer) -> None:
        try:
            check_trace(read_journal(trial.text), ran.output)
        except NoTrace as error:
            self.differences.append(Difference(trial, f"the trace: {error}"))

    def ran(self, trial: Trial) -> model.Answer:
        try:
            ended = subprocess.run(
                [self.program, *trial.words],
                input=trial.text,
                stdout=subprocess.PIPE,
                stderr=subprocess.DEVNULL,
                timeout=TIME_LIMIT,
                check=False,
            )
        except subprocess.TimeoutExpired:
            return model.Answer(-1, b"did not end\n")
        return model.Answer(ended.returncode, ended.stdout)

    def contend(self) -> None:
        """Run several agents; the model and the program check their journal."""
        capacity = self.random.choice([4096, 4096, 4096, 20, 200])
        words = ["run", "--capacity", str(capacity), "--journal"]
        trial = Trial(words, self.text(self.maker.contending(), is_plain=True))
        ran = self.ran(trial)
        self.counts["runs of several agents that contend"] += 1
        try:
            history = read_journal(ran.output)
            check_run(read_script(trial.text), capacity, history)
        except (BadJournal, NoRun) as error:
            self.differences.append(Difference(trial, f"program {show(ran)}\n  model   {error}"))
            return
        self.counts.update(f"there answered {type(it.reply).__name__}" for it in history.events)
        legal = f"legal {len(history.events)} {history.moves()}\n".encode()
        check, rewrite, trace = (Trial(words, ran.output) for words in READING)
        self.compare(trace)
        if self.compare(check) != model.Answer(0, legal):
            self.differences.append(Difference(check, "a journal of the program isn't legal"))
        if self.compare(rewrite) != ran:
            self.differences.append(Difference(rewrite, "a journal of the program is rewritten as another"))


def in_version_1(text: bytes) -> bytes:
    """Return a journal of the program with the header of version 1.

    Version 1 allows no list.
    """
    return text.replace(b'"version":2}\n', b'"version":1}\n', 1)


def sorts_of(ran: model.Answer) -> set[str]:
    """Return which sorts of line the output has, without its numbers and locations."""
    if ran.status or ran.output[:1] not in (b"[", b"{", b"m", b"l", b"s"):
        line = ran.output.decode(errors="replace").strip().rpartition("\n")[2]
        return {f"status {ran.status} {re.sub('[0-9]+', 'N', line)}"}
    if ran.output[:1] == b"l":
        return {"status 0 legal"}
    if ran.output[:1] == b"s":
        return {"status 0 legal, with reports"}
    if ran.output[:1] == b"{":
        header, *lines = ran.output.split(b"\n")
        if header.endswith(b'"trace":2}'):
            return {"status 0 window"}
        if not header.endswith(b'"trace":1}'):
            return {"status 0 journal"}
        is_legal = not any(b',"right":' in it for it in lines)
        return {f"status 0 trace of a {'legal' if is_legal else 'wrong'} history"}
    steps = re.findall(r"^agent \d+ step \d+ (?!block)(\w+)(?: .* (\w+)$)?", ran.output.decode(), re.M)
    return {f"status 0 step {' '.join(it).strip()}" for it in steps} or {"status 0 all steps fired"}


def show(answer: model.Answer) -> str:
    return f"status {answer.status}: {answer.output[:300]!r}"


def work(job: Job) -> JobResult:
    return Fuzz(job).result()


def save(difference: Difference, number: int, folder: Path) -> None:
    """Save the input, with its words in a file beside it, one a line."""
    folder.mkdir(parents=True, exist_ok=True)
    name = folder / f"difference_{number}"
    name.write_bytes(difference.trial.text)
    name.with_suffix(".args").write_text("".join(f"{word}\n" for word in difference.trial.words))
    print(f"{name} ({' '.join(difference.trial.words)}):\n  {difference.details}", flush=True)


def read_arguments() -> argparse.Namespace:
    parser = argparse.ArgumentParser(description="Compares the program with the model on random inputs.")
    parser.add_argument("program")
    parser.add_argument("--seed", default="0")
    parser.add_argument("--inputs", type=int, default=10000, help="a journal counts with those that are made of it")
    parser.add_argument("--seconds", type=float, default=float("inf"), help="ends earlier, after this time")
    parser.add_argument("--jobs", type=int, default=2)
    parser.add_argument("--only", choices=KINDS, help="inputs of this kind alone")
    parser.add_argument("--save", type=Path, help="the folder for inputs that differ; a new one by default")
    return parser.parse_args()


def main() -> int:
    options = read_arguments()
    program = str(Path(options.program).resolve())
    kinds = [options.only] if options.only else list(KINDS)
    jobs = [Job(program, options.seed, number, kinds) for number in range(options.inputs)]
    batch = 32 * options.jobs
    counts: Counter[str] = Counter()
    differences = 0
    end = time.monotonic() + options.seconds
    with multiprocessing.Pool(options.jobs) as pool:
        for first in range(0, options.inputs, batch):
            if time.monotonic() > end:
                break
            for result in pool.imap_unordered(work, jobs[first : first + batch]):
                counts += result.counts
                for difference in result.differences:
                    options.save = options.save or Path(tempfile.mkdtemp(prefix="fuzz_"))
                    save(difference, differences, options.save)
                    differences += 1
    for sort, count in sorted(counts.items()):
        print(f"{count:8} {sort}")
    print(f"seed {options.seed}: {counts['inputs']} inputs, {differences} differences")
    return 1 if differences else 0


if __name__ == "__main__":
    sys.exit(main())
