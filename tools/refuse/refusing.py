"""Run a program with each of its allocations refused in turn.

It uses the library that `refuse.c` is built into.
"""

import os
import subprocess
import tempfile
from collections import Counter
from collections.abc import Callable, Iterator
from concurrent.futures import ThreadPoolExecutor
from itertools import count
from pathlib import Path
from typing import NamedTuple

TIME_LIMIT = 120
DID_NOT_END = -1000


class Outcome(NamedTuple):
    """How a run ended, and how many blocks of memory it hadn't freed then.

    A signal's number is negative.
    """

    status: int
    output: bytes
    retained: int = 0

    def __str__(self) -> str:
        status = "it did not end" if self.status == DID_NOT_END else f"status {self.status}"
        retained = f", {self.retained:,} blocks not freed" if self.retained else ""
        return f"{status}{retained}, {self.output[-500:].decode(errors='backslashreplace')!r}"


class Sweep(NamedTuple):
    """The runs of one program: results of those that ended well, and the other ones."""

    sorts: Counter[str]
    faults: dict[int, Outcome]
    is_complete: bool


class Requested(NamedTuple):
    """How often a run asked for memory, and for how many bytes in all."""

    allocations: int
    size: int


class Refuser:
    """The built library, in a separate folder that lasts as long as this."""

    def __init__(self, jobs: int) -> None:
        self.jobs = jobs
        self.folder = tempfile.TemporaryDirectory(prefix="refuse_")
        self.library = f"{self.folder.name}/refuse.so"
        source = Path(__file__).with_name("refuse.c")
        compiler = os.environ.get("CC", "cc").split()
        subprocess.run(
            [*compiler, "-O2", "-shared", "-fPIC", "-o", self.library, source], check=True
        )

    def run(self, words: list[str], text: bytes, number: int = 0) -> tuple[Outcome, bool]:
        """Run the program with the call of this number refused (of 0: none).

        Return also whether one was refused.
        """
        mark = Path(f"{self.folder.name}/mark_{number}")
        environment = {"FAIL_AT": str(number), "REFUSED_MARK": str(mark)}
        ended, _ = self.ended(words, text, environment, f"asked_{number}")
        is_refused = mark.exists()
        mark.unlink(missing_ok=True)
        return ended, is_refused

    def asked(self, words: list[str], text: bytes = b"") -> tuple[Outcome, Requested | None]:
        """Run the program with no call refused, and return what it asked for.

        Return nothing if it was stopped.
        """
        return self.ended(words, text, {}, "asked")

    def ended(
        self, words: list[str], text: bytes, environment: dict[str, str], name: str
    ) -> tuple[Outcome, Requested | None]:
        """Run the program over the library, with a file for what it asked for.

        The environment has these settings, and the file has this name.
        """
        report = Path(f"{self.folder.name}/{name}")
        ended = self.ran(words, text, {"ASKED_FOR": str(report), **environment})
        if not report.exists():
            return ended, None
        allocations, size, retained = map(int, report.read_text(encoding="utf-8").split())
        report.unlink()
        return ended._replace(retained=retained), Requested(allocations, size)

    def ran(self, words: list[str], text: bytes, environment: dict[str, str]) -> Outcome:
        """Run the program over the library, with this in its environment."""
        try:
            ran = subprocess.run(
                words,
                input=text,
                stdout=subprocess.PIPE,
                stderr=subprocess.STDOUT,
                env={**os.environ, "LD_PRELOAD": self.library, **environment},
                timeout=TIME_LIMIT,
                check=False,
            )
            return Outcome(ran.returncode, ran.stdout)
        except subprocess.TimeoutExpired as error:
            return Outcome(DID_NOT_END, error.stdout or b"")

    def sweep(
        self,
        words: list[str],
        text: bytes,
        sort_of: Callable[[Outcome], str | None],
        most: int | None = None,
    ) -> Sweep:
        """Refuse each call in turn until none is refused, or as many as `most`.

        `sort_of` is None for a bad end.
        """
        sorts: Counter[str] = Counter()
        faults: dict[int, Outcome] = {}
        for number, (ended, is_refused) in enumerate(self.runs(words, text), 1):
            if not is_refused or (most is not None and number > most):
                return Sweep(sorts, faults, not is_refused)
            sort = sort_of(ended)
            if sort is None:
                faults[number] = ended
            else:
                sorts[sort] += 1
        raise AssertionError("the runs have no end of their own")

    def runs(self, words: list[str], text: bytes) -> Iterator[tuple[Outcome, bool]]:
        """Yield the runs in the order of the calls that they refuse.

        Some of them run in parallel.
        """
        at_once = 4 * self.jobs
        with ThreadPoolExecutor(self.jobs) as pool:
            for first in count(1, at_once):
                numbers = range(first, first + at_once)
                yield from pool.map(lambda number: self.run(words, text, number), numbers)
