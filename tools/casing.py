"""Cases of the program and their runs, for tools/cases, tools/sizes and ../test."""

import os
import re
import subprocess
import sys
import tomllib
from concurrent.futures import ThreadPoolExecutor
from dataclasses import dataclass
from pathlib import Path
from typing import Any

ROOT = Path(__file__).resolve().parent.parent
CASES, EXAMPLES = ROOT / "crates/asm_program/cases", ROOT / "examples"
MOVES = re.compile(rb"^moves (\d+)$", re.M)
LIMIT = 120
KEYS = {"words", "status", "input", "output"}


@dataclass(frozen=True)
class Case:
    """Words and an input, with the text and the status that the program must return."""

    name: str
    words: tuple[str, ...]
    given: bytes
    wanted: bytes
    status: int = 0

    def fault(self, program: str) -> str | None:
        """Return how the program's end differs from the case, or None."""
        status, written = run_program(program, self.words, self.given)
        if (status, written) == (self.status, self.wanted):
            return None
        message = f"status {status}, where {self.status} is wanted"
        at = next((k for k, (one, two) in enumerate(zip(written, self.wanted)) if one != two), None)
        if at is None:
            at = min(len(written), len(self.wanted))
        if written != self.wanted:
            message += f"; from byte {at} on {excerpt(written, at)}, where {excerpt(self.wanted, at)} is wanted"
        return message


def excerpt(text: bytes, at: int) -> str:
    return ascii(text[at : at + 60].decode(errors="replace"))


def run_program(program: str, words: tuple[str, ...], given: bytes) -> tuple[int, bytes]:
    """Return the program's status, -1 if it doesn't end, and what it writes."""
    try:
        ran = subprocess.run([program, *words], input=given, stdout=subprocess.PIPE, stderr=subprocess.DEVNULL, timeout=LIMIT)
    except subprocess.TimeoutExpired:
        return -1, b""
    return ran.returncode, ran.stdout


def cases_of(folder: Path) -> list[Case]:
    """Return the cases of the folder's tables.

    Exit if a file is no table, or if a case lacks something.
    """
    files = sorted(folder.iterdir())
    strange = [it.name for it in files if it.suffix != ".toml"]
    if strange or not files:
        sys.exit(f"{folder}: no table, or files that are none: {' '.join(strange)}")
    return [case_of(file, name, row) for file in files for name, row in tomllib.loads(file.read_text(encoding="utf-8")).items()]


def case_of(file: Path, name: str, row: dict[str, Any]) -> Case:
    if row.keys() != KEYS:
        sys.exit(f"{file}: {name} has {', '.join(row)}, and not {', '.join(sorted(KEYS))}")
    return Case(name, tuple(row["words"]), raw(row["input"]), raw(row["output"]), row["status"])


def raw(text: str | dict[str, str]) -> bytes:
    """Return the bytes of a text, or those of {hex = ".."}."""
    return bytes.fromhex(text["hex"]) if isinstance(text, dict) else text.encode()


def examples() -> list[Case]:
    """Return the examples, each a script with its report."""
    scripts = sorted(EXAMPLES.glob("*.json"))
    return [Case(it.stem, ("run",), it.read_bytes(), it.with_suffix(".report").read_bytes()) for it in scripts]


def write(cases: list[Case], folder: Path, status: bool = True) -> None:
    """Write each case as files for `rt try --cases`, which accepts no status."""
    for it in cases:
        (folder / it.name).write_bytes(it.given)
        (folder / f"{it.name}.args").write_text("".join(f"{word}\n" for word in it.words), encoding="utf-8")
        (folder / f"{it.name}.stdout").write_bytes(it.wanted)
        if status:
            (folder / f"{it.name}.status").write_text(f"{it.status}\n", encoding="utf-8")


def is_played(case: Case) -> bool:
    return case.words[:1] == ("run",) and "--journal" not in case.words and "--help" not in case.words and case.status == 0


def journal_fault(program: str, case: Case) -> str | None:
    """Return what is wrong with the journal of the played script, or None.

    It must be legal and equal to its own rewriting, and its trace must have a line for each of its lines and no other answer.
    """
    status, journal = run_program(program, (*case.words, "--journal"), case.given)
    if status != 0:
        return f"no journal: status {status}"
    legal = b"legal %d %s\n" % (journal.count(b"\n") - 1, MOVES.findall(case.wanted)[-1])
    checked = run_program(program, ("check",), journal)
    if checked != (0, legal):
        return f"check answers {checked}, where {legal} is wanted"
    if run_program(program, ("rewrite",), journal) != (0, journal):
        return "it isn't its own rewriting"
    status, trace = run_program(program, ("trace",), journal)
    if status != 0 or trace.count(b"\n") != journal.count(b"\n") or b',"right":' in trace:
        return f"its trace has status {status}, or not a line for each, or another answer"
    return None


def run_all(program: str, cases: list[Case], jobs: int) -> int:
    """Run all cases, and check the journals of those that play a script.

    Print what failed and the total; return the status.
    """
    if not os.access(program, os.X_OK):
        sys.exit(f"{program} is no program")
    works = [(it.name, it.fault, (program,)) for it in cases]
    works += [(f"{it.name}: its journal", journal_fault, (program, it)) for it in cases if is_played(it)]
    with ThreadPoolExecutor(jobs) as pool:
        faults = [(name, it) for (name, *_), it in zip(works, pool.map(lambda work: work[1](*work[2]), works)) if it]
    for name, message in faults:
        print(f"case {name}: {message}")
    print(f"{len(works) - len(faults)} passed, {len(faults)} failed")
    return 1 if faults else 0
