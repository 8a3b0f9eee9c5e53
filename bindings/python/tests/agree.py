"""Compare what the package and the program report of folders of runs that have one fault each.

usage: agree.py PROGRAM [FOLDERS [SEED]]
"""
import hashlib
import pathlib
import random
import re
import shutil
import subprocess
import sys
import tempfile

from folugben import BadJournalError, DamagedError, Run, audit, prune_run
from folugben._reading import verify
from rooms import INIT, raised, segments

# What the package says of a segment, and the program's word for it.
WORDS = {
    "its file is missing": "missing", "another file has this number": "twice", "is no name of a segment": "misnamed",
    "the opening segment has no event": "misnamed", "its name has another PREVIOUS or FIRST": "misplaced",
    "its text isn't the one that was saved": "damaged", "its text has other numbers": "miscounted", "the run has too many": "misnamed",
}
OTHERS = ("a.journal", "x.txt", ".journal", "new", "00000009.journal", "é.journal")


def flip(rng, file):
    text = bytearray(file.read_bytes())
    text[rng.randrange(len(text))] ^= 1 << rng.randrange(8)
    file.write_bytes(text)


def cut(rng, file):
    file.write_bytes(file.read_bytes()[: rng.randrange(file.stat().st_size)])


def lengthen(rng, file):
    text = file.read_bytes()
    file.write_bytes(text + text[: rng.randrange(1, len(text))])


def remove(_rng, file):
    file.unlink()


def repeat(_rng, file):
    shutil.copy(file, file.with_name(file.name.replace("-", "-1", 1)))


def exchange(rng, file):
    other = rng.choice(segments(file.parent))
    text = other.read_bytes()
    other.write_bytes(file.read_bytes())
    file.write_bytes(text)


def add(rng, file):
    shutil.copy(file, file.with_name(rng.choice([*OTHERS, f"{file.name}.journal", f"{file.name}.bak"])))


def rename(rng, file):
    """Alter one of the six fields of a name."""
    fields = file.stem.split("-")
    place = rng.randrange(6)
    old = fields[place]
    news = [f"{it}{old}" for it in ("", "+", "0", " ", "x", "-")] + [rng.choice(fields)]
    if place < 4:
        news += [str(max(0, int(old) + by)).zfill(8 if place == 0 else 1) for by in (-1, 1, 2, 10**7, 10**19)]
    else:
        at = rng.randrange(64)
        news += [old[:at] + rng.choice("0123456789abcdefAg") + old[at + 1 :] for _ in range(5)]
    fields[place] = rng.choice(news)
    file.rename(file.with_name("-".join(fields) + ".journal"))


def rewrite(rng, file):
    """Alter a text, and give it and all later ones names with right digests."""
    change = rng.choice((
        lambda it: it.replace(b'"fired":1', b'"fired":2'), lambda it: it[: len(it) // 2], lambda it: it + b"\n", lambda it: 2 * it,
        lambda it: re.sub(rb'"count"\],\d+\]\]', b'"count"],77]]', it, count=1),
    ))
    before = None
    for it in segments(file.parent):
        *numbers, previous, _ = it.stem.split("-")
        before, text = before or previous, it.read_bytes()
        text = change(text) if it == file else text
        line = f"{before} {int(numbers[0])} {' '.join(numbers[1:])} {len(text)}\n"
        digest = hashlib.sha256(line.encode() + text).hexdigest()
        it.unlink()
        it.with_name(f"{'-'.join(numbers)}-{before}-{digest}.journal").write_bytes(text)
        before = digest


FAULTS = (flip, cut, lengthen, remove, repeat, exchange, add, rename, rename, rename, rewrite, rewrite)


def line_of(call, path):
    """Return what the program has to report if the package reports that; "bad" stands for any fault of a journal."""
    try:
        counts = call(path)
    except DamagedError as error:
        return f"segment {error.segment} {next(word for text, word in WORDS.items() if text in str(error))}"
    except BadJournalError as error:
        return "bad" if error.call is None else f"illegal {error.part} {error.call}"
    if call is verify:
        return "legal"
    since = f" from segment {counts.first_segment} move {counts.moves_before}" if counts.first_segment else ""
    return f"legal {counts.calls} {counts.moves} {counts.parts}{since}"


def differences(program, path):
    """Return how audit, verify and the program differ on a folder."""
    wanted, verified = line_of(audit, path), line_of(verify, path)
    ran = subprocess.run([program, "audit", path], capture_output=True, text=True, check=False)
    line, is_damaged = ran.stdout.strip(), wanted.startswith("segment")
    same = line == wanted if wanted != "bad" else ran.returncode != 0 and not line.startswith(("legal", "segment"))
    # The digests alone are right where the text is one that no run has written.
    if verified != (wanted if is_damaged and not wanted.endswith("miscounted") else "legal"):
        same = False
    return "" if same else f"audit {wanted}, verify {verified}, program {line} ({ran.returncode})"


def main(program, folders=1000, seed=1):
    rng, differ = random.Random(int(seed)), 0
    with tempfile.TemporaryDirectory() as made:
        room = pathlib.Path(made)
        for name in "whole", "kept":
            with Run(room / name, INIT, 3) as run, run.agent(0) as agent:
                for _ in range(13):
                    agent.play(raised)
        prune_run(room / "kept", 3)
        for number in range(int(folders)):
            path = room / str(number)
            shutil.copytree(room / rng.choice(("whole", "kept")), path)
            fault = rng.choice(FAULTS)
            fault(rng, rng.choice(segments(path)))
            if found := differences(program, path):
                differ += 1
                print(f"{fault.__name__}: {found}")
            shutil.rmtree(path)
    print(f"{folders} folders with a fault, on which the package and the program differ {differ} times")
    return differ > 0


if __name__ == "__main__":
    sys.exit(main(*sys.argv[1:]))
