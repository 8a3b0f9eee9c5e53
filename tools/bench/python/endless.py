"""Compare a run without an end to its moves without journals: time and memory.

usage: endless.py run MOVES FOLDER | plain MOVES | audit FOLDER

Eight agents in threads each increment a separate number, in steps without text. `run` writes the parts of a Run, of 100,000
moves each, into the folder, and reports the peak of memory once three parts are on the disk, and at the end. `plain` has
storages of as many moves, which are released without being closed. `audit` reports how many calls a second it checks, and in
how much memory.
"""
import resource
import sys
import threading
import time
from pathlib import Path

sys.path.insert(0, str(Path(__file__).resolve().parents[3] / "bindings" / "python"))
from folugben import Location, Move, Run, Storage, audit  # noqa: E402

AGENTS, PART = 8, 100_000
INIT = [[["own", own], 0] for own in range(AGENTS)]


def peak():
    """Return the most memory so far, in MB."""
    return resource.getrusage(resource.RUSAGE_SELF).ru_maxrss / 1024


def raises(storage, times):
    """Run the work of each thread."""

    def work(own):
        at, move = Location(["own", own]), Move()

        def rule(step):
            step.push(move.clear().put(at, step.get(at) + 1))

        with storage.agent(own) as agent:
            for _ in range(times):
                agent.play(rule)

    threads = [threading.Thread(target=work, args=(own,)) for own in range(AGENTS)]
    for thread in threads:
        thread.start()
    return threads


def run(moves, path):
    early = 0.0
    with Run(path, INIT, PART) as it:
        threads = raises(it, moves // AGENTS)
        while any(thread.is_alive() for thread in threads):
            threads[-1].join(0.05)
            if not early and it.parts >= 4:
                early = peak()
    return f"{early:.0f} MB after three parts, {peak():.0f} MB at the end"


def plain(moves):
    while moves > 0:
        with Storage(INIT, PART) as storage:
            for thread in raises(storage, min(moves, PART) // AGENTS):
                thread.join()
        moves -= PART
    return f"{peak():.0f} MB"


def main(what, *words):
    start, processor = time.perf_counter(), time.process_time()
    if what == "audit":
        result = audit(words[0])
        moves = result.calls
    else:
        moves = int(words[0])
        result = run(moves, words[1]) if what == "run" else plain(moves)
    seconds, used = time.perf_counter() - start, time.process_time() - processor
    print(f"{what}: {seconds:.1f} s, {used:.1f} s of processors, {moves / seconds:,.0f} a second; {peak():.0f} MB; {result}", flush=True)


main(*sys.argv[1:])
