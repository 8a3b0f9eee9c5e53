"""Compare moves of a SharedRun to a bare loop of transactions.

Both use a file beside the other, or schemas of one server. The comparison has 1, 4 and 16 agents that wait at once.

usage: shared.py TARGET [SECONDS]

TARGET is a new SQLite file, or postgresql://.. with a new schema. The bare loop inserts in each transaction as many rows of the
size of a call as there are agents. Each side has SECONDS (2) in each of three rounds, in turn.
"""
import contextlib
import secrets
import sys
import threading
import time
from pathlib import Path

sys.path.insert(0, str(Path(__file__).resolve().parents[3] / "bindings" / "python"))
from folugben import Location, SharedRun, audit  # noqa: E402
from folugben._database import connect  # noqa: E402

ROUNDS, CALL = 3, '{"fire":[["put",["own",10],1000]],"reads":[[["own",10],1000]]}'


def bare(database, size, seconds):
    """Return how many rows a second are inserted, this many by each transaction."""
    count, end = 0, time.perf_counter() + seconds
    while time.perf_counter() < end:
        database.run("begin")
        rows = [(count + at, secrets.token_bytes(16), 1, 10, CALL, "[]") for at in range(size)]
        database.insert(f"{database.inside}bare", rows)
        database.run("commit")
        count += size
    database.run(f"delete from {database.inside}bare")
    return count / seconds


def shared_rate(run, agents, seconds):
    """Return how many moves a second the agents fire, each at a separate location."""
    counts, end = [0] * agents, time.perf_counter() + seconds

    def work(own):
        at = Location(["own", own])

        def rule(step):
            step.push([["put", ["own", own], (step.get(at) or 0) + 1]])

        with run.agent(own) as agent:
            while time.perf_counter() < end:
                agent.play(rule)
                counts[own] += 1

    threads = [threading.Thread(target=work, args=(own,)) for own in range(agents)]
    for thread in threads:
        thread.start()
    for thread in threads:
        thread.join()
    return sum(counts) / seconds


def main(target, seconds=2.0):
    beside = f"{target}.bare" if "#" in target or "://" not in target else f"{target}#bare"
    with SharedRun(target, init=[]) as run, contextlib.closing(connect(beside, makes=True)) as database:
        blob = database.blob
        database.make()
        database.run(f"create table if not exists {database.inside}bare(place bigint primary key, token {blob} not null unique, segment bigint, "
                     "agent integer, call text, scans text)")
        for agents in 1, 4, 16:
            rates = [(bare(database, agents, seconds), shared_rate(run, agents, seconds)) for _ in range(ROUNDS)]
            most, reached = (sum(it) / ROUNDS for it in zip(*rates))
            print(f"{agents:2} agents: {reached:,.0f} moves a second, bare {most:,.0f}, ratio {reached / most:.2f}", flush=True)
    print(audit(target))


main(sys.argv[1], *map(float, sys.argv[2:]))
