"""Stress tests of runs, for longer than a test may take.

usage: stress.py threads SECONDS | kills N | failures N | flips N | processes N | servers N | day SECONDS

- `threads`: 4 agents in threads increment one number, in parts of 200 moves.
- `kills`: kills a process N times and resumes its run.
- `failures`: resumes from N states that a power failure may leave.
- `flips`: alters N bits and lengths of files.
- `processes`: 8 processes of 4 agents work on a shared run over SQLite; N of them are killed.
- `servers`: the same over PostgreSQL; the server is killed and started after about each third.
- `day`: 24 hours of one move per SECONDS, by a clock that doesn't wait, in parts of half that time.
"""
import pathlib
import sys
import tempfile
import time

sys.path[:0] = [str(pathlib.Path(__file__).resolve().parents[1]), str(pathlib.Path(__file__).resolve().parent)]
from folugben import Run, audit  # noqa: E402
from rooms import INIT, raised  # noqa: E402
from test_damage import Folders, PowerFailures  # noqa: E402
from test_folders import Folders as Killed  # noqa: E402
from test_saving import Days  # noqa: E402
from test_shared import OnPostgres, OnSqlite  # noqa: E402
from threads import in_threads  # noqa: E402


def threads(seconds):
    with tempfile.TemporaryDirectory() as room:
        path, end = pathlib.Path(room, "run"), time.monotonic() + seconds

        def work(own):
            with run.agent(own) as agent:
                while time.monotonic() < end:
                    agent.play(raised)
                    counts[own] += 1

        counts = [0] * 4
        with Run(path, INIT, 200) as run:
            errors, is_over = in_threads(work, 4, seconds + 60)
        audited = audit(path)
        assert (errors, is_over, audited.moves) == ([], True, sum(counts)), (errors, is_over, audited, counts)
        return audited


def run_method(case, name, method, *words):
    """Return the result of a test case's method, in a room of its own."""
    it = case(name)
    it.setUp()
    try:
        return getattr(it, method)(*words)
    finally:
        it.doCleanups()


def servers(kills):
    OnPostgres.setUpClass()
    try:
        return run_method(OnPostgres, "test_processes_that_are_killed", "kill_many", kills)
    finally:
        OnPostgres.tearDownClass()


WORKS = {
    "threads": threads,
    "kills": lambda times: run_method(Killed, "test_what_is_killed_is_resumed", "assert_resumed", times),
    "failures": lambda times: run_method(PowerFailures, "test_nothing_is_lost", "fail", times),
    "processes": lambda kills: run_method(OnSqlite, "test_processes_that_are_killed", "kill_many", kills),
    "servers": servers,
    "day": lambda gap: run_method(Days, "test_a_day_of_a_slow_run", "live_a_day", [gap] * (86_400 // gap), gap / 2),
    "flips": lambda times: run_method(Folders, "test_flipped_bits_and_cut_files_are_found", "flip", times),
}

if __name__ == "__main__":
    start = time.monotonic()
    print(*sys.argv[1:], WORKS[sys.argv[1]](int(sys.argv[2])), f"{time.monotonic() - start:.0f} s", flush=True)
