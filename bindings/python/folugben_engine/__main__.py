"""An engine of abstract state machines, and four machines.

    python3 -m folugben_engine                   runs them, and says what was checked
    python3 -m folugben_engine FOLDER [SECONDS]  runs the bank for so many seconds (10), or continues the run in the folder
"""
import sys

from folugben import Run, Storage, audit, check

from . import bank, colony, crossing, philosophers
from .agents import run, run_on, states


def live_on(path: str, seconds: float) -> None:
    """Run the bank without an end."""
    run_on(path, bank.INIT, bank.PROGRAMS, seconds)
    calls, moves, parts = audit(path)
    with Run.resume(path, check="last") as there, Storage(there.state()[1]) as storage, storage.agent(0) as agent:
        assert bank.holds(agent)
    print(f"{bank.__name__}: {calls} calls and {moves} moves in {parts} parts are legal, and {bank.holds.__doc__}")


def main(words: list[str]) -> None:
    if words:
        return live_on(words[0], float(words[1]) if len(words) > 1 else 10.0)
    for machine in (philosophers, bank, crossing, colony):
        journal = run(machine.INIT, machine.PROGRAMS)
        calls, moves = check(journal)
        assert all(map(machine.holds, states(journal)))
        print(f"{machine.__name__}: {calls} calls and {moves} moves are legal, and {machine.holds.__doc__}")


main(sys.argv[1:])
