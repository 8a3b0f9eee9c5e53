"""Programs that the tests of shared runs start in separate processes.

Agents transfer money, and report which moves were answered.
"""
import json
import random
import sys
import threading
import time

from folugben import SharedRun

ACCOUNTS, MONEY = 6, 100
BANK = [[["account", own], MONEY] for own in range(ACCOUNTS)]


def transfer(rng, mark):
    """Return a rule that has a mark, by which its move is found in the log."""
    from_, to = rng.sample(range(ACCOUNTS), 2)

    def rule(step):
        there, here = step.get([["account", from_], ["account", to]])
        step.push([["put", ["account", from_], there - 1], ["put", ["account", to], here + 1], ["put", ["mark"], mark]])

    return rule


def live(target, first, agents, times):
    """Play this many transfers by each agent; print a line for each answered one."""
    lock = threading.Lock()

    def work(own):
        rng = random.Random()
        with run.agent(own) as agent:
            for _ in range(times):
                mark = f"{own} {rng.getrandbits(64)}"
                number, _ = agent.play(transfer(rng, mark))
                with lock:
                    print(json.dumps([number, mark]), flush=True)

    def open_run():
        while True:
            try:
                return SharedRun(target, BANK, 50)
            except ConnectionError:
                time.sleep(0.1)  # the server is started again

    with open_run() as run:
        threads = [threading.Thread(target=work, args=(first + own,)) for own in range(agents)]
        for thread in threads:
            thread.start()
        for thread in threads:
            thread.join()


if __name__ == "__main__":
    live(sys.argv[1], *map(int, sys.argv[2:]))
