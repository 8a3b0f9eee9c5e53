"""Shared parts of the tests of runs: folders, rules, and separate processes."""
import contextlib
import json
import os
import pathlib
import random
import subprocess
import sys
import tempfile
import time
import unittest

import folugben
import own
from folugben import Location, Run, audit, part
from folugben._folder import RunFolder
from folugben._reading import Reading
from threads import in_threads

COUNT, AT = ("count",), Location("count")
INIT = [(COUNT, 0)]
ACCOUNTS, MONEY = 6, 100
BANK = [[["account", own], MONEY] for own in range(ACCOUNTS)]


def raised(step):
    step.push([["put", COUNT, step.get(AT) + 1]])


def transfer(agent, rng):
    from_, to = rng.sample(range(ACCOUNTS), 2)

    def rule(step):
        there, here = step.get([["account", from_], ["account", to]])
        step.push([["put", ["account", from_], there - 1], ["put", ["account", to], here + 1]])

    return agent.play(rule)


def until(is_so, seconds=60):
    end = time.monotonic() + seconds
    while not is_so():
        if time.monotonic() > end:
            raise AssertionError("it took too long")
        time.sleep(0.002)


def environment():
    """Return the environment of a process for the tests.

    It has the tested package, these tests, and the engine beside them.
    """
    folders = [pathlib.Path(folugben.__file__).resolve().parents[1], *pathlib.Path(__file__).resolve().parents[:2]]
    return os.environ | {"PYTHONPATH": os.pathsep.join(map(str, folders))}


def run_python(code, *words):
    """Run a Python program in a separate process; return what it does."""
    command = [sys.executable, "-c", code, *map(str, words)]
    return subprocess.run(command, capture_output=True, text=True, env=environment(), timeout=60)


def segments(path):
    """Return the files of a run's segments, in order."""
    return sorted(path.glob("*.journal"))


def text_of(path):
    """Return a run as one text."""
    return b"".join(file.read_bytes() for file in segments(path))


class Rooms(unittest.TestCase):
    def setUp(self):
        room = tempfile.TemporaryDirectory()
        self.addCleanup(room.cleanup)
        self.room = pathlib.Path(room.name)
        self.path = self.room / "run"

    def journals(self):
        return [part(self.path, number) for number in range(audit(self.path).parts)]

    def last_state(self):
        with contextlib.closing(RunFolder(self.path)) as folder:
            reading = Reading(folder)
            reading.audit(folder.names())
            return own.pairs(json.loads(reading.trail.core.state()))


def live_in_bank(path):
    """The program that is killed: threads of agents that continue or begin a run.

    The run has small parts.
    """
    # A segment is written in many pieces, so that some of them are cut.
    write = os.write
    os.write = lambda fd, data: write(fd, data[:20])
    try:
        run = Run.resume(path, 20)
    except FileNotFoundError:
        run = Run(path, BANK, 20)
    sys.stdout.write("x")
    sys.stdout.flush()

    def work(own):
        rng = random.Random(own)
        with run.agent(own) as agent:
            while True:
                transfer(agent, rng)

    in_threads(work, 3)
