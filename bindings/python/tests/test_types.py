"""Tests of the package's types, if mypy is there: python3 test.py runs them too."""
import pathlib
import subprocess
import sys
import tempfile
import unittest

import folugben

# Annotations of a user. What is no value is none to mypy either.
USER = """from collections import Counter
from folugben import Element, Location, Move, Place, Step, Storage, Update, Value

count: Place = ["count"]
values: list[Value] = [None, True, 1, "a", {"list": [1, {"list": ["b", None]}]}, {"set": [1, "a"]}, {"bag": [["a", 2], [1, 1]]},
                       {1, 2}, frozenset({"a"}), Counter("abba"), (1, ("a", None)), {(1, 2), "a", True}, Counter([1, "a", (2,)])]
elements: list[Element] = [None, 1, {"list": [[1][0]]}, (1, (True, "a"))]
places: list[Place] = ["count", ("account", 1), ("f", (1, 2)), ["g", {"list": [1]}]]
move: list[Update] = [["put", count, 1], ["add", ["s"], "a"], ["bagadd", ["b", 1], {"list": []}, 2], ["put", ["v"], {"set": [1]}]]


def rule(step: Step) -> int:
    value: int = step.get(Location(count))
    step.push(move)
    popped: Move = step.pop_move()
    step.extend(popped.put(Location(["x"]), {"set": [value]}).add(Location(["s"]), {"list": [value]}))
    result: list[Value] = step.see([count])
    step.push(Move().put(Location(["x"]), value))
    step.put("y", {1, "a"})
    step.put(("z", 1), (1, {"list": []}))
    step.put(Location("u"), Counter("ab"))
    step.add("y", (1, 2))
    step.bag_add(Location("u"), "a")
    step.bag_remove("u", "b", 1)
    step.inc(["z", 2], 1) if step["z", 2] is not None else step.put(["z", 2], step["count"])
    step.push(Move().put("v", 1) | Move().put(("v", 1), frozenset[int]()))
    return value


with Storage([[["count"], 0], [["s"], {"set": []}], [["b", 1], {"bag": []}]]) as storage, storage.agent(0) as agent:
    number, result = agent.play(rule, tries=3, timeout=1.5)
    played = agent.play(lambda step: step.depth)
    assert played.number + played.result + played.retries == 0
    both: tuple[int, list[tuple[tuple[object, ...], object]]] = agent.state()
    agent.fire([["put", count, number + result]])
"""
WRONG = ["(1, 1.5)", "1.5", '{"set": [1.5]}', "object()", '{"bag": [["a", 1.5]]}', "[1.5]"]


def mypy() -> list[str] | None:
    """Return the command, of the first Python that has it."""
    for python in (sys.executable, "/usr/bin/python3"):
        try:
            subprocess.run([python, "-m", "mypy", "--version"], check=True, capture_output=True)
        except (OSError, subprocess.CalledProcessError):
            continue
        return [python, "-m", "mypy", "--strict", "--no-error-summary"]
    return None


class Types(unittest.TestCase):
    def setUp(self) -> None:
        self.command = mypy()
        if self.command is None:
            self.skipTest("there is no mypy")
        room = tempfile.TemporaryDirectory()
        self.addCleanup(room.cleanup)
        self.room = pathlib.Path(room.name)

    def check(self, *words: str | pathlib.Path) -> str:
        package = pathlib.Path(folugben.__file__).resolve().parent
        (self.room / "folugben").exists() or (self.room / "folugben").symlink_to(package)
        ended = subprocess.run([*self.command, "--cache-dir", self.room / "cache", *words], cwd=self.room, text=True,
                               capture_output=True)
        return ended.stdout + ended.stderr

    def test_the_package_is_strict(self) -> None:
        self.assertEqual(self.check("folugben"), "")

    def test_a_user_annotates_values_and_updates(self) -> None:
        (self.room / "user.py").write_text(USER)
        self.assertEqual(self.check("user.py"), "")
        lines = [f"value{place}: Value = {wrong}\n" for place, wrong in enumerate(WRONG)]
        (self.room / "wrong.py").write_text("from folugben import Value\n" + "".join(lines))
        report = self.check("wrong.py")
        for line in range(2, len(WRONG) + 2):
            self.assertIn(f"wrong.py:{line}: error", report)

    def test_a_user_runs(self) -> None:
        exec(compile(USER, "user.py", "exec"), {"__name__": "user"})


if __name__ == "__main__":
    unittest.main()
