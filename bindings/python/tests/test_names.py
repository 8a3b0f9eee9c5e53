"""Tests of names, retry loops, and a package without its compiled part.

For retry loops they test what such a loop catches. python3 test.py runs them too.
"""
import pathlib
import shutil
import subprocess
import sys
import tempfile
import unittest

import folugben
from folugben import ClashError, CommitClashError, ConflictError, StaleError, Storage


class Names(unittest.TestCase):
    def test_errors_end_in_error(self) -> None:
        for name in folugben.__all__:
            its = getattr(folugben, name)
            if isinstance(its, type) and issubclass(its, BaseException):
                self.assertTrue(name.endswith("Error") and its.__name__ == name, name)
            self.assertFalse(name.isupper(), name)

    def test_a_retry_loop_catches_conflicts_alone(self) -> None:
        with Storage({"bag": {"bag": [["e", 1]]}, "count": 0}) as storage, storage.agent(0) as agent, storage.agent(1) as rival:
            with self.assertRaises(ConflictError) as caught, agent.step() as step:
                step.bag_remove("bag", "e")
                rival.fire([("put", "bag", None)])
                self.assertEqual(step.try_commit(), 0)
                step.commit()
            self.assertEqual((type(caught.exception), caught.exception.at, caught.exception.cause), (CommitClashError, ("bag",), "Kind"))
            with self.assertRaises(ConflictError) as caught, agent.step() as step:
                step["count"]
                rival.fire([("put", "count", 1)])
                step.commit()
            self.assertEqual((type(caught.exception), repr(caught.exception.code)), (StaleError, "<Code.STALE: 1>"))
            with self.assertRaises(ClashError) as caught, agent.step() as step:
                step.add("count", 1)
            self.assertNotIsInstance(caught.exception, ConflictError)
            with self.assertRaises(ClashError) as caught:
                agent.fire([("put", "count", 1), ("put", "count", 2)])
            self.assertNotIsInstance(caught.exception, ConflictError)

    def test_without_a_compiled_part_the_import_says_how_to_get_it(self) -> None:
        with tempfile.TemporaryDirectory() as room:
            package = pathlib.Path(folugben.__file__).resolve().parent
            shutil.copytree(package, pathlib.Path(room, "folugben"), ignore=shutil.ignore_patterns("*.so", "__pycache__"))
            ended = subprocess.run([sys.executable, "-c", "import folugben"], cwd=room, env={"PYTHONPATH": room}, capture_output=True, text=True)
        self.assertIn("ImportError: folugben has no compiled part here", ended.stderr)
        self.assertIn("./build_c proves and builds", ended.stderr)


if __name__ == "__main__":
    unittest.main()
