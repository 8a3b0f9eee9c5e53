"""Tests of the C part: memory, refused memory and concurrency.

python3 test.py runs them too.
"""
import ctypes
import os
import pathlib
import signal
import subprocess
import sys
import tempfile
import unittest

import core_work
import folugben
import shim


class Core(unittest.TestCase):
    def works(self, name: str, package: pathlib.Path) -> None:
        ended = subprocess.run(
            [sys.executable, core_work.__file__, name], env=os.environ | {"PYTHONPATH": str(package)}, capture_output=True, text=True,
            timeout=300, preexec_fn=lambda: signal.signal(signal.SIGINT, signal.default_int_handler),
        )
        self.assertEqual(ended.returncode, 0, ended.stderr[-2000:])

    def test_only_the_module_is_exported(self) -> None:
        library = ctypes.CDLL(folugben._core.__file__)
        self.assertTrue(hasattr(library, "PyInit__core"))
        for name in ("asm_open", "asm_version", "refuse", "held_new"):
            self.assertFalse(hasattr(library, name), name)

    def test_no_call_leaves_memory(self) -> None:
        self.works("leaks", pathlib.Path(folugben.__file__).resolve().parents[1])

    @unittest.skipUnless((3, 11, 4) <= sys.version_info < (3, 13), "others hang on threading in an interpreter, or name it otherwise")
    def test_three_interpreters_at_once(self) -> None:
        self.works("interpreters", pathlib.Path(folugben.__file__).resolve().parents[1])

    def test_slots_in_two_calls_and_refused_memory(self) -> None:
        if not shim.can_build():
            self.skipTest("there is no compiler, no header or no archive")
        with tempfile.TemporaryDirectory() as room:
            shim.build(pathlib.Path(room))
            for name in ("stress", "refusals"):
                with self.subTest(name):
                    self.works(name, pathlib.Path(room))


if __name__ == "__main__":
    unittest.main()
