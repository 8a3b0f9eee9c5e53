"""All tests: python3 bindings/python/tests/test.py [-v] [-k NAME]

They cover the package and the engine. For a copy of the tests, FOLUGBEN_ROOT names the repository.
"""
import pathlib
import sys
import unittest

if __name__ == "__main__":
    here = pathlib.Path(__file__).resolve().parent
    sys.path.insert(0, str(here.parent))
    unittest.main(module=None, argv=[sys.argv[0], "discover", "-s", str(here), "-p", "test_*.py", *sys.argv[1:]])
