"""The path of the repository: FOLUGBEN_ROOT names it for a copy of these tests."""
import os
import pathlib

ROOT = pathlib.Path(os.environ.get("FOLUGBEN_ROOT") or pathlib.Path(__file__).resolve().parents[3])
