"""Tests that are counted and printed line by line."""

from collections.abc import Callable
from pathlib import Path
from typing import Any

from browser import Browser
from samples import write_trace

MakeBrowser = Callable[..., Browser]


class Tries:
    def __init__(self, room: Path, shots: Path | None) -> None:
        self.room = room
        self.shots = shots
        self.passed = self.failed = 0
        self.part = ""

    def claim(self, what: str, holds: Any, details: Any = "") -> None:
        """Print whether something holds, and what was found if it doesn't."""
        if holds:
            self.passed += 1
            print(f"ok    {self.part}: {what}", flush=True)
        else:
            self.failed += 1
            print(f"FAIL  {self.part}: {what}: {details}", flush=True)

    def same(self, what: str, found: Any, wanted: Any) -> None:
        self.claim(what, found == wanted, f"{found!r} is not {wanted!r}")

    def has(self, what: str, found: str, wanted: str) -> None:
        self.claim(what, wanted in found, f"{wanted!r} is not in {found!r}")

    def file(self, name: str, text: bytes) -> Path:
        path = self.room / name
        path.write_bytes(text)
        return path

    def trace(self, name: str, history: Any) -> Path:
        return self.file(f"{name}.trace", write_trace(history))

    def shot(self, browser: Browser, name: str) -> None:
        if self.shots:
            browser.shot(self.shots / f"{self.part.replace(' ', '-').replace(',', '')}-{name}.png")
