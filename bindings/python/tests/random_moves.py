"""Random moves for the tests, and the model of tools/model.

The model is written from docs/FORMATS.md alone.
"""
import importlib
import random
import sys
from typing import Any

from checkout import ROOT

MODEL = str(ROOT / "tools" / "model")
PLACES = [["set"], ["bag"], ["number"], ["free"], ["free", 1], ["free", True]]
ELEMENTS = [None, True, 1, "e", {"list": [1, {"list": []}]}]
INIT = [[["set"], {"set": [1, "e"]}], [["bag"], {"bag": [["e", 2]]}], [["number"], 5]]
# The word of each partial update by the location that it fits; the others are drawn to clash now and then.
FITTING = {"set": ["add", "remove"], "bag": ["bagadd", "bagremove"], "number": ["inc"], "free": ["put"]}
WORDS = ["put", "add", "remove", "bagadd", "bagremove", "inc"]


def model(name: str) -> Any:
    """Return a module of the model."""
    if MODEL not in sys.path:
        sys.path.append(MODEL)
    return importlib.import_module(name)


def value(rng: random.Random) -> Any:
    element = rng.choice(ELEMENTS)
    some = rng.sample(ELEMENTS, rng.randrange(3))
    return rng.choice([element, rng.randrange(9), {"set": some}, {"bag": [[it, rng.randrange(1, 4)] for it in some]}])


def instruction(rng: random.Random) -> list[Any]:
    at = rng.choice(PLACES)
    word = rng.choice(FITTING[at[0]] if rng.random() < 0.9 else WORDS)
    if word == "put":
        return [word, at, value(rng)]
    if word == "inc":
        return [word, at, rng.choice([-1, 0, 1, 3, 2**63 - 1])]
    amounts = [rng.choice([1, 1, 2, 3, 2**32 - 1])] if word.startswith("bag") else []
    return [word, at, rng.choice(ELEMENTS), *amounts]


def move(rng: random.Random, most: int = 4) -> list[Any]:
    return [instruction(rng) for _ in range(rng.randrange(most))]
