"""The families of partial updates.

Each computes the result of a group on a value, and the composition of two lists in sequence.

A further family is a separate class here, with an entry in FAMILIES, and words in `moves.py`.
"""

from collections import Counter
from collections.abc import Iterable
from typing import Any, NamedTuple, Protocol, Union

from jsontext import I64, U32, U64
from values import NUMBER, BagValue, Element, SetValue, Value, is_element

MAX_COUNT = U32[-1]
MAX_SUM = U64[-1]


class Change(NamedTuple):
    """A partial update of a set (whose amount is 1 and means nothing), or of a bag."""

    family: str
    adds: bool
    element: Element
    amount: int = 1


class Increment(NamedTuple):
    """A partial update of a counter, which is a number."""

    number: int
    family = "count"


Partial = Union[Change, Increment]


class NoResult(Exception):
    """A group has no result, for the given cause."""

    def __init__(self, cause: str) -> None:
        super().__init__(cause)
        self.cause = cause


class TooLarge(Exception):
    """Two lists of partial updates in sequence lead to too large an amount."""


class Family(Protocol):
    def apply(self, base: Value, is_regular: bool, partials: list[Any]) -> Value:
        """Return the result of the partial updates on the base.

        The base is the group's regular value or the old value.
        """

    def check_alone(self, partials: list[Any]) -> None:
        """Raise the cause by which these alone have a result on no value."""

    def join_updates(self, first: list[Any], second: list[Any]) -> list[Any]:
        """Return the list that does on each value what the first and then the second do."""


class SetFamily:
    def apply(self, base: Value, is_regular: bool, partials: list[Change]) -> Value:
        if not isinstance(base, SetValue):
            raise NoResult("Kind")
        self.check_alone(partials)
        added, removed = _parts(partials)
        if is_regular and (not added <= base.members or removed & base.members):
            raise NoResult("Against")
        return base if is_regular else SetValue((base.members - removed) | added)

    def check_alone(self, partials: list[Change]) -> None:
        added, removed = _parts(partials)
        if added & removed:
            raise NoResult("Both")

    def join_updates(self, first: list[Change], second: list[Change]) -> list[Change]:
        added_1, removed_1 = _parts(first)
        added_2, removed_2 = _parts(second)
        added = (added_1 - removed_2) | added_2
        removed = (removed_1 - added_2) | removed_2
        return [
            *(Change("set", True, it) for it in sorted(added)),
            *(Change("set", False, it) for it in sorted(removed)),
        ]


class BagFamily:
    def apply(self, base: Value, is_regular: bool, partials: list[Change]) -> Value:
        if not isinstance(base, BagValue):
            raise NoResult("Kind")
        if is_regular:
            raise NoResult("Against")
        added, removed = _sums(partials)
        old = base.counts
        if any(removed[it] > old.get(it, 0) for it in removed):
            raise NoResult("Short")
        every = {*old, *added, *removed}
        new = {it: old.get(it, 0) - removed[it] + added[it] for it in every}
        if any(count > MAX_COUNT for count in new.values()):
            raise NoResult("Large")
        return BagValue({it: count for it, count in new.items() if count})

    def check_alone(self, partials: list[Change]) -> None:
        """Accept each list: it has a result on some bag, except for large amounts."""

    def join_updates(self, first: list[Change], second: list[Change]) -> list[Change]:
        added_1, removed_1 = _sums(first)
        added_2, removed_2 = _sums(second)
        every = sorted({*added_1, *removed_1, *added_2, *removed_2})
        added = [(it, added_2[it] + max(0, added_1[it] - removed_2[it])) for it in every]
        removed = [(it, removed_1[it] + max(0, removed_2[it] - added_1[it])) for it in every]
        if any(amount > MAX_COUNT for _, amount in [*added, *removed]):
            raise TooLarge
        return [
            *(Change("bag", True, it, amount) for it, amount in added if amount),
            *(Change("bag", False, it, amount) for it, amount in removed if amount),
        ]


class CountFamily:
    def apply(self, base: Value, is_regular: bool, partials: list[Increment]) -> Value:
        if not is_element(base) or base[0] != NUMBER:
            raise NoResult("Kind")
        if is_regular:
            raise NoResult("Against")
        number = base[1] + _total(partials)
        if number not in I64:
            raise NoResult("Large")
        return (NUMBER, number)

    def check_alone(self, partials: list[Increment]) -> None:
        """Accept increments: they have a result on some number, except for large sums."""

    def join_updates(self, first: list[Increment], second: list[Increment]) -> list[Increment]:
        remaining = _total([*first, *second])
        if abs(remaining) > MAX_SUM:
            raise TooLarge
        if remaining == 0:
            return [] if first else [Increment(0)]
        both: list[Increment] = []
        while remaining:
            part = max(I64[0], min(I64[-1], remaining))
            both.append(Increment(part))
            remaining -= part
        return both


FAMILIES: dict[str, Family] = {"set": SetFamily(), "bag": BagFamily(), "count": CountFamily()}


def family_of(partials: Iterable[Partial]) -> Family:
    """Return the one family of these; two families are mixed."""
    names = {it.family for it in partials}
    if len(names) != 1:
        raise NoResult("Mixed")
    return FAMILIES[names.pop()]


def _parts(partials: list[Change]) -> tuple[set[Element], set[Element]]:
    added = {it.element for it in partials if it.adds}
    removed = {it.element for it in partials if not it.adds}
    return added, removed


def _sums(partials: list[Change]) -> tuple[Counter[Element], Counter[Element]]:
    added: Counter[Element] = Counter()
    removed: Counter[Element] = Counter()
    for it in partials:
        (added if it.adds else removed)[it.element] += it.amount
    return added, removed


def _total(partials: list[Increment]) -> int:
    return sum(it.number for it in partials)
