"""The types of states and moves, for annotations.

They are Python's own values, or JSON as in docs/FORMATS.md.
"""
from collections import Counter
from collections.abc import Mapping, Sequence, Set
from typing import Any, TypeAlias, Union

# None, a truth, an integer, a text, or a list, which is a tuple or {"list": [..]} of such.
Element: TypeAlias = Union[None, bool, int, str, tuple["Element", ...], Mapping[str, Sequence["Element"]]]
# An element; a set, which is a frozenset, a set or {"set": [..]} of elements; a bag, which is a Counter or
# {"bag": [[element, count], ..]}.
Value: TypeAlias = Union[Element, Set[Element], "Counter[Any]", Mapping[str, Sequence[Sequence["Element"]]]]
# ("name", argument, ..), or a list of these; where one location is expected, also the name alone.
Place: TypeAlias = Union[str, Sequence[Element]]
# An instruction: ("put", place, value), ("add", place, element), ("bag_add", place, element, amount), ("inc", place, number) ..;
# also with the words of journals, such as "bagadd".
Update: TypeAlias = Sequence[Union[str, int, Place, Value]]
