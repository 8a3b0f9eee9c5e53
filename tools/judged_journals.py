"""Cases of journals that are judged, for `tools/cases`.

They are legal ones, and others with a wrong answer. Each is rewritten unchanged; the check reports it as legal, or names the
first call with a wrong answer.
"""

from collections.abc import Iterator

from casing import CASES, Case, cases_of
from formed_journals import rewrite_case

# Cases of legal journals, each of which is also rewritten unchanged: moves of two agents; a read that is stale after a write
# of the same value; increments, with each cause of a clash that they can have; lists in each place; and a clash of each cause,
# before a move that fires, a stale one that would also clash, and one on the full storage.
CHECKED = {it.name: it.given.decode() for it in cases_of(CASES)}
AGENTS, SAME, INCREMENTS, LISTS, CLASHES = (
    CHECKED[f"check_legal_{name}"]
    for name in (
        "moves_of_two_agents",
        "a_write_of_the_same_value",
        "increments",
        "lists_in_each_place",
        "each_cause_of_a_clash",
    )
)
# The causes, in the order in which the clashes have them.
CAUSES = ('"Two"', '"Mixed"', '"Kind"', '"Both"', '"Against"', '"Short"', '"Large"')
# The number of the first call with a wrong answer in the journal of clashes, the right text, and a wrong one.
WRONG = (
    (0, '["u"],"Two"', '["w"],"Two"'),
    (2, '{"clash":[["n"],"Kind"]}', '{"fired":1}'),
    (6, '{"clash":[["f"],"Large"]}', '"full"'),
    (7, '{"fired":1}', '{"stale":["s"]}'),
    (7, '{"fired":1}', '{"clash":[["x"],"Two"]}'),
    (7, '{"fired":1}', '"full"'),
    (8, '{"stale":["x"]}', '{"stale":["z"]}'),
    (8, '{"stale":["x"]}', '{"stale":["s"]}'),
    (8, '{"stale":["x"]}', '{"stale":["y"]}'),
    (8, '{"stale":["x"]}', '{"clash":[["y"],"Two"]}'),
    (8, '{"stale":["x"]}', '"full"'),
    (9, '"full"', '{"stale":["x"]}'),
    (9, '"full"', '{"fired":2}'),
)
# Events of a journal that opens with 7 at x and has the capacity 2: reads; puts of agent 1 that declare x at a number, or the two
# puts that clash; and the result of the check.
READS = {"read": (0, 7), "read_other": (0, 6), "read_early": (1, 7), "read_last": (2, 2)}
FIRES = {"same": ("7", "0"), "put": ("1", "0"), "named_1": ("2", "1"), "named_2": ("3", "2")}
REPLIES = {"fired": '{"fired":1}', "fired_2": '{"fired":2}', "stale": '{"stale":["x"]}', "full": '"full"'}
TWO = '{"agent":1,"call":{"fire":[["put",["x"],1],["put",["x"],2]],"reads":[]},"reply":%s}\n'
HISTORIES = (
    ("read same:fired put:stale", "legal 3 1"),
    ("put:fired two:clash named_1:fired_2 named_2:full two:clash put:stale read_last", "legal 7 2"),
    ("read_other read_early", "illegal 0"),
    ("read read_early", "illegal 1"),
    ("read same:fired_2", "illegal 1"),
    ("same:fired put:fired_2", "illegal 1"),
    ("same:fired named_1:stale", "illegal 1"),
    ("same:full named_1:stale", "illegal 0"),
    ("two:full two:clash", "illegal 0"),
    ("two:clash two:fired", "illegal 1"),
)


def both_ways(name: str, journal: str, line: str) -> Iterator[Case]:
    """The check reports this line for the journal, which is its own rewriting."""
    yield Case(f"check_{name}", ("check",), journal.encode(), f"{line}\n".encode(), int(line.startswith("illegal")))
    yield rewrite_case(name, journal, journal)


def event_of(name: str) -> str:
    """Return the event of this name, as the histories use it."""
    what, _, reply = name.partition(":")
    if what in READS:
        number, value = READS[what]
        return f'{{"agent":0,"call":{{"read":[["x"]]}},"reply":{{"number":{number},"values":[{value}]}}}}\n'
    if what == "two":
        return TWO % {"clash": '{"clash":[["x"],"Two"]}', **REPLIES}[reply]
    value, at = FIRES[what]
    return f'{{"agent":1,"call":{{"fire":[["put",["x"],{value}]],"reads":[[["x"],{at}]]}},"reply":{REPLIES[reply]}}}\n'


def legal() -> Iterator[Case]:
    """A legal journal is its own rewriting.

    It is also the rewriting of the same journal in version 1, if it has no list.
    """
    for name, journal in (("moves", AGENTS), ("a_stale_move", SAME), ("increments", INCREMENTS), ("clashes", CLASHES)):
        yield rewrite_case(name, journal, journal)
        yield rewrite_case(f"{name}_of_version_1", journal.replace('"version":2', '"version":1'), journal)
    yield rewrite_case("lists", LISTS, LISTS)


def wrong() -> Iterator[Case]:
    """The right cause is replaced by each other one, and other answers by wrong ones."""
    for at, right in enumerate(CAUSES):
        for other in (it for it in CAUSES if it != right):
            name = f"{other}_where_{right}_is_right".replace('"', "").lower()
            yield from both_ways(name, CLASHES.replace(right, other), f"illegal {at}")
    for at, (call, right, other) in enumerate(WRONG):
        yield from both_ways(f"wrong_answer_{at}_of_clashes", CLASHES.replace(right, other), f"illegal {call}")


def judged() -> list[Case]:
    found = [*legal(), *wrong()]
    for at, (names, line) in enumerate(HISTORIES):
        events = [event_of(it) for it in names.split()]
        head = f'{{"agents":2,"capacity":2,"events":{len(events)},"init":[[["x"],7]],"version":2}}\n'
        found += both_ways(f"history_{at}", head + "".join(events), line)
    return found
