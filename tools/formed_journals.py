"""Cases of what a journal may contain, for `tools/cases`.

Each row is a piece that is read and written again, or has a fault.
"""

import json
from collections.abc import Iterable, Iterator

from casing import Case

LOCATIONS = (
    '["x"]',
    r'["_a1",null,false,true,-9223372036854775808,9223372036854775807,"","é\n"]',
    '["x",1,2,3,4,5,6,7,8]',
    '["a",{"list":[{"list":[]}]},1,{"list":[2]}]',
)
NO_LOCATIONS = (
    "[]",
    '"x"',
    "[1]",
    '["1x"]',
    '["x-y"]',
    '[""]',
    '["x",1,2,3,4,5,6,7,8,9]',
    '["x",[]]',
    '["x",1.0]',
    '["x",9223372036854775808]',
    '{"x":1}',
)
VALUES = (
    "null",
    "true",
    "-1",
    '"a"',
    '{"set":[]}',
    '{"set":[null,false,true,-1,0,10,"","B","a"]}',
    '{"bag":[]}',
    '{"bag":[[null,1],["e",4294967295]]}',
    '{"list":[]}',
    '{"list":[{"list":[]},"b",2,"a",1,-1,true,false,null,null]}',
    '{"set":["b",{"list":[]},{"list":[1]},{"list":[2]},{"list":[1,0]}]}',
    r'{"bag":[["e",2],[{"list":[]},1],[{"list":["é\n"]},4294967295]]}',
    *('{"list":[' * depth + "]}" * depth for depth in range(1, 9)),
    *('{"list":[' + ",".join("0" * count) + "]}" for count in (4095, 4096)),
)
NO_VALUES = (
    "[]",
    "{}",
    "1.0",
    "1e0",
    "-0",
    "9223372036854775808",
    '{"set":[1,1]}',
    '{"set":[[1]]}',
    '{"set":1}',
    '{"set":[],"bag":[]}',
    '{"set":[],"x":1}',
    '["set"]',
    '{"bag":[[1,1],[1,2]]}',
    '{"bag":[[1,0]]}',
    '{"bag":[[1,4294967296]]}',
    '{"bag":[[1,-1]]}',
    '{"bag":[[1,1.0]]}',
    '{"bag":[[1,null]]}',
    '{"bag":[[]]}',
    '{"bag":[[1]]}',
    '{"bag":[[1,1,1]]}',
    '{"list":{}}',
    '{"list":1}',
    '{"list":null}',
    '{"List":[]}',
    '{"lis":[]}',
    '{"lists":[]}',
    '{"list":[],"set":[]}',
    '{"a":1,"list":[]}',
    '{"list":[[]]}',
    '{"list":[1,1.0]}',
    '{"list":[{"set":[]}]}',
    '{"list":[{"list":[9223372036854775808]}]}',
    '{"set":[{"list":[]},{"list":[]}]}',
    '{"bag":[[{"list":[1]},1],[{"list":[1]},2]]}',
    *('{"list":[' * depth + "]}" * depth for depth in (9, 60)),
    *('{"list":[' + ",".join("0" * count) + "]}" for count in (4097, 4098)),
)
# Values whose elements aren't in the order in which they are written.
TURNED_VALUES = (
    (' { "set" : [10,"a",true,null,"",-1,"B",false,0] } ', '{"set":[null,false,true,-1,0,10,"","B","a"]}'),
    ('{"bag":[["e",2],[1,3],[null,1]]}', '{"bag":[[null,1],[1,3],["e",2]]}'),
    (
        '{"set":["b",{"list":[1,0]},{"list":[2]},{"list":[]},{"list":[1]}]}',
        '{"set":["b",{"list":[]},{"list":[1]},{"list":[2]},{"list":[1,0]}]}',
    ),
    ('{"bag":[[{"list":[0,0]},1],[{"list":[1]},2]]}', '{"bag":[[{"list":[1]},2],[{"list":[0,0]},1]]}'),
)
INSTRUCTIONS = (
    '["put",["x"],null]',
    '["put",["x",1],{"set":[1,2]}]',
    '["add",["s"],"e"]',
    '["remove",["s"],true]',
    '["bagadd",["b"],"e",1]',
    '["bagremove",["b"],-1,4294967295]',
    '["inc",["n"],-9223372036854775808]',
    '["inc",["n"],-1]',
    '["inc",["n"],0]',
    '["inc",["n",1],9223372036854775807]',
    '["inc",["n",null],-3]',
    '["bagremove",["b",0],false,7]',
    '["put",["x",{"list":[]}],{"list":[1]}]',
    '["add",["x"],{"list":[1]}]',
    '["remove",["x"],{"list":[1]}]',
    '["bagadd",["x"],{"list":[1]},2]',
    '["bagremove",["x"],{"list":[1]},2]',
    '["inc",["x",{"list":[]}],1]',
)
NO_INSTRUCTIONS = (
    "[]",
    '["put"]',
    '["put",["x"]]',
    '["put",["x"],1,1]',
    '["put",["1x"],1]',
    '[1,["x"],1]',
    '["set",["x"],1]',
    '["Put",["x"],1]',
    '["add",["x"],1,1]',
    '["add",["s"],{"set":[]}]',
    '["bagadd",["b"],"e"]',
    '["bagadd",["b"],"e",0]',
    '["bagadd",["b"],"e",-1]',
    '["bagremove",["b"],"e",4294967296]',
    '["bagremove",["b"],"e",1,1]',
    '["inc",["n"]]',
    '["inc",["n"],1,1]',
    '["inc",["n"],1.0]',
    '["inc",["n"],1e0]',
    '["inc",["n"],-0]',
    '["inc",["n"],"1"]',
    '["inc",["n"],null]',
    '["inc",["n"],true]',
    '["inc",["n"],{"set":[]}]',
    '["inc",["n"],9223372036854775808]',
    '["inc",["n"],-9223372036854775809]',
    '["inc",["1n"],1]',
    '["Inc",["n"],1]',
    '{"put":[["x"],1]}',
)

CUT, VERSION = "cut", "version"


def shape(line: int) -> str:
    return f"line {line}: shape"


def not_json(line: int) -> str:
    return f"line {line}: not JSON"


# A journal of one event, with its header in the place of `@`, and the result for each header.
UNDER_HEADER = '@\n{"agent":1,"call":{"read":[["x"]]},"reply":{"number":0,"values":[1]}}\n'
HEADERS = {
    None: (
        '{"agents":2,"capacity":8,"events":1,"init":[],"version":2}',
        ' { "version":1, "init":[], "events":1,"capacity":8,"agents":2 } ',
        '{"agents":256,"capacity":1048576,"events":1,"init":[],"version":2}',
        '{"agents":2,"capacity":1,"events":1,"init":[[["x"],null]],"version":2}',
        '{"agents":2,"capacity":8,"events":1,"init":[],"version":1}',
    ),
    VERSION: (
        '{"agents":2,"capacity":8,"events":1,"init":[],"version":3}',
        '{"agents":2,"capacity":8,"events":1,"init":[],"version":0}',
        '{"version":-1}',
        # The version is reported before the shape.
        '{"version":9223372036854775808}',
        '{"capacity":0,"version":18446744073709551615}',
        '{"version":3}',
        '{"list":[],"version":3}',
    ),
    shape(1): (
        '{"agents":2,"capacity":8,"events":1,"init":[],"version":"1"}',
        '{"agents":2,"capacity":8,"events":1,"init":[],"version":1.0}',
        '{"agents":2,"capacity":8,"events":1,"init":[],"version":2.0}',
        '{"agents":2,"capacity":8,"events":1,"init":[]}',
        '{"agents":2,"capacity":8,"events":1,"init":[],"version":1,"x":1}',
        '{"agents":257,"capacity":8,"events":1,"init":[],"version":2}',
        '{"agents":2.0,"capacity":8,"events":1,"init":[],"version":2}',
        '{"agents":2,"capacity":0,"events":1,"init":[],"version":2}',
        '{"agents":2,"capacity":1048577,"events":1,"init":[],"version":2}',
        '{"agents":2,"capacity":8e0,"events":1,"init":[],"version":2}',
        '{"agents":2,"capacity":8,"events":4294967296,"init":[],"version":2}',
        '{"agents":2,"capacity":8,"events":1,"init":{},"version":2}',
        '{"agents":2,"capacity":8,"events":1,"init":[[["x"],1],[["x"],1]],"version":2}',
        "[1]",
        "2",
        '{"version":-0}',
        '{"version":1}',
        '{"version":2}',
        '{"Version":3}',
        '["version",3]',
        *(open * 127 + inner + close * 127 for open, inner, close in (("[", "", "]"), ('{"a":', "1", "}"))),
    ),
    not_json(1): (
        "",
        "[1e999]",
        r'["\ud800"]',
        *(open * 128 + inner + close * 128 for open, inner, close in (("[", "", "]"), ('{"a":', "1", "}"))),
    ),
    # The event has an agent that the header doesn't have, or is one event too many.
    shape(2): (
        '{"agents":0,"capacity":8,"events":1,"init":[],"version":2}',
        '{"agents":2,"capacity":8,"events":0,"init":[],"version":2}',
    ),
    # The header counts more events than follow.
    CUT: (
        '{"agents":2,"capacity":8,"events":2,"init":[],"version":2}',
        '{"agents":2,"capacity":8,"events":4294967295,"init":[],"version":2}',
    ),
}
# A journal without events, with its version in the place of `@`. Only whole numbers are versions.
OF_VERSION = '{"agents":0,"capacity":8,"events":0,"init":[],"version":@}\n'
VERSIONS = {
    None: ("1", "2"),
    VERSION: (
        *("0", "3", "-1", "-2", "257", "258", "4294967297", "4294967298", "9223372036854775807"),
        *("9223372036854775808", "18446744073709551615", "-9223372036854775808"),
    ),
    shape(1): (
        *("1.0", "2.0", "3.0", "1e0", "2e0", "-0", "18446744073709551616", "18446744073709551617", "-9223372036854775809"),
        *('"1"', '"2"', "true", "null", "[1]", "[2]", '{"version":2}'),
    ),
}
# A journal without events, with its opening state in the place of `@`.
OPENED = '{"agents":0,"capacity":8,"events":0,"init":@,"version":2}\n'
OPENINGS = {
    None: ('[[["x"],null],[["y"],null],[["z"],1]]', '[[["x"],1],[["x",1],null],[["x",2],1]]'),
    shape(1): (
        '[[["x"],1],[["x"],1]]',
        '[[["x"],null],[["x"],null]]',
        '[[["x"],null],[["x"],1]]',
        '[[["x"],1],[["x"],null]]',
        '[[["x"],null],[["y"],null],[["z"],1],[["y"],null]]',
    ),
}
# A journal of one event, which is in the place of `@`.
ONE_EVENT = '{"agents":2,"capacity":8,"events":1,"init":[],"version":2}\n@\n'
EVENTS = {
    None: (
        '{"reply":{"values":[],"number":4294967295},"call":{"read":[]},"agent":0}',
        '{"agent":1,"call":{"fire":[],"reads":[]},"reply":{"fired":4294967295}}',
        '{"agent":1,"call":{"reads":[],"fire":[]},"reply":{"stale":["x",1]}}',
        '{"agent":1,"call":{"fire":[],"reads":[]},"reply":{"clash":[["x"],"Two"]}}',
        '{"agent":1,"call":{"fire":[],"reads":[]},"reply":{"clash":[["x"],"Large"]}}',
        '{"agent":1,"call":{"fire":[["bagadd",["b"],"e",2]],"reads":[[["b"],9]]},"reply":"full"}',
    ),
    shape(2): (
        '{"agent":2,"call":{"read":[["x"]]},"reply":{"number":0,"values":[1]}}',
        '{"agent":1.0,"call":{"read":[["x"]]},"reply":{"number":0,"values":[1]}}',
        '{"agent":1,"call":{"read":[["x"]]},"reply":{"number":0.0,"values":[1]}}',
        '{"agent":1,"call":{"read":[["x"]]},"reply":{"number":4294967296,"values":[1]}}',
        '{"agent":1,"call":{"read":[["x"]]},"reply":{"number":0,"values":[]}}',
        '{"agent":1,"call":{"read":[["x"]]},"reply":{"number":0,"values":[1,1]}}',
        '{"agent":1,"call":{"read":["x"]},"reply":{"number":0,"values":[1]}}',
        '{"agent":1,"call":{"read":[["x"]]},"reply":{"fired":1}}',
        '{"agent":1,"call":{"read":[["x"]]},"reply":"full"}',
        '{"agent":1,"call":{"fire":[],"reads":[]},"reply":{"number":0,"values":[]}}',
        '{"agent":1,"call":{"fire":[],"reads":[]},"reply":"Full"}',
        '{"agent":1,"call":{"fire":[],"reads":[]},"reply":{"clash":[["x"],"two"]}}',
        '{"agent":1,"call":{"fire":[],"reads":[]},"reply":{"fired":-1}}',
        '{"agent":1,"call":{"fire":[]},"reply":"full"}',
        '{"agent":1,"call":{"fire":[],"read":[]},"reply":"full"}',
        '{"agent":1,"call":{"fire":[],"reads":[],"x":[]},"reply":"full"}',
        '{"agent":1,"call":[[],[]],"reply":"full"}',
        '{"agent":1,"call":{"fire":[],"reads":["x"]},"reply":"full"}',
        '{"agent":1,"call":{"fire":[],"reads":[[]]},"reply":"full"}',
        '{"agent":1,"call":{"fire":[],"reads":[[["x"]]]},"reply":"full"}',
        '{"agent":1,"call":{"fire":[],"reads":[[["x"],0,0]]},"reply":"full"}',
        '{"agent":1,"call":{"fire":[],"reads":[]}}',
        "null",
        *(f'{{"agent":1,"call":{{"read":[{it}]}},"reply":{{"number":0,"values":[null]}}}}' for it in NO_LOCATIONS),
        *(f'{{"agent":1,"call":{{"read":[["x"]]}},"reply":{{"number":0,"values":[{it}]}}}}' for it in NO_VALUES),
        *(f'{{"agent":1,"call":{{"fire":[{it}],"reads":[]}},"reply":"full"}}' for it in NO_INSTRUCTIONS),
    ),
    # An empty line, alone and before the event.
    not_json(2): ("", '\n{"agent":1,"call":{"read":[["x"]]},"reply":{"number":0,"values":[1]}}'),
    # More than one event.
    shape(3): (
        '{"agent":1,"call":{"fire":[],"reads":[]},"reply":"full"}\n',
        '{"agent":1,"call":{"fire":[],"reads":[]},"reply":"full"}\n{"agent":1,"call":{"fire":[],"reads":[]},"reply":"full"}',
    ),
}
# A journal of two events, with further text in the place of `@`.
MORE = """{"agents":1,"capacity":4096,"events":2,"init":[[["s"],{"set":[]}]],"version":2}
{"agent":0,"call":{"read":[["s"]]},"reply":{"number":0,"values":[{"set":[]}]}}
{"agent":0,"call":{"fire":[],"reads":[[["s"],0]]},"reply":{"fired":1}}
@"""
FURTHER = {None: ("",), shape(4): ("\n", " ", "{", '{"agent":0,"call":{"fire":[],"reads":[]},"reply":{"fired":2}}')}
# An event of version 1 that nests. The search for lists passes over it once.
NESTED = '{"agents":2,"capacity":8,"events":1,"init":[],"version":1}\n@\n'
NESTS = {
    fault: tuple(open * depth + inner + close * depth for open, inner, close in (("[", "", "]"), ('{"a":', "1", "}")))
    for depth, fault in ((100, shape(2)), (128, not_json(2)))
}
# A journal of version 1 with the keys of every line in reverse order.
TURNED = """{"version":1,"init":[[["s"],{"set":[]}]],"events":2,"capacity":4096,"agents":1}
{"reply":{"values":[{"set":[]}],"number":0},"call":{"read":[["s"]]},"agent":0}
{"reply":{"fired":1},"call":{"reads":[[["s"],0]],"fire":[["add",["s"],1],["put",["y"],{"set":[1]}]]},"agent":0}
"""
SPACES = ((",", ","), (",", " ,\t"), (":", "\t\r: "), ("[", " [\r"), ("]", "\t] "), ("{", " { "), ("}", "\r}\t"))
# The word of lists, where a text may be, and in a name.
WORDS = """{"agents":1,"capacity":8,"events":1,"init":[[["list"],{"set":["list"]}]],"version":#}
{"agent":0,"call":{"fire":[["put",["list","list"],"list"]],"reads":[]},"reply":{"fired":1}}
"""
# A list after others of its kind, or in a list. Version 1 has none.
LISTED = """{"agents":1,"capacity":8,"events":2,"init":@,"version":#}
{"agent":0,"call":{"fire":[],"reads":[[["x"],0],[["x",1],0]]},"reply":{"fired":1}}
{"agent":0,"call":{"read":[["x"],["x",1]]},"reply":{"number":1,"values":[1,1]}}
"""
LISTED_IN = {
    "a_second_argument": (1, '[[["x",0,{"list":[1]}],1]]', "@", ""),
    "a_second_pair": (1, '[[["x"],1],[["y"],{"list":[1,2]}]]', "@", ""),
    "a_second_element": (1, '[[["x"],{"set":[1,{"list":[]}]}]]', "@", ""),
    "a_second_count": (1, '[[["x"],{"bag":[[1,1],[{"list":[]},1]]}]]', "@", ""),
    "a_list": (1, '[[["x"],{"list":[1,{"list":[]}]}]]', "@", ""),
    "a_second_instruction": (2, "[]", '"fire":[]', '"fire":[["put",["x"],1],["add",["x"],{"list":[1]}]]'),
    "a_second_named_read": (2, "[]", '[["x",1],0]', '[["x",{"list":[]}],0]'),
    "a_second_read": (3, "[]", '["x"],["x",1]', '["x"],["x",{"list":[]}]'),
    "a_second_value": (3, "[]", "[1,1]", '[1,{"list":[]}]'),
}


def canonical(journal: str) -> str:
    """Return the journal as it is written.

    It is in version 2, with its keys in order, and without locations that hold nothing.
    """
    head, *events = map(json.loads, journal.removesuffix("\n").split("\n"))
    head |= {"version": 2, "init": [it for it in head["init"] if it[1] is not None]}
    lines = (json.dumps(it, ensure_ascii=False, separators=(",", ":"), sort_keys=True) for it in (head, *events))
    return "".join(f"{it}\n" for it in lines)


def rewrite_case(name: str, journal: str, wanted: str | None = None) -> Case:
    """The journal is written as `wanted`, or else as `written` returns it."""
    return Case(f"rewrite_{name}", ("rewrite",), journal.encode(), (wanted or canonical(journal)).encode())


def refusal_case(name: str, journal: str, fault: str) -> Case:
    return Case(f"rewrite_{name}", ("rewrite",), journal.encode(), f"journal {fault}\n".encode(), 2)


def table(name: str, journal: str, rows: dict[str | None, Iterable[str]]) -> Iterator[Case]:
    """The journal with each piece in the place of `@` has this fault, or none."""
    for fault, parts in rows.items():
        for at, part in enumerate(parts):
            given = journal.replace("@", part)
            if fault:
                yield refusal_case(f"{name}_{fault.replace(':', '').replace(' ', '_')}_{at}", given, fault)
            else:
                yield rewrite_case(f"{name}_{at}", given)


def round_trips() -> Iterator[Case]:
    """Locations, values and instructions are written as they are read."""
    read = '{"agent":1,"call":{"read":[%s]},"reply":{"number":0,"values":[%s]}}'
    undef = ",".join(["null"] * len(LOCATIONS))
    named = ",".join(f"[{it},{at}]" for at, it in enumerate(LOCATIONS))
    fire = '{"agent":0,"call":{"fire":[%s],"reads":[%s]},"reply":"full"}' % (",".join(INSTRUCTIONS), named)

    def of(values: Iterable[str]) -> str:
        return ONE_EVENT.replace("@", read % (",".join(['["x"]'] * len(values)), ",".join(values)))

    for name, journal in (
        ("locations", ONE_EVENT.replace("@", read % (",".join(LOCATIONS), undef))),
        ("instructions_and_named_reads", ONE_EVENT.replace("@", fire)),
        ("values", of(VALUES)),
    ):
        yield rewrite_case(name, journal, journal)
    given, wanted = map(of, zip(*TURNED_VALUES))
    yield rewrite_case("values_in_another_order", given, wanted)


def list_cases() -> Iterator[Case]:
    """Only version 2 accepts a list, and the word of lists is none."""
    for version in "12":
        yield rewrite_case(f"words_of_lists_in_version_{version}", WORDS.replace("#", version), WORDS.replace("#", "2"))
    for name, (line, init, old, new) in LISTED_IN.items():
        journal = LISTED.replace("@", init).replace(old, new)
        yield rewrite_case(f"list_in_{name}", journal.replace("#", "2"))
        yield refusal_case(f"list_in_{name}_of_version_1", journal.replace("#", "1"), shape(line))


def formed() -> list[Case]:
    found = [*round_trips(), *list_cases()]
    for name, journal, rows in (
        ("header", UNDER_HEADER, HEADERS),
        ("number", OF_VERSION, VERSIONS),
        ("opening", OPENED, OPENINGS),
        ("event", ONE_EVENT, EVENTS),
        ("further", MORE, FURTHER),
        ("nested", NESTED, NESTS),
    ):
        found += table(name, journal, rows)
    return found + [rewrite_case(f"keys_in_another_order_{at}", TURNED.replace(*it)) for at, it in enumerate(SPACES)]
