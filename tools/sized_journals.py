"""Cases of long journals and runs, for `tools/sizes`.

They are long journals, runs of many segments, journals that are cut at each byte, and journals with a list in each place.
"""

from collections.abc import Iterator

from casing import Case
from sized import B, N, S, X, report, script, text

CAPACITY = ("--capacity", "1048576")
SHAPE = b"journal line 2: shape\n"


def header(events: int, agents: int = 1, init: list | None = None, capacity: int = 1048576, version: int = 2) -> str:
    head = {"agents": agents, "capacity": capacity, "events": events, "init": init or [], "version": version}
    return text(head) + "\n"


def event(call: str, reply: str) -> str:
    return f'{{"agent":0,"call":{call},"reply":{reply}}}\n'


def raises(n: int) -> Iterator[Case]:
    """One agent fires n moves; a storage is full after as many moves as its capacity."""
    init, step = [[N, 0]], [[["inc", N, 1]]]
    yield Case(f"{n}_moves", ("run", *CAPACITY), script(init, [step] * n), report([[N, n]], n))
    lines = [event('{"fire":[["inc",["n"],1]],"reads":[]}', f'{{"fired":{k + 1}}}') for k in range(n)]
    journal = (header(n, init=init) + "".join(lines)).encode()
    yield Case(f"{n}_moves_in_a_journal", ("run", *CAPACITY, "--journal"), script(init, [step] * n), journal)
    full = report([[N, n]], n, f"agent 0 step {n} full")
    yield Case(f"one_move_more_than_{n}", ("run", "--capacity", str(n)), script(init, [step] * (n + 1)), full)


def default() -> Iterator[Case]:
    """If no capacity is given, 4,096 moves are fired."""
    full = [f"agent 0 step {k} full" for k in (4096, 4097)]
    yield Case("the_default_capacity", ("run",), script([], [[[["put", X, 1]]]] * 4098), report([[X, 1]], 4096, *full))


def plain(n: int) -> Iterator[Case]:
    """Many moves that need no state, and then a read of them."""
    steps = [[[["put", X, k]]] for k in range(n - 1)] + [[[["put", ["y"], {"val": X}]]]]
    yield Case(f"a_read_after_{n - 1}_puts", ("run", *CAPACITY), script([], steps), report([[X, n - 2], [["y"], n - 2]], n))


def long(pairs: int) -> Iterator[Case]:
    """A journal of this many reads, each with a fire that declares it.

    It is legal, and also has a wrong answer in its last line.
    """
    init = [[N, 0]]
    reads = [event('{"read":[["n"]]}', f'{{"number":{k},"values":[{k}]}}') for k in range(pairs)]
    calls = [f'{{"fire":[["put",["n"],{k + 1}]],"reads":[[["n"],{k}]]}}' for k in range(pairs)]
    fires = [event(it, f'{{"fired":{k + 1}}}') for k, it in enumerate(calls)]
    lines = [it for pair in zip(reads, fires) for it in pair]
    name, journal = f"journal_of_{2 * pairs}_events", header(2 * pairs, init=init) + "".join(lines)
    yield Case(f"check_{name}", ("check",), journal.encode(), f"legal {2 * pairs} {pairs}\n".encode())
    yield Case(f"rewrite_{name}", ("rewrite",), journal.replace('"version":2', '"version":1').encode(), journal.encode())
    wrong = header(2 * pairs, init=init) + "".join(lines[:-1]) + event(calls[-1], '"full"')
    yield Case(f"check_wrong_{name}", ("check",), wrong.encode(), f"illegal {2 * pairs - 1}\n".encode(), 1)
    yield Case(f"audit_{name}", ("audit",), journal.encode(), f"legal {2 * pairs} {pairs} 1\n".encode())
    yield Case(f"audit_wrong_{name}", ("audit",), wrong.encode(), f"illegal 0 {2 * pairs - 1}\n".encode(), 1)
    traced = [text({"agents": 1, "capacity": 1048576, "events": 2 * pairs, "init": init, "trace": 1}) + "\n"]
    for k in range(pairs):
        traced.append(reads[k].replace(',"reply"', f',"event":{2 * k},"reply"'))
        fire = fires[k].replace(',"reply"', f',"event":{2 * k + 1},"reply"')
        traced.append(f'{fire[:-2]},"updates":[[["n"],{k},{k + 1}]]}}\n')
    yield Case(f"trace_{name}", ("trace",), journal.encode(), "".join(traced).encode())
    late = window(pairs - 1, pairs - 1, traced[-2:], **{"from": 2 * pairs - 2, "part": 0})
    yield Case(f"trace_the_end_of_{name}", ("trace", "--from", f"{2 * pairs - 2}"), journal.encode(), late.encode())


def growing(n: int) -> Iterator[Case]:
    """A set or a bag that grows n times by one element.

    For each move, the trace has only what it adds.
    """
    for name, at, init, call, changed in (
        ("set", S, {"set": []}, '["add",["s"],%d]', '{"added":[%d],"removed":[]}'),
        ("bag", B, {"bag": []}, '["bagadd",["b"],%d,3]', '{"counts":[[%d,0,3]]}'),
    ):
        fire = '{"agent":0,"call":{"fire":[%s],"reads":[]}%%s,"reply":{"fired":%d}%%s}\n'
        fires = [fire % (call % k, k + 1) for k in range(n)]
        journal = header(n, init=[[at, init]]) + "".join(it % ("", "") for it in fires)
        traced = [it % (f',"event":{k}', f',"updates":[[{text(at)},{changed % k}]]') for k, it in enumerate(fires)]
        head = text({"agents": 1, "capacity": 1048576, "events": n, "init": [[at, init]], "trace": 1}) + "\n"
        yield Case(f"trace_of_{n}_additions_to_a_{name}", ("trace",), journal.encode(), (head + "".join(traced)).encode())


def misread(n: int) -> Iterator[Case]:
    """A location that holds a text of n bytes is read 256 times at once, wrongly.

    The trace doesn't repeat what it holds.
    """
    init = [[X, "x" * n]]
    wrong = event(text({"read": [X] * 256}), text({"number": 1, "values": [None] * 256}))
    head = text({"agents": 1, "capacity": 1048576, "events": 1, "init": init, "trace": 1}) + "\n"
    line = wrong.replace(',"reply"', ',"event":0,"reply"')[:-2] + f',"right":{text({"differs": list(range(256)), "number": 0})}}}\n'
    yield Case(f"trace_of_256_wrong_reads_of_{n}_bytes", ("trace",), (header(1, init=init) + wrong).encode(), (head + line).encode())


def calls_of(n: int) -> Iterator[Case]:
    """A read of n locations, and fires of n declared reads and of n instructions.

    They are written as they are read, or are too long.
    """
    places, undef = ",".join(['["x"]'] * n), ",".join(["null"] * n)
    named, raised = ",".join(['[["n"],0]'] * n), ",".join(['["inc",["n"],1]'] * n)
    for name, most, call, reply in (
        ("locations", 256, f'{{"read":[{places}]}}', f'{{"number":0,"values":[{undef}]}}'),
        ("named_reads", 256, f'{{"fire":[],"reads":[{named}]}}', '"full"'),
        ("instructions", 4096, f'{{"fire":[{raised}],"reads":[]}}', '"full"'),
    ):
        journal = (header(1) + event(call, reply)).encode()
        ends = (journal, 0) if n <= most else (SHAPE, 2)
        yield Case(f"rewrite_a_call_of_{n}_{name}", ("rewrite",), journal, *ends)


def run_of(n: int) -> str:
    """Return a run of this many segments, each of one move, which increments a number."""
    fired = event('{"fire":[["inc",["n"],1]],"reads":[]}', '{"fired":1}')
    return "".join(header(1, init=[[N, k]]) + fired for k in range(n))


def parts(n: int) -> Iterator[Case]:
    """A run of this many segments, longer than any other input.

    It is legal, and also has a last segment that opens with another state or has a wrong answer.
    """
    run, legal = run_of(n), f"legal {n} {n} {n}\n"
    yield Case(f"audit_{n}_parts", ("audit",), run.encode(), legal.encode())
    progress = "".join(f"so far {k} {k} {k}\n" for k in range(4096, n + 1, 4096))
    yield Case(f"audit_every_4096_of_{n}_parts", ("audit", "--every", "4096"), run.encode(), (progress + legal).encode())
    mismatched = run + header(1, init=[[N, n - 1]]) + event('{"fire":[],"reads":[]}', '{"fired":1}')
    yield Case(f"audit_{n}_parts_and_one_apart", ("audit",), mismatched.encode(), f"part {n} apart\n".encode(), 2)
    wrong = run + header(1, init=[[N, n]]) + event('{"read":[["n"]]}', f'{{"number":0,"values":[{n - 1}]}}')
    yield Case(f"audit_{n}_parts_and_a_wrong_one", ("audit",), wrong.encode(), f"illegal {n} 0\n".encode(), 1)


def window(n: int, before: int, calls: list[str], **part: int) -> str:
    """Return the trace of a window of these calls.

    The window begins when the number is n and this many moves of its segment have fired.
    """
    head = {"agents": 1, "capacity": 1048576, "events": len(calls), "init": [[N, n]], "moves": before, "trace": 2, **part}
    return text(dict(sorted(head.items()))) + "\n" + "".join(calls)


def windows(n: int) -> Iterator[Case]:
    """The last of this many segments, and one after it, which doesn't exist."""
    call = event('{"fire":[["inc",["n"],1]],"reads":[]},"event":0', f'{{"fired":1}},"updates":[[["n"],{n - 1},{n}]]')
    traced = window(n - 1, 0, [call], **{"from": 0, "part": n - 1})
    yield Case(f"trace_the_last_of_{n}_parts", ("trace", "--part", f"{n - 1}"), run_of(n).encode(), traced.encode())
    few = f"the run has {n} parts\n".encode()
    yield Case(f"trace_a_part_behind_{n}_parts", ("trace", "--part", f"{n}"), run_of(n).encode(), few, 2)


def lines() -> Iterator[Case]:
    """Lines of a run that are longer than a complete script or journal may be.

    They occur with their line feed and without.
    """
    most = 16_777_216
    for name, end in (("", b""), ("_and_its_line_feed", b"\n")):
        name = f"audit_a_line_of_{most + 1}_bytes{name}"
        yield Case(name, ("audit",), b"x" * (most + 1) + end, b"part 0 journal line 1: not JSON\n", 2)
    fires = event(f'{{"fire":[["put",["x"],"{"y" * most}"]],"reads":[]}}', '{"fired":1}')
    yield Case("audit_a_call_of_17_million_bytes", ("audit",), (header(1) + fires).encode(), b"legal 1 1 1\n")


def cut() -> Iterator[Case]:
    """A journal that ends before each of its bytes.

    At the end of a line, before or after its line feed, it is cut; inside a line, that line isn't JSON.
    """
    lines = event('{"read":[["s"]]}', '{"number":0,"values":[{"set":[]}]}')
    lines += event('{"fire":[["add",["s"],1],["put",["y"],{"set":[1]}]],"reads":[[["s"],0]]}', '{"fired":1}')
    for word, version in (("check", 2), ("rewrite", 1)):
        journal = header(2, init=[[S, {"set": []}]], capacity=4096, version=version) + lines
        for at in range(len(journal)):
            inside = journal[:at] and journal[at - 1] != "\n" and journal[at] != "\n"
            refusal = f"journal line {1 + journal[:at].count(chr(10))}: not JSON\n" if inside else "journal cut\n"
            yield Case(f"{word}_journal_cut_at_{at}", (word,), journal[:at].encode(), refusal.encode(), 2)


EMPTY_SET, EMPTY_BAG = [[["a"], {"set": []}]], [[["a"], {"bag": []}]]
FIRED, CLASH = '{"fired":1}', '{"clash":[["a"],"Short"]}'
# The place of an element in a header.
OPENINGS = {
    "an_opening_argument": '[[["a",@],1]]',
    "an_opening_value": '[[["a"],@]]',
    "an_opening_set": '[[["a"],{"set":[@]}]]',
    "an_opening_bag": '[[["a"],{"bag":[[@,1]]}]]',
}
# The place of an element in an event: the opening state, the call, the answer, and whether that is right.
PLACES = {
    "a_read_location": ([], '{"read":[["a",@]]}', '{"number":0,"values":[null]}', True),
    "a_read_value": ([], '{"read":[["a"]]}', '{"number":0,"values":[@]}', False),
    "a_put_location": ([], '{"fire":[["put",["a",@],1]],"reads":[]}', FIRED, True),
    "a_put_value": ([], '{"fire":[["put",["a"],@]],"reads":[]}', FIRED, True),
    "a_put_set": ([], '{"fire":[["put",["a"],{"set":[1,@]}]],"reads":[]}', FIRED, True),
    "a_put_bag": ([], '{"fire":[["put",["a"],{"bag":[[@,1]]}]],"reads":[]}', FIRED, True),
    "an_added_element": (EMPTY_SET, '{"fire":[["add",["a"],@]],"reads":[]}', FIRED, True),
    "a_removed_element": (EMPTY_SET, '{"fire":[["remove",["a"],@]],"reads":[]}', FIRED, True),
    "an_element_added_to_a_bag": (EMPTY_BAG, '{"fire":[["bagadd",["a"],@,1]],"reads":[]}', FIRED, True),
    "an_element_removed_from_a_bag": (EMPTY_BAG, '{"fire":[["bagremove",["a"],@,1]],"reads":[]}', CLASH, True),
    "a_raised_location": ([], '{"fire":[["inc",["a",@],1]],"reads":[]}', '"full"', False),
    "a_named_location": ([], '{"fire":[],"reads":[[["a",@],0]]}', FIRED, True),
    "a_stale_location": ([], '{"fire":[],"reads":[]}', '{"stale":["a",@]}', False),
    "a_clashing_location": ([], '{"fire":[],"reads":[]}', '{"clash":[["a",@],"Two"]}', False),
}


def list_places() -> Iterator[Case]:
    for name, opening in OPENINGS.items():
        head = '{"agents":0,"capacity":8,"events":0,"init":%s,"version":#}\n' % opening
        yield from judge_case(name, head, "legal 0 0\n", 1)
    for name, (init, call, reply, right) in PLACES.items():
        journal = header(1, init=init, capacity=8).replace('"version":2', '"version":#') + event(call, reply)
        line = f"legal 1 {int(reply == FIRED)}\n" if right else "illegal 0\n"
        yield from judge_case(name, journal, line, 2)


def judge_case(name: str, journal: str, line: str, at: int) -> Iterator[Case]:
    """A journal of version 2 may have a list in the place, as deep as a list may be.

    One of version 1 may have a number, but no list.
    """
    deep, deeper = ('{"list":[' * depth + "]}" * depth for depth in (8, 9))

    def with_(version: int, element: str) -> bytes:
        return journal.replace("#", str(version)).replace("@", element).encode()

    status = int(line.startswith("illegal"))
    for kind, version, element in (("list", 2, deep), ("number", 1, "7")):
        given = with_(version, element)
        yield Case(f"check_{kind}_as_{name}", ("check",), given, line.encode(), status)
        yield Case(f"rewrite_{kind}_as_{name}", ("rewrite",), given, with_(2, element))
    shape = f"journal line {at}: shape\n".encode()
    for kind, version, element in (("list_in_version_1", 1, '{"list":[]}'), ("too_deep_list", 2, deeper)):
        for word in ("check", "rewrite"):
            yield Case(f"{word}_{kind}_as_{name}", (word,), with_(version, element), shape, 2)


def journals() -> list[Case]:
    found = [it for n in (4097, 16385, 65537) for make in (raises, plain) for it in make(n)]
    found += [it for n in (255, 256, 257, 4095, 4096, 4097) for it in calls_of(n)]
    return [*found, *default(), *long(35000), *growing(400), *misread(1_000_000), *parts(120000), *windows(1000), *windows(120000), *lines(), *cut(), *list_places()]
