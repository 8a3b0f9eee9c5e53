"""Cases of the program at each size of a table, for `tools/sizes`.

The wanted result follows from the size alone.
"""

import json
from collections.abc import Iterator

from casing import Case

SIZES = (0, 1, 2, 3, 64, 65, 255, 256, 4095, 4096)
SHAPE = b"bad script: shape\n"
X, S, B, N = ["x"], ["s"], ["b"], ["n"]


def text(value) -> str:
    return json.dumps(value, separators=(",", ":"), ensure_ascii=False)


def script(init: list, *agents: list) -> bytes:
    """Return the script of agents, each a list of steps, each a list of blocks."""
    return text({"init": init, "agents": agents}).encode()


def report(pairs: list, moves: int, *faults: str) -> bytes:
    return "".join(f"{it}\n" for it in [*map(text, pairs), f"moves {moves}", *faults]).encode()


def play_case(name: str, init: list, blocks: list, pairs: list, *faults: str) -> Case:
    """Play one step of one agent, with these blocks.

    It leaves the pairs, or ends with these faults.
    """
    return Case(name, ("run",), script(init, [blocks]), report(pairs, 0 if faults else 1, *faults))


def refusal_case(name: str, given: bytes, line: bytes) -> Case:
    return Case(name, ("run",), given, line, 2)


def places(n: int) -> list:
    return [["a", i] for i in range(n)]


def puts(n: int, value: int = 1) -> list:
    return [["put", it, value] for it in places(n)]


def set_of(n: int) -> dict:
    return {"set": list(range(n))}


def bag_of(n: int, count: int = 1) -> dict:
    return {"bag": [[i, count] for i in range(n)]}


def without_undef(pairs: list) -> list:
    """Return the pairs without those that hold nothing."""
    return [it for it in pairs if it[1] is not None]


def groups(n: int) -> Iterator[Case]:
    """A move with a group of n partial updates at one location."""
    half = n // 2
    adds, removes = [["add", S, i] for i in range(n)], [["remove", S, i] for i in range(n)]
    yield play_case(f"{n}_additions_to_a_set", [[S, set_of(0)]], [adds], [[S, set_of(n)]])
    yield play_case(f"{n}_additions_of_what_a_set_has", [[S, set_of(n)]], [adds], [[S, set_of(n)]])
    yield play_case(f"{n}_removals_from_a_set", [[S, set_of(n + 1)]], [removes], [[S, {"set": [n]}]])
    mixed = adds[:half] + removes[half:]
    yield play_case(f"{n}_updates_of_a_set", [[S, {"set": list(range(half, n))}]], [mixed], [[S, set_of(half)]])
    mine, other = [["bagadd", B, i, 2] for i in range(n)], [["bagremove", B, i, 1] for i in range(n)]
    yield play_case(f"{n}_additions_to_a_bag", [[B, bag_of(0)]], [mine], [[B, bag_of(n, 2)]])
    yield play_case(f"{n}_removals_from_a_bag", [[B, bag_of(n, 3)]], [other], [[B, bag_of(n, 2)]])
    both = [it for i in range(half) for it in (mine[i], other[i])]
    yield play_case(f"{n}_updates_of_a_bag", [[B, bag_of(half)]], [both], [[B, bag_of(half, 2)]])
    same = [["bagadd", B, "e", 1]] * n
    yield play_case(f"{n}_additions_of_one_element", [[B, {"bag": [["e", 1]]}]], [same], [[B, {"bag": [["e", n + 1]]}]])
    yield play_case(f"{n}_increments", [[N, 5]], [[["inc", N, 1]] * n], [[N, 5 + n]])


def moves_of(n: int) -> Iterator[Case]:
    """A move at n locations, and composed moves."""
    ones, twos = [[it, 1] for it in places(n)], [[it, 2] for it in places(n)]
    yield play_case(f"puts_at_{n}_locations", [], [puts(n)], ones)
    yield play_case(f"puts_of_undef_at_{n}_locations", ones, [puts(n, None)], [])
    yield play_case(f"{n}_equal_puts_at_one_location", [], [[["put", X, 1]] * n], without_undef([[X, 1 if n else None]]))
    yield play_case(f"two_blocks_of_{n}_puts", [], [puts(n), puts(n, 2)], twos)
    yield play_case(f"three_blocks_of_{n}_puts", [], [puts(n, 3), puts(n, None), puts(n, 2)], twos)
    adds, removes = [["add", S, i] for i in range(n)], [["remove", S, i] for i in range(n)]
    yield play_case(f"two_blocks_of_{n}_updates_of_a_set", [[S, set_of(0)]], [adds, removes], [[S, set_of(0)]])
    yield play_case(f"three_blocks_of_{n}_updates_of_a_set", [[S, set_of(0)]], [adds, removes, adds], [[S, set_of(n)]])
    mine, other = [["bagadd", B, i, 3] for i in range(n)], [["bagremove", B, i, 1] for i in range(n)]
    yield play_case(f"three_blocks_of_{n}_updates_of_a_bag", [[B, bag_of(0)]], [mine, other, other], [[B, bag_of(n)]])
    raised = [["inc", it, 1] for it in places(n)]
    twice = play_case(f"two_blocks_of_{n}_increments", ones, [raised, raised], [[it, 3] for it in places(n)])
    yield twice if n < 257 else refusal_case(twice.name, twice.given, b"bad script: reads\n")
    if n:
        blocks = [puts(4096 - n), [["put", ["b", i], 1] for i in range(n)]]
        left = [[it, 1] for it in places(4096 - n)] + [[["b", i], 1] for i in range(n)]
        yield play_case(f"{n}_of_4096_puts_in_a_second_block", [], blocks, left)
        many = [puts(4097 - n), blocks[1]]
        yield play_case(f"{n}_of_4097_puts_in_a_second_block", [], many, [], "agent 0 step 0 many")


def compositions() -> Iterator[Case]:
    """Yield three blocks that compose to the largest number of instructions.

    It is as many as a move may have; others compose to one more.
    """
    for last, faults in ((96, ()), (97, ("agent 0 step 0 many",))):
        blocks = [[["put", [name, i], 1] for i in range(count)] for name, count in zip("abc", (2000, 2000, last))]
        left = [[it[1], 1] for block in blocks for it in block]
        yield play_case(f"three_blocks_of_{4000 + last}_puts_in_all", [], blocks, [] if faults else left, *faults)
    yield refusal_case("a_block_of_4097_instructions", script([], [[puts(4097)]]), b"bad script: instructions\n")


def values(n: int) -> Iterator[Case]:
    """A value of n items, which is put, read, and held from the beginning."""
    items = {"list": [None] * n}
    for name, value in (("set", set_of(n)), ("bag", bag_of(n, 7)), ("list", items)):
        step = [["put", X, value], ["put", ["y"], {"val": ["o"]}]]
        yield play_case(f"a_{name}_of_{n}_is_put_and_read", [[["o"], value]], [step], [[["o"], value], [X, value], [["y"], value]])
    yield play_case(f"a_list_of_{n}_in_a_set", [[S, set_of(0)]], [[["add", S, items]]], [[S, {"set": [items]}]])
    yield play_case(f"a_list_of_{n}_as_an_argument", [], [[["put", ["x", items], 1]]], [[["x", items], 1]])
    state = [[it, it[1]] for it in places(n)]
    yield play_case(f"a_state_of_{n}_locations", state, [[]], state)


def texts(n: int) -> Iterator[Case]:
    """A text of n bytes as a value, as an element and as an argument."""
    for name, it in ((f"{n}", "t" * n), (f"{n}_in_two_bytes_each", "é" * (n // 2))):
        wanted = [[S, {"set": [it]}], [["u", it], 1], [X, it]]
        step = [["put", X, it], ["add", S, it], ["put", ["u", it], 1]]
        yield play_case(f"texts_of_bytes_{name}", [[S, set_of(0)]], [step], wanted)


def reads(n: int) -> Iterator[Case]:
    """Yield a step that reads n locations.

    It reads them by `val`, one of them twice, or as the targets of partial updates before its last block.
    """
    init = [[it, it[1]] for it in places(n)]
    step = [["put", ["b", i], {"val": ["a", i]}] for i in range(n)] + [["put", ["b", 0], {"val": ["a", 0]}]] * min(n, 1)
    sets, adds = [[it, set_of(1)] for it in places(n)], [["add", it, 1] for it in places(n)]
    left = [[it, set_of(2)] for it in places(n)]
    yield play_case(f"updates_at_{n}_locations_in_the_last_block", sets, [[], adds], left)
    cases = [
        play_case(f"reads_of_{n}_locations", init, [step], init + [[["b", i], i] for i in range(n)]),
        play_case(f"reads_of_{n}_locations_in_the_last_block", init, [[], step], init + [[["b", i], i] for i in range(n)]),
        play_case(f"updates_at_{n}_locations_before_the_last_block", sets, [adds, []], left),
    ]
    yield from cases if n < 257 else (refusal_case(it.name, it.given, b"bad script: reads\n") for it in cases)


def terms(n: int) -> Iterator[Case]:
    """A block of n terms that read one location."""
    step = [["put", it, {"val": N}] for it in places(n)]
    yield play_case(f"a_block_of_{n}_terms", [[N, 0]], [step], [[it, 0] for it in places(n)] + [[N, 0]])


def blocks_of(n: int) -> Iterator[Case]:
    """A step of n blocks, each of which sees the one before it, or is empty."""
    block = [["put", N, {"sum": [{"val": N}, 1]}], ["inc", ["m"], 2]]
    cases = [
        play_case(f"a_step_of_{n}_blocks", [[["m"], 0], [N, 0]], [block] * n, [[["m"], 2 * n], [N, n]]),
        play_case(f"a_step_of_{n}_empty_blocks", [], [[]] * n, []),
    ]
    yield from cases if 0 < n < 66 else (refusal_case(it.name, it.given, b"bad script: blocks\n") for it in cases)


def agents(n: int) -> Iterator[Case]:
    """Yield agents that increment one counter and each write their own location.

    There are also agents without a step.
    """
    given = script([[N, 0]], *([[[["inc", N, 1], ["put", ["a", i], i]]]] for i in range(n)))
    cases = [
        Case(f"{n}_agents", ("run",), given, report([[["a", i], i] for i in range(n)] + [[N, n]], n)),
        Case(f"{n}_agents_without_a_step", ("run",), script([], *[[]] * n), report([], 0)),
    ]
    yield from cases if n < 257 else (refusal_case(it.name, it.given, b"bad script: agents\n") for it in cases)
    if n == 257:
        yield refusal_case(f"{n}_agents_with_a_step_without_blocks", script([], *[[[]]] * n), b"bad script: agents\n")


def causes() -> Iterator[Case]:
    """Yield scripts with a block of one instruction too many, and another fault.

    The other fault is before or after it. The first one is reported.
    """
    block = ",".join(['["add",["s"],1]'] * 4097)
    for place, before, behind, cause in (
        ("before_a_step_without_blocks", "[[[", "]],[]]", "instructions"),
        ("behind_a_step_without_blocks", "[[],[[", "]]]", "blocks"),
        ("behind_an_agent_of_such_a_step", "[[]],[[[", "]]]", "blocks"),
        ("before_an_agent_of_such_a_step", "[[[", "]]],[[]]", "instructions"),
        ("before_a_wrong_shape", "[[[", "]]],1", "shape"),
        ("before_what_is_no_json", "[[[", "]]],1]", "not JSON"),
    ):
        given = '{"init":[],"agents":[' + before + block + behind + "]}"
        yield refusal_case(f"4097_instructions_{place}", given.encode(), f"bad script: {cause}\n".encode())


def nestings() -> Iterator[Case]:
    """Lists and sums that nest as deep as they may, and one level deeper."""
    for depth in range(1, 10):
        value = json.loads('{"list":[' * depth + "]}" * depth)
        if depth < 9:
            yield play_case(f"a_list_of_depth_{depth}", [], [[["put", X, value]]], [[X, value]])
        else:
            yield refusal_case(f"a_list_of_depth_{depth}", script([], [[[["put", X, value]]]]), SHAPE)
    yield refusal_case("a_list_of_4097_items", script([], [[[["put", X, {"list": [None] * 4097}]]]]), SHAPE)
    around = ('{"init":[],"agents":[[[[["put",["x"],', "]]]]]}")
    # The instruction is six arrays and objects deep, and each sum adds an object and an array.
    for depth in (1, 2, 3, 32, 59, 60):
        given = around[0] + '{"sum":[1,' * depth + "0" + "]}" * depth + around[1]
        yield Case(f"a_sum_of_depth_{depth}", ("run",), given.encode(), report([[X, depth]], 1))
    bag = around[0] + '{"sum":[1,' * 59 + '{"bag":[[1,1]]}' + "]}" * 59 + around[1]
    yield Case("a_bag_in_a_sum_of_depth_59", ("run",), bag.encode(), report([], 0, "agent 0 step 0 term"))
    for name, depth, term in (("a_sum_of_depth_61", 61, "0"), ("a_set_in_a_sum_of_depth_60", 60, '{"set":[]}')):
        deeper = around[0] + '{"sum":[1,' * depth + term + "]}" * depth + around[1]
        yield refusal_case(name, deeper.encode(), b"bad script: not JSON\n")


def every() -> list[Case]:
    from sized_journals import journals

    found = [it for n in SIZES for make in (groups, moves_of, values, terms) for it in make(n)]
    found += [it for n in (0, 1, 2, 3, 64, 65, 255, 256, 257) for make in (reads, agents) for it in make(n)]
    found += [it for n in (0, 1, 2, 3, 64, 65, 66) for it in blocks_of(n)]
    found += [it for n in (*SIZES, 65535, 65536) for it in texts(n)]
    found += [*compositions(), *causes(), *nestings(), *journals()]
    assert len({it.name for it in found}) == len(found)
    return found
