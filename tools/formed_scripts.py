"""Cases of the steps of scripts, for `tools/cases`.

They are the calls that a step makes, or why it has no move. Each row is a step of one agent.
"""

import json
from collections.abc import Iterator

from casing import Case

# The state of the rows below: `n` is 41, and `t` a set of 1.
STATE = '[[["n"],41],[["t"],{"set":[1]}]]'
# Instructions of a block; their move, if it differs; and the location and the cause, if that clashes. The first four rows have no
# term that needs the state.
BLOCKS = (
    ("", "", ""),
    ('["put",["x"],{"set":[1]}],["put",["x"],null]', "", '["x"],"Two"'),
    ('["add",["s"],1],["remove",["s"],"e"],["inc",["n"],-3]', "", '["s"],"Kind"'),
    ('["bagadd",["b"],true,2],["bagremove",["b",0],null,1]', "", '["b"],"Kind"'),
    ('["put",["x"],41],["put",["y"],{"val":["n"]}]', '["put",["x"],41],["put",["y"],41]', ""),
    ('["put",["x"],{"sum":[20,21]}],["inc",["n"],1]', '["put",["x"],41],["inc",["n"],1]', ""),
    (
        '["add",["s"],{"val":["n"]}],["bagadd",["b"],{"val":["u"]},1]',
        '["add",["s"],41],["bagadd",["b"],null,1]',
        '["b"],"Kind"',
    ),
    ('["put",["y"],{"sum":[{"val":["n"]},1]}]', '["put",["y"],42]', ""),
    ('["put",["y"],{"sum":[{"sum":[{"val":["n"]},1]},-42]}]', '["put",["y"],0]', ""),
    ('["put",["s"],{"val":["t"]}]', '["put",["s"],{"set":[1]}]', ""),
    ('["bagadd",["s"],{"val":["u"]},2]', '["bagadd",["s"],null,2]', '["s"],"Kind"'),
    ('["add",["s"],1]', "", '["s"],"Kind"'),
)
# Blocks with a faulty term.
FAULTY = (
    '["add",["s"],{"set":[1]}]',
    '["put",["x"],1],["bagremove",["b"],{"bag":[]},1]',
    '["put",["x"],{"sum":[1,"a"]}],["put",["y"],1]',
    '["remove",["s"],{"val":["t"]}]',
    '["put",["y"],{"sum":[9223372036854775807,1]}]',
    '["put",["y"],{"sum":[-9223372036854775808,-1]}]',
    '["put",["y"],{"sum":[{"val":["x"]},1]}]',
    '["put",["y"],{"sum":["a",1]}]',
    '["put",["y"],{"sum":[1,{"val":["t"]}]}]',
    '["add",["s"],{"val":["t"]}]',
)
# Steps of several blocks: the opening state, the step, and the calls that it makes, each with its answer.
FIRED = '{"fired":1}'
STEPS = (
    # A ready block reads only its targets, and the last block reads none.
    (
        "[]",
        '[["put",["x"],1],["add",["s"],1],["inc",["n"],1]]',
        [('{"fire":[["put",["x"],1],["add",["s"],1],["inc",["n"],1]],"reads":[]}', '{"clash":[["n"],"Kind"]}')],
    ),
    (
        "[]",
        '[["put",["x"],1],["inc",["n"],1],["add",["s"],1],["remove",["t"],2],["bagadd",["b"],"e",1],'
        '["bagremove",["c"],"e",1]],[["put",["y"],{"val":["u"]}]],[["remove",["z"],1]]',
        [('{"read":[["b"],["c"],["n"],["s"],["t"],["u"]]}', '{"number":0,"values":[null,null,null,null,null,null]}')],
    ),
    (
        "[]",
        '[["add",["s"],{"val":["x"]}]],[["inc",["n"],1]],[["put",["y"],1]]',
        [('{"read":[["n"],["s"],["x"]]}', '{"number":0,"values":[null,null,null]}')],
    ),
    (
        "[]",
        '[["put",["s"],1]],[["add",["s"],{"sum":[{"val":["y"]},{"val":["x"]}]}]]',
        [('{"read":[["x"],["y"]]}', '{"number":0,"values":[null,null]}')],
    ),
    (
        "[]",
        '[["add",["s"],{"val":["u"]}]],[["put",["y"],{"val":["s"]}]],[["remove",["z"],1]]',
        [('{"read":[["s"],["u"]]}', '{"number":0,"values":[null,null]}')],
    ),
    # Each location occurs once, in ascending order, wherever the step names it.
    (
        '[[["b"],3],[["a",1],2],[["a"],1]]',
        '[["put",["x"],{"sum":[{"val":["b"]},{"sum":[{"val":["a",1]},{"val":["a"]}]}]}]]',
        [
            ('{"read":[["a"],["a",1],["b"]]}', '{"number":0,"values":[1,2,3]}'),
            ('{"fire":[["put",["x"],6]],"reads":[[["a"],0],[["a",1],0],[["b"],0]]}', FIRED),
        ],
    ),
    # Ready blocks beside others: each block sees those before it.
    (
        '[[["n"],41]]',
        '[["put",["x"],1]],[["put",["y"],{"sum":[{"val":["n"]},1]}]],[["inc",["n"],1]]',
        [
            ('{"read":[["n"]]}', '{"number":0,"values":[41]}'),
            ('{"fire":[["inc",["n"],1],["put",["x"],1],["put",["y"],42]],"reads":[[["n"],0]]}', FIRED),
        ],
    ),
    (
        '[[["n"],41]]',
        '[["put",["n"],5]],[["put",["y"],{"val":["n"]}]],[["put",["n"],7]]',
        [
            ('{"read":[["n"]]}', '{"number":0,"values":[41]}'),
            ('{"fire":[["put",["n"],7],["put",["y"],5]],"reads":[[["n"],0]]}', FIRED),
        ],
    ),
    (
        '[[["n"],41]]',
        '[["inc",["n"],1]],[["inc",["n"],1]],[["put",["y"],{"val":["n"]}]]',
        [
            ('{"read":[["n"]]}', '{"number":0,"values":[41]}'),
            ('{"fire":[["inc",["n"],2],["put",["y"],43]],"reads":[[["n"],0]]}', FIRED),
        ],
    ),
)
# Steps whose first fault is in one of several blocks: the opening state, the step, and the report on it.
STOPPED = (
    ("[]", '[["put",["x"],1]],[["add",["s"],{"set":[1]}]]', "term"),
    ("[]", '[["add",["s"],{"set":[1]}]],[["put",["x"],1]]', "term"),
    ("[]", '[["put",["x"],1],["put",["x"],2]],[["add",["s"],{"set":[1]}]]', 'clash ["x"] Two'),
    ("[]", '[["add",["s"],1]],[["put",["s"],5]]', 'clash ["s"] Kind'),
    ('[[["n"],1]]', '[["put",["n"],null]],[["put",["n"],{"sum":[{"val":["n"]},1]}]]', "term"),
)
# An instruction with a term that needs the state, so that its block isn't ready.
TERM, PUT = '["put",["z"],{"val":["n"]}]', '["put",["z"],41]'


def script(init: str, step: str) -> bytes:
    return f'{{"init":{init},"agents":[[[{step}]]]}}'.encode()


def compact(value) -> str:
    return json.dumps(value, separators=(",", ":"))


def calls_case(name: str, init: str, step: str, calls: list[tuple[str, str]]) -> Case:
    """The journal of a step has these calls."""
    state = compact(sorted(json.loads(init)))
    head = f'{{"agents":1,"capacity":4096,"events":{len(calls)},"init":{state},"version":2}}\n'
    events = (f'{{"agent":0,"call":{call},"reply":{reply}}}\n' for call, reply in calls)
    return Case(f"journal_{name}", ("run", "--journal"), script(init, step), (head + "".join(events)).encode())


def fault_case(name: str, init: str, step: str, fault: str) -> Case:
    """A step fires nothing, and the report says why."""
    left = "".join(f"{compact(it)}\n" for it in json.loads(init))
    return Case(f"run_{name}", ("run",), script(init, step), f"{left}moves 0\nagent 0 step 0 {fault}\n".encode())


def fires(name: str, block: str, move: str, clash: str) -> Case:
    """A block reads every location of which it has a `val`, and fires the move."""
    held = {place: value for (place,), value in json.loads(STATE)}
    places = sorted(it for it in "ntux" if f'{{"val":["{it}"]}}' in block)
    values = [held.get(it) for it in places]
    named = compact([[[it], 0] for it in places])
    read = ('{"read":%s}' % compact([[it] for it in places]), '{"number":0,"values":%s}' % compact(values))
    fire = (f'{{"fire":[{move}],"reads":{named}}}', f'{{"clash":[{clash}]}}' if clash else FIRED)
    return calls_case(name, STATE, f"[{block}]", [read, fire] if places else [fire])


def behind(first: str, block: str) -> str:
    return f"{first},{block}" if block else first


def scripts() -> Iterator[Case]:
    for at, (block, move, clash) in enumerate(BLOCKS):
        yield fires(f"of_block_{at}", block, move or block, clash)
        yield fires(f"of_block_{at}_behind_a_term", behind(TERM, block), behind(PUT, move or block), clash)
    for at, block in enumerate(FAULTY):
        yield fault_case(f"faulty_block_{at}", STATE, f"[{block}]", "term")
        yield fault_case(f"faulty_block_{at}_behind_a_term", STATE, f"[{behind(TERM, block)}]", "term")
    for at, (init, step, calls) in enumerate(STEPS):
        yield calls_case(f"of_step_{at}", init, step, calls)
    for at, (init, step, fault) in enumerate(STOPPED):
        yield fault_case(f"stopped_step_{at}", init, step, fault)
