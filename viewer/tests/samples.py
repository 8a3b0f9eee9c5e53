"""Journals and traces to show: scripts played in turn, and runs of a given shape."""

import json
import sys
from pathlib import Path
from random import Random
from typing import Any

ROOT = Path(__file__).resolve().parents[2]
sys.path.insert(0, str(ROOT / "tools" / "model"))

from journal import Event, Fire, History, Read, Stale, Storage, Values, read_journal, write_journal  # noqa: E402
from play import step_fault  # noqa: E402
from script import Script, read_script, reads  # noqa: E402
from tracing import write_trace  # noqa: E402

CAPACITY = 4096


def played(script: Script, seed: int, capacity: int = CAPACITY) -> History:
    """Play a script; a random agent makes the next call.

    So some moves are stale and attempted again.
    """
    random = Random(seed)
    storage = Storage(script.init, capacity)
    history = History(script.init, capacity, len(script.agents))
    at = [0] * len(script.agents)
    readings: list[Values | None] = [None] * len(script.agents)
    while left := [it for it, steps in enumerate(script.agents) if at[it] < len(steps)]:
        agent = random.choice(left)
        step, reading = script.agents[agent][at[agent]], readings[agent]
        places = reads(step)
        if places and reading is None:
            call: Read | Fire = Read(places)
        else:
            fire = step_fault(step, dict(zip(places, reading.values)) if reading else {})
            readings[agent] = None
            if isinstance(fire, str):
                at[agent] += 1
                continue
            call = Fire(fire.move, [(it, reading.number) for it in places] if reading else [])
        reply = storage.reply(call)
        history.events.append(Event(agent, call, reply))
        if isinstance(reply, Values):
            readings[agent] = reply
        elif not isinstance(reply, Stale):
            at[agent] += 1
    return history


def example(name: str, seed: int = 0) -> History:
    return played(read_script((ROOT / "examples" / f"{name}.json").read_bytes()), seed)


def warehouse(agents: int, steps: int, seed: int) -> History:
    """Agents that accept orders, pack and restock.

    They use sets, bags, counters and lists, with clashes and stale reads.
    """
    random = Random(seed)
    goods = ["tea", "coffee", "cocoa", "sugar", "flour", "rice", "salt", "oats"]

    def step(agent: int, number: int) -> Any:
        good, order, shelf = random.choice(goods), random.randrange(30), random.randrange(20)
        return random.choices(
            [
                [[["inc", ["stock", good], -1], ["inc", ["sold"], 1], ["bagadd", ["packed"], good, 1]]],
                [[["put", ["stock", good], {"sum": [{"val": ["stock", good]}, -2]}], ["put", ["last", agent], good]]],
                [[["add", ["open"], order], ["put", ["order", order], {"list": [good, number]}]]],
                [[["remove", ["open"], order], ["put", ["order", order], None]]],
                [[["put", ["shelf", shelf], {"list": [good, number]}]]],
                [[["bagremove", ["carts"], good, 1]], [["put", ["cart", agent], good]]],
                [[["put", ["door"], "open"], ["put", ["door"], "shut"]]],
                [[["bagremove", ["packed"], good, 3]]],
            ],
            [28, 18, 10, 10, 10, 8, 3, 4],
        )[0]

    init = [[["stock", it], 200] for it in goods] + [[["shelf", it], {"list": [random.choice(goods), 0]}] for it in range(20)]
    init += [[["open"], {"set": []}], [["packed"], {"bag": []}], [["carts"], {"bag": [[it, 6] for it in goods]}], [["sold"], 0], [["door"], "shut"]]
    script = {"init": init, "agents": [[step(agent, number) for number in range(steps)] for agent in range(agents)]}
    return played(read_script(json.dumps(script).encode()), seed)


def journal_of(*lines: Any, agents: int = 2, capacity: int = CAPACITY, init: Any = ()) -> History:
    """Return the history of a journal with these events.

    Each event is an agent, a call and a reply.
    """
    header = {"agents": agents, "capacity": capacity, "events": len(lines), "init": list(init), "version": 2}
    events = [{"agent": agent, "call": call, "reply": reply} for agent, call, reply in lines]
    return read_journal("".join(json.dumps(it) + "\n" for it in [header, *events]).encode())


def wrong() -> History:
    """Return one wrong answer of each sort, among right ones."""
    put = lambda value: ["put", ["x"], value]
    fire = lambda *move, reads=(): {"fire": list(move), "reads": [list(it) for it in reads]}
    read = {"read": [["x"], ["s"]]}
    return journal_of(
        (0, read, {"number": 0, "values": [1, {"set": [1, 2]}]}),
        (0, fire(put(2), reads=[(["x"], 0)]), {"fired": 1}),
        (1, read, {"number": 1, "values": [1, {"set": [1, 2]}]}),  # an old value
        (1, fire(put(3), reads=[(["x"], 0)]), {"fired": 2}),  # stale
        (0, fire(put(4), put(5)), "full"),  # a clash
        (1, fire(["add", ["s"], 7], reads=[(["s"], 1)]), {"stale": ["s"]}),  # would have fired
        (0, fire(put(6)), {"clash": [["x"], "Two"]}),  # would have fired
        (0, fire(["remove", ["s"], 1]), {"fired": 9}),  # another number
        (1, fire(put(1), put(8)), {"fired": 4}),  # a clash, answered as fired
        (1, fire(put(9)), {"fired": 5}),
        init=[[["x"], 1], [["s"], {"set": [1, 2]}]],
    )


def strange() -> History:
    """Return odd texts and values.

    They are texts that look like markup or scripts, numbers of 64 bits, lists, and names at their limits.
    """
    tag = '</script><script>document.title="run"</script><img src=x onerror="document.title=1">'
    values = [tag, "\u2028\u2029\x00\t\\\"'`${1}", "", 2**63 - 1, -(2**63), 2**53 + 1, {"list": [{"list": []}, None, True, 2**62 + 1]}]
    lines = [(0, {"fire": [["put", ["v", it], value]], "reads": []}, {"fired": it + 1}) for it, value in enumerate(values)]
    lines.append((0, {"fire": [["put", ["n", tag, 2**63 - 1], {"set": [2**53, 2**53 + 1, tag]}]], "reads": []}, {"fired": 8}))
    lines.append((1, {"fire": [["inc", ["big"], 1], ["bagadd", ["bag"], 2**63 - 1, 2**32 - 2]], "reads": []}, {"fired": 9}))
    lines.append((1, {"fire": [["add", ["n" * 64], -(2**63)], ["put", ["big"], 0], ["put", ["big"], 2**53 + 1]], "reads": []}, {"clash": [["big"], "Two"]}))
    init = [[["big"], 2**53], [["bag"], {"bag": [[2**63 - 1, 1]]}], [["n" * 64], {"set": []}]]
    return journal_of(*lines, init=init)


def large_trace(events: int, agents: int = 16, seed: int = 1) -> bytes:
    """Write a trace of a number of events at once.

    It has a set and a bag that grow, many locations, reads and stale fires.
    """
    random = Random(seed)
    lines = [{"agents": agents, "capacity": 2**20, "events": events, "init": [[["bag"], {"bag": []}], [["set"], {"set": []}]], "trace": 1}]
    cells: dict[int, int] = {}
    members: set[int] = set()
    counts: dict[int, int] = {}
    moves, writer = 0, dict.fromkeys(range(2000), 0)
    for number in range(events):
        line: dict[str, Any] = {"agent": random.randrange(agents), "event": number}
        cell, it, kind = random.randrange(2000), random.randrange(events // 8), random.random()
        at = ["cell", cell]
        if kind < 0.25:
            line |= {"call": {"read": [at]}, "reply": {"number": moves, "values": [cells.get(cell)]}}
        elif kind < 0.3 and writer[cell]:
            line |= {"call": {"fire": [["put", at, number]], "reads": [[at, writer[cell] - 1]]}, "reply": {"stale": at}}
        else:
            moves += 1
            counted = counts.get(it % 500, 0)
            fire = [["put", at, number], ["add", ["set"], it], ["bagadd", ["bag"], it % 500, 1]]
            updates = [[["bag"], {"counts": [[it % 500, counted, counted + 1]]}], [at, cells.get(cell), number], [["set"], {"added": [] if it in members else [it], "removed": []}]]
            line |= {"call": {"fire": fire, "reads": []}, "reply": {"fired": moves}, "updates": updates}
            cells[cell], writer[cell], counts[it % 500] = number, moves, counted + 1
            members.add(it)
        lines.append(line)
    return "".join(json.dumps(it, separators=(",", ":")) + "\n" for it in lines).encode()


__all__ = ["example", "journal_of", "large_trace", "played", "strange", "warehouse", "write_journal", "write_trace", "wrong"]
