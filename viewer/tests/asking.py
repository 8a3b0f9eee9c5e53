"""Tests of answers to questions: conditions, searches of values, and the summary."""

import json
import re
from collections import Counter
from collections.abc import Callable
from typing import Any

from browser import Browser
from journal import Clashed, Fired, History, Read, Stale, Storage
from moves import instruction_json
from samples import journal_of, strange, warehouse
from selenium.webdriver.common.keys import Keys
from showing import HISTORY
from tries import Tries
from values import UNDEF, Location, location_json, value_json

BUSY = warehouse(4, 40, 9)
RICE, PACKED, OPEN, DOOR = '["stock","rice"]', '["packed"]', '["open"]', '["door"]'
State = dict[str, Any]


def key(place: Location) -> str:
    return json.dumps(location_json(place), separators=(",", ":"))


MOMENTS: dict[int, list[State]] = {}  # the moments of HISTORY and of BUSY, which are requested often


def moments(history: History) -> list[State]:
    """Return what each location holds at each moment, in JSON.

    The moments are before the first event, and after each.
    """
    if id(history) in MOMENTS:
        return MOMENTS[id(history)]
    storage = Storage(history.init, history.capacity)
    out = [{key(place): value_json(value) for place, value in storage.state.items()}]
    for event in history.events:
        state = out[-1]
        if isinstance(event.reply, Fired):
            storage.follow(event.call.move)
            state = state | {key(place): value_json(storage.state.get(place, UNDEF)) for place, _ in event.call.move}
        out.append({place: value for place, value in state.items() if value is not None})
    if history is HISTORY or history is BUSY:
        MOMENTS[id(history)] = out
    return out


def stretches(history: History, test: Callable[[State], bool]) -> list[list[int]]:
    out: list[list[int]] = []
    for count, state in enumerate(moments(history)):
        if test(state):
            if out and out[-1][1] == count:
                out[-1][1] = count + 1
            else:
                out.append([count, count + 1])
    return out


def at(place: str, test: Callable[[Any], bool]) -> Callable[[State], bool]:
    return lambda state: test(state.get(place))


def try_conditions(tries: Tries, browser: Browser) -> None:
    browser.load(tries.trace("busy", BUSY))
    holding = "watch(arguments[0]); return shown.holds"
    for text, test in {
        'stock("rice") < 190': at(RICE, lambda it: it < 190),
        'stock("rice")<=190': at(RICE, lambda it: it <= 190),
        'stock("rice") > 195': at(RICE, lambda it: it > 195),
        'stock("rice") ≥ 195': at(RICE, lambda it: it >= 195),
        'stock("rice") = 197': at(RICE, lambda it: it == 197),
        'stock("rice") != 197': at(RICE, lambda it: it != 197),
        "stock(*) < 188": lambda state: any(it.startswith('["stock"') and value < 188 for it, value in state.items()),
        'door = "shut"': at(DOOR, lambda it: it == "shut"),
        'door is "open"': at(DOOR, lambda it: it == "open"),
        "order(3) = undef": at('["order",3]', lambda it: it is None),
        "open has 3": at(OPEN, lambda it: 3 in it["set"]),
        "open lacks 3": at(OPEN, lambda it: 3 not in it["set"]),
        "open size >= 4": at(OPEN, lambda it: len(it["set"]) >= 4),
        "packed size = 3": at(PACKED, lambda it: len(it["bag"]) == 3),
        'packed has "tea"': at(PACKED, lambda it: "tea" in dict(it["bag"])),
        "open = {}": at(OPEN, lambda it: it["set"] == []),
        "open < 3": at(OPEN, lambda it: False),
    }.items():
        tries.same(f"{text} holds where the model says so", browser.run(holding, text), stretches(BUSY, test))
    states = moments(BUSY)
    changed = [it for it in range(1, len(states)) if states[it].get(RICE) != states[it - 1].get(RICE)]
    tries.same('stock("rice") changes where it does', browser.run("watch(arguments[0]); return shown.onsets.map(it => it.count)", 'stock("rice") changes'), changed)
    for text, words in {'stock("rice" < 1': "is missing", "door <": "a value or a location is missing", 'door < "a"': "a number must follow <", "nosuch = 1": "no location of this run", "constructor changes": "no location of this run", "__proto__ = 1": "no location of this run", "= 1": "choose a location", "door = 1 2": "the condition ends", "door ~ 1": "can't be read"}.items():
        browser.run("renewWatch(arguments[0]); showWatch()", text)
        tries.claim(f"what {text} lacks is said", words in browser.text("watch-result").lower() and browser.find("watch").get_attribute("aria-invalid") == "true", browser.text("watch-result"))
    browser.load(tries.trace("strange", strange()))
    tries.same("numbers of 64 bits are exact there", [len(browser.run(holding, f"big = {2**53 + it}")) for it in (0, 1, 2)], [1, 1, 0])


def try_condition_ways(tries: Tries, browser: Browser) -> None:
    browser.load(tries.trace("busy", BUSY))
    size, starts = next((size, them) for size in range(9) if len(them := [it for it, _ in stretches(BUSY, at(OPEN, lambda it: len(it["set"]) == size)) if it]) > 2)
    gold = "const { holds } = colors, pen = document.createElement('canvas').getContext('2d'); pen.fillStyle = holds; pen.fillRect(0, 0, 1, 1); const [r, g, b] = pen.getImageData(0, 0, 1, 1).data; return ['lanes', 'strip'].map(id => { const it = document.getElementById(id), data = it.getContext('2d').getImageData(0, 0, it.width, it.height).data; let n = 0; for (let i = 0; i < data.length; i += 4) if (data[i] === r && data[i + 1] === g && data[i + 2] === b) n++; return n; })"
    before = browser.run(gold)
    browser.press("v")
    browser.press(f"open size = {size}", Keys.ENTER)
    tries.has("Enter goes to where it comes to hold", browser.title(), f"Event {starts[0] - 1} ")
    tries.has("that is said", browser.text("watch-result"), "open becomes {")
    browser.press(Keys.ENTER)
    tries.has("and on", browser.title(), f"Event {starts[1] - 1} ")
    browser.press(Keys.ENTER, shift=True)
    tries.has("with Shift back", browser.title(), f"Event {starts[0] - 1} ")
    browser.leave()
    browser.press("n")
    tries.has("n goes on from anywhere", browser.title(), f"Event {starts[1] - 1} ")
    browser.click("watch-back")
    tries.has("so do the buttons", browser.title(), f"Event {starts[0] - 1} ")
    after = browser.run(gold)
    tries.claim("the lanes and the strip mark where it holds", before == [0, 0] and min(after) > 20, (before, after))
    tries.shot(browser, "condition")
    browser.run("act.chooseLocation(shown.run.locations.get('[\"stock\",\"rice\"]'))")
    browser.write("watch", "changes")
    browser.press(Keys.ENTER)
    tries.same("a condition without a location is about the chosen one", browser.run("return shown.onsets.length"), browser.run("return shown.location.writes.length"))


def answers_at(place: str) -> list[tuple[int, str]]:
    """Return each event of HISTORY that concerns the location.

    Each has what its call and answer say of its values.
    """
    out, states = [], moments(HISTORY)
    for number, event in enumerate(HISTORY.events):
        if isinstance(event.call, Read):
            words = [value_json(value) for it, value in zip(event.call.places, event.reply.values) if key(it) == place]
            is_there = bool(words)
        else:
            words = [instruction_json(it) for it in event.call.move if key(it[0]) == place]
            is_there = bool(words) or any(key(it) == place for it, _ in event.call.reads)
            words = [it[::2] for it in words] + ([states[number + 1][place]] if isinstance(event.reply, Fired) and words else [])
        if is_there:
            out.append((number, json.dumps(words)))
    return out


def try_location_search(tries: Tries, browser: Browser) -> None:
    browser.load(tries.trace("warehouse", HISTORY), "#at=%5B%22stock%22%2C%22rice%22%5D")
    tries.has("the search can be limited to the chosen location", browser.text("events-here"), 'only stock("rice")')
    browser.click("events-here")
    listed = "return Array.from({ length: listLength() }, (_, i) => listItem(i))"
    about = answers_at(RICE)
    tries.same("then the events of that location are listed", browser.run(listed), [it for it, _ in about])
    value = str(moments(HISTORY)[-1][RICE])
    browser.write("events-find", value)
    tries.same("and the search finds in its values alone", browser.run(listed), [it for it, text in about if re.search(rf"(?<![\w-]){value}(?!\w)", text)])
    browser.write("events-find", "sold")
    tries.same("not in those of others", browser.run(listed), [])
    browser.write("events-find", "")
    browser.run("document.querySelector('#kinds .off').click()")
    browser.frame()
    tries.same("a press on its chip ends that", browser.text("events-count"), "")


def unput(history: History) -> list[tuple[int, list[Location]]]:
    """Return the fired moves that name a location without puts up to their number.

    The number is the one that they name.
    """
    written: dict[Location, int] = {}
    out = []
    for number, event in enumerate(history.events):
        if not isinstance(event.reply, Fired):
            continue
        found = list(dict.fromkeys(place for place, seen in event.call.reads if place not in history.init and written.get(place, seen + 1) > seen))
        if found:
            out.append((number, found))
        for instruction in event.call.move:
            written.setdefault(instruction[0], event.reply.number)
    return out


def try_summary(tries: Tries, browser: Browser) -> None:
    stale, clashes = ([it for it in BUSY.events if isinstance(it.reply, kind)] for kind in (Stale, Clashed))
    browser.load(tries.trace("busy", BUSY))
    label = lambda place: browser.run("return locationText(arguments[0])", location_json(place))
    wanted = {
        "Stale fires by location": Counter(label(it.reply.at) for it in stale),
        "Agents that retry most": Counter(f"agent {it.agent}" for it in stale),
        "Clashes by location": Counter(label(it.reply.at) for it in clashes),
        "Clashes by agent": Counter(f"agent {it.agent}" for it in clashes),
        "Clashes by cause": Counter(it.reply.cause for it in clashes),
        "Moves that depend on what was not yet put": Counter(label(place) for _, places in unput(BUSY) for place in places),
    }
    browser.run("for (const it of document.querySelectorAll('#detail .rest-lines')) it.click()")
    blocks = browser.run("return [...document.querySelectorAll('#detail .summary .block')].map(it => [it.querySelector('h3').textContent, [...it.querySelectorAll('.tally')].map(line => [line.querySelector('.tally-name').textContent.trim(), +line.querySelector('b').textContent.replaceAll(',', '')])])")
    found = {title: dict(lines) for title, lines in blocks if title not in ("Answers", "Longest chain of tries")}
    tries.same("the summary counts by location, agent and cause", found, {title: dict(it) for title, it in wanted.items() if it})
    tries.claim("the most frequent come first", all([n for _, n in lines] == sorted((n for _, n in lines), reverse=True) for title, lines in blocks if title != "Answers"), blocks)
    tries.shot(browser, "summary")
    missed = []
    count = browser.run("return document.querySelectorAll('#detail .tally').length")
    for line in range(count):
        words = browser.run("const it = document.querySelectorAll('#detail .tally')[arguments[0]]; it.click(); return [it.innerText, +it.querySelector('b').textContent.replaceAll(',', '')]", line)
        if browser.run("return listLength()") != words[1]:
            missed.append(words)
    tries.claim(f"each line lists the events that it counts: {count} pressed", count > 15 and not missed, missed)
    tries.claim("and the summary stays to be seen", browser.all("#detail .summary"))
    browser.run("act.list({})")
    legal = journal_of(
        (0, {"read": [["x"]]}, {"number": 0, "values": [None]}),
        (0, {"fire": [["put", ["y"], 1]], "reads": [[["x"], 0]]}, {"fired": 1}),
        (1, {"fire": [["put", ["x"], 5]], "reads": []}, {"fired": 2}),
        (0, {"fire": [["put", ["y"], 2]], "reads": [[["x"], 2]]}, {"fired": 3}),
    )
    browser.load(tries.trace("unput", legal))
    tries.has("a move that depends on nothing yet put is found in a legal run", browser.text("detail"), "Moves that depend on what was not yet put")
    browser.run("[...document.querySelectorAll('#detail .tally')].at(-1).click()")
    browser.leave()
    browser.press(Keys.ARROW_RIGHT)
    tries.has("and leads there", browser.title(), "Event 1 ")
    tries.has("which says so", browser.text("detail"), "nothing yet put")


SHARES = """
const canvas = document.createElement("canvas"), pen = canvas.getContext("2d"), columns = new Columns(1), high = 100;
canvas.width = 4; canvas.height = 120;
for (let i = 0; i < arguments[0]; i++) columns.put(0, { kind: "fired" });
for (let i = 0; i < arguments[1]; i++) columns.put(0, { kind: "stale" });
columns.draw(pen, 0, 0, 10, 4, high);
const color = name => { pen.fillStyle = colors[name]; pen.fillRect(3, 119, 1, 1); return [...pen.getImageData(3, 119, 1, 1).data].join(); };
const data = pen.getImageData(1, 0, 1, 115).data, wanted = { fired: color("fired"), stale: color("stale") }, out = { fired: 0, stale: 0 };
for (let i = 0; i < data.length; i += 4) for (const name in wanted) if (data.slice(i, i + 4).join() === wanted[name]) out[name]++;
return [out.fired, out.stale];
"""


def try_shares(tries: Tries, browser: Browser) -> None:
    browser.open()
    for fired, stale, least, most in [(999, 1, 1, 2), (90, 10, 9, 11), (50, 50, 49, 51), (0, 7, 100, 100)]:
        found = browser.run(SHARES, fired, stale)
        tries.claim(f"{stale} stale fires of {fired + stale} take their share of a column: {found}", least <= found[1] <= most and 98 <= sum(found) <= 101, found)


PARTS = {name[4:].replace("_", " "): run for name, run in list(globals().items()) if name.startswith("try_")}
