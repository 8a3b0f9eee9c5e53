"""Tests of the ways between related events, and of the differences of two moments."""

from asking import BUSY, moments
from browser import Browser
from journal import Clashed, Fire, Fired, History, Read, Stale
from selenium.webdriver.common.keys import Keys
from tries import Tries


def of_agent(history: History, number: int, kind: type, by: int) -> int | None:
    """Return the closest event of the same agent with such a call."""
    agent, it = history.events[number].agent, number + by
    while 0 <= it < len(history.events):
        if history.events[it].agent == agent and isinstance(history.events[it].call, kind):
            return it
        it += by
    return None


def stale_fires_of_moves(history: History) -> dict[int, list[int]]:
    """Return the stale fires caused by each fired move, by their event numbers."""
    out: dict[int, list[int]] = {}
    for number, event in enumerate(history.events):
        if not isinstance(event.reply, Stale):
            continue
        seen = min(it for place, it in event.call.reads if place == event.reply.at)
        writers = [it for it in range(number) if isinstance(history.events[it].reply, Fired) and history.events[it].reply.number > seen
                   and any(place == event.reply.at for place, _ in history.events[it].call.move)]
        out.setdefault(writers[0], []).append(number)
    return out


def try_chains(tries: Tries, browser: Browser) -> None:
    browser.load(tries.trace("busy", BUSY))
    stale = [it for it, event in enumerate(BUSY.events) if isinstance(event.reply, Stale)]
    missed = []
    for number in stale[:8]:
        read, retry = of_agent(BUSY, number, Read, -1), of_agent(BUSY, number, Fire, 1)
        found = []
        for keys in [("r", False), ("t", False), ("t", True)]:
            browser.slide(number + 1 if keys != ("t", True) else retry + 1)
            browser.leave()
            browser.press(keys[0], shift=keys[1])
            found.append(browser.run("return shown.count - 1"))
        if found != [read, retry, number]:
            missed.append((number, found, [read, retry, number]))
    tries.claim("from a stale fire r leads to its read, t to its retry, and Shift and t back", not missed, missed)
    browser.slide(stale[0] + 1)
    retry = of_agent(BUSY, stale[0], Fire, 1)
    tries.has("the event names its retry", browser.text("detail"), f"Tried again in event {retry}: ")
    browser.slide(retry + 1)
    tries.has("which says what it tries again", browser.text("detail"), f"Tries event {stale[0]} again, which was stale at ")
    made = stale_fires_of_moves(BUSY)
    pairs = browser.run("return shown.run.events.filter(it => it.writes).map(it => [it.number, firesMadeStale(it).map(at => at.number)]).filter(it => it[1].length)")
    tries.same("each move leads to all that it made stale", {number: them for number, them in pairs}, made)
    number, them = max(made.items(), key=lambda it: len(it[1]))
    browser.slide(number + 1)
    tries.has("the event names them", browser.text("detail"), f"Made {len(them)} fire{'s' if len(them) > 1 else ''} stale: event {them[0]} of agent {BUSY.events[them[0]].agent}")
    browser.run("[...document.querySelectorAll('#detail .link')].find(it => it.textContent === `event ${arguments[0]}`).click()", them[0])
    browser.frame()
    tries.has("and leads there", browser.title(), f"Event {them[0]} stale")
    tries.shot(browser, "chain")
    browser.leave()
    browser.press("a")
    mine = [it for it, event in enumerate(BUSY.events) if event.agent == BUSY.events[them[0]].agent]
    at = mine.index(them[0])
    tries.has("a goes to the agent's next event", browser.title(), f"Event {mine[at + 1]} ")
    browser.press("a", "a", shift=True)
    tries.has("with Shift to the one before", browser.title(), f"Event {mine[at - 1]} ")
    browser.press("z")
    tries.has("z goes to its last event in the run", browser.title(), f"Event {mine[-1]} ")
    browser.press("z", shift=True)
    tries.has("with Shift to its first", browser.title(), f"Event {mine[0]} ")
    browser.press(Keys.HOME, "a")
    tries.same("where no event is chosen that is said", browser.text("toast"), "No event is chosen")
    clash = next(it for it, event in enumerate(BUSY.events) if isinstance(event.reply, Clashed))
    browser.slide(clash + 1)
    browser.press("t")
    tries.same("so it is where there is no such event", browser.text("toast"), "The event has no later try")


def try_between(tries: Tries, browser: Browser) -> None:
    browser.load(tries.trace("busy", BUSY))
    states = moments(BUSY)
    listed = "return Object.fromEntries(rows.map(it => [it.key, [valueAtEnd(0, it), valueAtEnd(1, it)]])); function valueAtEnd(i, it) { return shown.run.valueAt(it, ends()[i]); }"
    for first, second in [(20, 60), (90, 31), (0, len(BUSY.events)), (40, 40)]:
        browser.slide(first)
        browser.leave()
        browser.press("m")
        browser.slide(second)
        low, high = states[min(first, second)], states[max(first, second)]
        wanted = {it: [low.get(it), high.get(it)] for it in {*low, *high} if low.get(it) != high.get(it)}
        tries.same(f"between the moments {first} and {second} that is listed which differs", browser.run(listed), wanted)
        browser.leave()
        browser.press("m")
    browser.slide(20)
    browser.click("state-compare")
    browser.slide(60)
    name = lambda number: f"Move {BUSY.events[number].reply.number}" if isinstance(BUSY.events[number].reply, Fired) else f"Event {number}"
    first, second = name(19), name(59)
    tries.has("the moments are named", browser.text("state-title"), f"{first} → {second.removeprefix('Move ') if first[0] == 'M' == second[0] else second}")
    changed = browser.run("return [...document.querySelectorAll('#state .row')].map(it => it.children[1].innerText).filter(it => it.includes('→') || it.includes('new') || it.includes('gone'))")
    tries.claim("the rows show the old value and the new", len(changed) > 3, changed)
    tries.shot(browser, "between")
    browser.leave()
    browser.press(Keys.ESCAPE)
    tries.has("Esc ends it", browser.text("state-title"), "After move")


PARTS = {name[4:].replace("_", " "): run for name, run in list(globals().items()) if name.startswith("try_")}

