"""Tests of the trace of a window of a part.

Its events and moves have the numbers of the part, and nothing is made up of what was before.
"""

from audit import Window, trace_lines
from browser import Browser
from journal import Fired, History, write_journal
from samples import warehouse
from tries import Tries

COMPLETE = warehouse(5, 16, 3)
START, END = 40, 70
# The chosen event's moment: how many moves were fired up to it, and the state as the page shows it.
MOMENT = """
const { run, count } = shown;
return [run.movesIn(count), [...run.locations.values()].map(it => [it.key, JSON.stringify(run.valueAt(it, count))]).sort()];
"""


def window_of(history: History, start: int, end: int) -> bytes:
    return trace_lines(write_journal(history), Window(0, start, end)).encode()


def try_window(tries: Tries, browser: Browser) -> None:
    path = tries.file("window.trace", window_of(COMPLETE, START, END))
    browser.load(path)
    facts = browser.texts("#facts .fact")
    tries.claim("the facts say how many events the window has", f"{END - START} events" in facts, facts)
    tries.has("and of its place in the part", " ".join(facts), f"part 0 from event {START} on")
    tries.same("it is legal only as far as it shows", browser.texts("#facts .legal"), ["legal as far as the window shows, checked by this page"])
    browser.slide(0)
    tries.same("what was before its first event is named so", browser.title(), f"Before event {START}")
    browser.slide(1)
    tries.claim("its first event has the number that it has in the part", browser.title().startswith(f"Event {START} "), browser.title())
    fired = next(it for it in range(START, END) if isinstance(COMPLETE.events[it].reply, Fired))
    browser.slide(fired + 1 - START)
    tries.has("a move has its number in the part", browser.title(), f"move {COMPLETE.events[fired].reply.number}")
    browser.load(path, f"#event={END - 1}")
    tries.claim("an address leads to an event by its number in the part", browser.title().startswith(f"Event {END - 1} "), browser.title())
    tries.same("the console has no problem", browser.problems(), [])


def try_moments(tries: Tries, browser: Browser) -> None:
    """A moment of the window is the part's own."""
    found = []
    for name, text, start in (("whole", window_of(COMPLETE, 0, len(COMPLETE.events)), 0), ("window", window_of(COMPLETE, START, END), START)):
        browser.load(tries.file(f"{name}.trace", text))
        moments = []
        for call in range(START, END + 1):
            browser.slide(call - start)
            moves, state = browser.run(MOMENT)
            moments.append((moves, [it for it in state if it[1] != "null"]))
        found.append(moments)
    wrong = [START + at for at, (complete, window) in enumerate(zip(*found, strict=True)) if complete != window]
    tries.claim("moves and states are those of the part", not wrong, wrong)


def try_edges(tries: Tries, browser: Browser) -> None:
    browser.load(tries.file("empty.trace", window_of(COMPLETE, START, START)))
    tries.has("a window without an event says so", browser.text("detail"), "The window has no event")
    late = next(it for it in range(START, END) if isinstance(COMPLETE.events[it].reply, Fired) and COMPLETE.events[it].call.reads)
    browser.load(tries.file("late.trace", window_of(COMPLETE, late, late + 1)), f"#event={late}")
    tries.has("of a read before the window it says that the window has none", browser.text("detail"), "not read")
    tries.same("the console has no problem", browser.problems(), [])


PARTS = {"window": try_window, "window moments": try_moments, "window edges": try_edges}
