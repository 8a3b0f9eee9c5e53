"""Tests that nothing is wrong or hidden.

They cover onsets, searches, changes within long lists, white space, windows, and a wrong file.
"""

from asking import BUSY, at, moments, stretches
from browser import Browser
from journal import Stale
from samples import journal_of
from selenium.webdriver.common.keys import Keys
from showing import HISTORY
from tries import Tries
from windows import COMPLETE, END, START, window_of

LISTED = "return Array.from({ length: listLength() }, (_, i) => listItem(i))"


def put(place: str, value: object) -> dict[str, object]:
    return {"fire": [["put", [place], value]], "reads": []}


def try_onsets(tries: Tries, browser: Browser) -> None:
    """A condition on several locations begins to hold at each of them separately."""
    browser.load(tries.trace("busy", BUSY))
    places = [it for it in moments(BUSY)[0] if it.startswith('["stock"')]
    below = lambda most: sorted((since, place) for place in places for since, _ in stretches(BUSY, at(place, lambda it: it < most)))
    most = next(it for it in range(150, 200) if len(below(it)) > 3)
    wanted = below(most)
    found = browser.run("renewWatch(arguments[0]); return shown.onsets.map(it => [it.count, it.place.key])", f"stock(*) < {most}")
    tries.same("the moments are those of each location", sorted(map(tuple, found)), wanted)
    browser.press(Keys.HOME)
    visited = []
    for number in range(len(wanted)):
        browser.press("n")
        visited.append(tuple(browser.run("return [shown.count, shown.onset.key]")))
        if number == 0:
            label = browser.run("return shown.onset.label")
            value = moments(BUSY)[visited[0][0]][visited[0][1]]
            tries.same("the location is named with its value", browser.text("watch-result"), f"{label} becomes {value} (1 of {len(wanted)}, at {len({it for _, it in wanted})} locations).")
            tries.same("its row is marked and in sight", browser.run("const it = document.querySelector('#state .row.onset'), box = document.getElementById('state').getBoundingClientRect(), row = it.getBoundingClientRect(); return row.top >= box.top && row.bottom <= box.bottom && it.innerText.split(/\\s/)[0]"), label)
    tries.same("n visits each of them", sorted(visited), wanted)
    both = journal_of((0, {"fire": [["put", ["s", 1], -1], ["put", ["s", 2], -2]], "reads": []}, {"fired": 1}), init=[[["s", 1], 1], [["s", 2], 2]])
    browser.load(tries.trace("both", both), "#if=s(*) < 0")
    browser.press("n")
    first = browser.text("watch-result")
    browser.press("n")
    tries.same("two moments of one event are two", (first, browser.text("watch-result")), ("s(1) becomes -1 (1 of 2, at 2 locations).", "s(2) becomes -2 (2 of 2, at 2 locations)."))


def try_terms(tries: Tries, browser: Browser) -> None:
    browser.load(tries.trace("warehouse", HISTORY))
    wanted = {
        "agent 1 stale": [it for it, event in enumerate(HISTORY.events) if event.agent == 1 and isinstance(event.reply, Stale)],
        "event 7": [7],
        "event 777": [],
        "move 5": [browser.run("return shown.run.moves[4]")],
        "move 5 agent 99": [],
    }
    for text, numbers in wanted.items():
        browser.write("events-find", text)
        tries.same(f"'{text}' finds these alone", browser.run(LISTED), numbers)
    texts = [put("x", 16), put("x", -16), put("x", 160), put("x", "a b"), put("x", "a  b"), put("x", "b a")]
    browser.load(tries.trace("terms", journal_of(*((0, it, {"fired": i + 1}) for i, it in enumerate(texts)))))
    for text, numbers in {"16": [0], "-16": [1], "160": [2], '"a b"': [3], '"a  b"': [4], "a b": [3, 4, 5]}.items():
        browser.write("events-find", text)
        tries.same(f"'{text}' finds a whole number or a phrase", browser.run(LISTED), numbers)


def try_lists(tries: Tries, browser: Browser) -> None:
    old, new = list(range(100)), [*range(60), -1, *range(61, 100)]
    longer = [*range(60), "x", *range(60, 100)]
    events = [(0, put("x", {"list": new}), {"fired": 1}), (0, put("x", {"list": old}), {"fired": 2}), (0, put("x", {"list": longer}), {"fired": 3})]
    history = journal_of(*events, (0, {"read": [["x"]]}, {"number": 3, "values": [{"list": old}]}), init=[[["x"], {"list": old}]])
    browser.load(tries.trace("lists", history), "#at=%5B%22x%22%5D")
    browser.press(Keys.ARROW_RIGHT)
    words = "list of 100 60 same [60]: 60 → -1"
    for where in ("#detail td:last-child", "#state .row [role=gridcell]:nth-child(2)", "#writes .row:nth-child(2)"):
        tries.has(f"a change within a long list is shown in {where.split()[0]}", " ".join(browser.texts(where)), words)
    tries.has("and in the list of events", browser.texts("#events .event")[0], "[60]: 60 → -1, list of 100")
    browser.press(Keys.ARROW_RIGHT, Keys.ARROW_RIGHT)
    tries.has("so is an item that is put in", " ".join(browser.texts("#detail td:last-child")), 'list of 101 60 same [60]: "x" 40 same')
    browser.slide(1)
    browser.leave()
    browser.press("m")
    browser.slide(3)
    tries.has("so is what differs between two moments", " ".join(browser.texts("#state .row")), '[60]: -1 "x"')
    browser.slide(4)
    tries.same("a wrong read of a list shows what differs", [it.split("x ", 1)[1] for it in browser.texts("#detail .side")], ["list of 100 60 same 40 same", 'list of 101 60 same [60]: "x" 40 same'])


def try_spaces(tries: Tries, browser: Browser) -> None:
    history = journal_of((0, put("x", "a  b"), {"fired": 1}), (0, put("y", "z" * 300), {"fired": 2}), init=[[["x"], "a b"], [["y"], {"list": []}]])
    browser.load(tries.trace("spaces", history))
    browser.press(Keys.ARROW_RIGHT)
    for where in ("#detail td .text", "#state .row .text"):
        wide = browser.run("return [...document.querySelectorAll(arguments[0])].slice(0, 2).map(it => it.getBoundingClientRect().width)", where)
        tries.claim(f"two spaces are wider than one in {where.split()[0]}", len(wide) == 2 and wide[1] > wide[0] + 3, wide)
    browser.press(Keys.ARROW_RIGHT)
    wide = browser.run("return document.querySelector('#state .row .old').getBoundingClientRect().width")
    tries.claim(f"a short old value keeps its room beside a long new one: {wide:.0f} px", wide > 12, wide)


def try_window_labels(tries: Tries, browser: Browser) -> None:
    late = next(it for it in range(START, END) if getattr(COMPLETE.events[it].call, "reads", None))
    browser.load(tries.file("late.trace", window_of(COMPLETE, late, late + 1)), f"#event={late}")
    tries.same("a window isn't called the whole run", browser.text("fit"), "Whole window")
    tries.has("what was read before it isn't called not read", browser.text("detail"), "not read in the window")


def try_retained(tries: Tries, browser: Browser) -> None:
    browser.load(tries.trace("warehouse", HISTORY), "#event=46")
    browser.choose_file(tries.file("refused", b"hello\n"))
    tries.same("a wrong file leaves the run that is shown", (browser.title()[:9], browser.text("name")), ("Event 46 ", "warehouse.trace"))
    tries.has("and that is said", browser.text("refused-reason"), "refused isn't shown. This is no trace")
    browser.click("refused-close")
    tries.claim("until that is closed", not browser.find("refused").is_displayed())
    browser.write("watch", 'stock("rice") < 199')
    browser.press(Keys.ESCAPE)
    tries.same("Esc leaves the condition as it is", (browser.find("watch").get_attribute("value"), browser.run("return document.activeElement.id")), ('stock("rice") < 199', ""))
    browser.press("g")
    browser.press("99999", Keys.ENTER)
    tries.same("a move above the last goes nowhere, and that is said", (browser.title()[:9], browser.text("toast")), ("Event 46 ", f"The last move is move {HISTORY.moves()}"))


PARTS = {name[4:].replace("_", " "): run for name, run in list(globals().items()) if name.startswith("try_")}
