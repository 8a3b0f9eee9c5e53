"""Tests that nothing on the page misleads.

They cover what was read, differences, signs, long values, ways back, keys, and zoom.
"""

from browser import Browser
from journal import Clashed, Fire, Stale
from samples import journal_of, warehouse, wrong
from selenium.webdriver.common.keys import Keys
from showing import HISTORY, numbers
from tries import Tries

STRUCK = "return [...document.querySelectorAll('#main *')].filter(it => getComputedStyle(it).textDecorationLine.includes('line-through')).map(it => it.textContent)"
PUT = {"fire": [["put", ["x"], 2]], "reads": []}
NAMES = {"fire": [["put", ["y"], 1]], "reads": [[["x"], 0]]}


def try_names_in_texts(tries: Tries, browser: Browser) -> None:
    init = [[["x"], 1]]
    browser.load(tries.trace("named", journal_of((0, PUT, {"fired": 1}), (1, NAMES, {"stale": ["x"]}), init=init)))
    browser.press(Keys.END)
    detail = browser.text("detail")
    tries.has("what was named and not read isn't called read", detail, "Stale: x is named as it was in the opening state; the run has no read of it by agent 1.")
    tries.has("nor is it in the table", detail, "x opening state not read 1 move 1 wrote it")
    read = {"read": [["x"]]}
    browser.load(tries.trace("read", journal_of((1, read, {"number": 0, "values": [1]}), (0, PUT, {"fired": 1}), (1, NAMES, {"stale": ["x"]}), init=init)))
    browser.press(Keys.END)
    tries.has("what was read is, with the read", browser.text("detail"), "Stale: x was read in the opening state, in event 0.")


def try_differences(tries: Tries, browser: Browser) -> None:
    init = [[["s"], {"set": [1, 2, *range(20, 60)]}], [["x"], 16], [["b"], {"bag": [["e", 2]]}]]
    read = {"read": [["s"], ["x"], ["b"]]}
    values = [{"set": [1, 9, *range(20, 60)]}, -16, {"bag": [["e", 3]]}]
    browser.load(tries.trace("apart", journal_of((0, read, {"number": 0, "values": values}), (0, {"read": [["x"]]}, {"number": 1, "values": [16]}), init=init)))
    browser.press(Keys.ARROW_RIGHT)
    sides = ["In the journal s has 9, lacks 2 x -16 b has \"e\" ×3", "Right answer s has 2, lacks 9 x 16 b has \"e\" ×2"]
    tries.same("of a wrong read both sides show what differs, of a set its items", browser.texts("#detail .side"), sides)
    browser.press(Keys.ARROW_RIGHT)
    tries.same("a wrong number is shown where the values are right", browser.texts("#detail .side"), ["In the journal read after 1 move", "Right answer read in the opening state"])


def try_signs(tries: Tries, browser: Browser) -> None:
    fires = [{"fire": [["put", ["x"], value], ["remove", ["s"], value]], "reads": []} for value in (16, -16)]
    browser.load(tries.trace("signs", journal_of((0, fires[0], {"fired": 1}), (0, fires[1], {"fired": 2}), init=[[["x"], -16], [["s"], {"set": [-16, 16]}]])), "#at=%5B%22x%22%5D")
    browser.press(Keys.END, Keys.ARROW_LEFT)
    tries.has("an old number keeps its sign", " ".join(browser.texts("#detail td")), "-16 → 16 (+32)")
    tries.same("a removed element is no negative number", browser.texts("#detail .item.removed"), ["16"])
    struck = []
    browser.press(Keys.ARROW_RIGHT)
    struck += browser.run(STRUCK)
    browser.load(tries.trace("wrong", wrong()), "#event=2")
    tries.same("no value is struck through", struck + browser.run(STRUCK), [])


def try_long_values(tries: Tries, browser: Browser) -> None:
    old, new = "a" * 4000 + "-old", "a" * 4000 + "-new"
    browser.load(tries.trace("long", journal_of((0, {"fire": [["put", ["x"], new]], "reads": []}, {"fired": 1}), init=[[["x"], old]])), "#at=%5B%22x%22%5D")
    browser.press(Keys.END)
    room = "return [...document.querySelectorAll(arguments[0])].map(it => it.getBoundingClientRect().width - Math.max(0, it.getBoundingClientRect().right - it.closest('.row').getBoundingClientRect().right))"
    for where in ("#state .new", "#writes .new"):
        seen = browser.run(room, where)
        tries.claim(f"a long old value leaves the new one room in {where.split()[0]}", len(seen) == 1 and seen[0] > 50, seen)
    words = browser.texts("#detail td .change")[0]
    tries.claim("both are shortened, and what differs is shown", len(words) < 500 and "-old" in words and "-new" in words and "more letters" in words, words)
    browser.run("document.querySelector('#detail .old .rest').click()")
    tries.claim("a press shows more", len(browser.texts("#detail td .change")[0]) > 2000)


def try_back(tries: Tries, browser: Browser) -> None:
    path = tries.trace("warehouse", HISTORY)
    browser.load(path)
    clashes, stale = numbers(Clashed), numbers(Stale)
    browser.press("c")
    browser.wait_idle()
    browser.press("s")
    browser.wait_idle()
    browser.press(Keys.ARROW_RIGHT, Keys.ARROW_RIGHT)
    browser.wait_idle()
    tries.has("steps go on from a jump", browser.title(), f"Event {stale[0] + 2} ")
    browser.go(-1)
    tries.has("Back goes to the jump before, not along the steps", browser.title(), f"Event {clashes[0]} ")
    browser.go(1)
    tries.has("and forward again", browser.title(), f"Event {stale[0] + 2} ")
    browser.run("document.querySelector('#kinds [title^=Clashes]').click()")
    browser.write("events-find", "short")
    browser.leave()
    browser.run("act.chooseLocation(shown.run.locations.get('[\"packed\"]')); act.mark(9)")
    browser.run("const it = document.getElementById('watch'); it.value = 'packed size > 1'; it.dispatchEvent(new Event('input'))")
    browser.until("return location.hash.includes('if=')", 5)
    part = browser.run("return location.hash")
    tries.same("the address has the event, the place, the filter, the search, the condition and the moment that is kept",
               part, f"#event={stale[0] + 2}&at=%5B%22packed%22%5D&from=8&kind=clash&find=short&if=packed%20size%20%3E%201")
    browser.load(path, part)
    found = [browser.title()[:8], browser.text("writes-title")[:6], browser.find("events-find").get_attribute("value"), browser.find("watch").get_attribute("value"), browser.text("state-title")[:7]]
    tries.same("and leads to them", found, [f"Event {stale[0] + 2}", "packed", "short", "packed size > 1", f"Move {HISTORY.events[8].reply.number} "[:7]])
    tries.same("the list is filtered by it", len(browser.all("#events .event")), sum(HISTORY.events[it].reply.cause == "Short" for it in clashes))
    browser.run("location.hash = '#event=5'")
    browser.wait_idle()
    tries.same("an address that is written there is followed", (browser.title()[:8], browser.find("writes-pane").is_displayed(), browser.text("events-count")), ("Event 5 ", False, ""))
    browser.go(-1)
    tries.has("and Back from it", browser.title(), f"Event {stale[0] + 2} ")
    browser.problems()  # those of parts before
    browser.load(path, "#event=x&at=1&from=y&kind=toString&agent=length&of=9&cause=z&if=(")
    tries.same("what makes no sense in an address is left out", (browser.title(), browser.text("events-count"), browser.find("writes-pane").is_displayed(), browser.problems()), ("Opening state", "", False, []))


def try_enter(tries: Tries, browser: Browser) -> None:
    browser.load(tries.trace("warehouse", HISTORY))
    clashes = numbers(Clashed)
    browser.press("e")
    browser.press("clash", Keys.ENTER)
    tries.has("Enter in the search goes to the first that is found", browser.title(), f"Event {clashes[0]} ")
    browser.press(Keys.ENTER)
    tries.has("and on", browser.title(), f"Event {clashes[1]} ")
    browser.press(Keys.ENTER, shift=True)
    tries.has("with Shift back", browser.title(), f"Event {clashes[0]} ")
    tries.same("the focus stays in the search", browser.run("return document.activeElement.id"), "events-find")
    browser.write("state-find", "stock")
    browser.press(Keys.ENTER, Keys.ENTER)
    tries.has("in the search of locations it goes along them", browser.text("writes-title"), 'stock("coffee")')


def try_filter_keys(tries: Tries, browser: Browser) -> None:
    browser.load(tries.trace("warehouse", HISTORY))
    clashes = numbers(Clashed)
    browser.run("document.querySelector('#kinds [title^=Clashes]').click(); document.activeElement.blur()")
    browser.press(Keys.ARROW_RIGHT, Keys.ARROW_RIGHT)
    tries.has("with a filter the next event is the next that is listed", browser.title(), f"Event {clashes[1]} ")
    browser.press("s")
    tries.has("a key for what isn't listed stays", browser.title(), f"Event {clashes[1]} ")
    tries.same("and says so to all", (browser.text("toast"), browser.find("spoken").get_attribute("textContent")), ("No later stale fire among those listed",) * 2)
    browser.press(Keys.END)
    tries.has("End goes to the last that is listed", browser.title(), f"Event {clashes[-1]} ")
    tries.same("there is no next one", (browser.find("on").is_enabled(), browser.find("back").is_enabled()), (False, True))
    browser.press("g", "1", Keys.ENTER)
    tries.has("what is asked for by its number may be outside, and that is said", browser.text("events-pane"), "The chosen event isn't listed.")
    browser.press("x")
    tries.same("x lists all again", (browser.text("events-count"), browser.find("events-off").is_displayed()), ("", False))


def try_zoom(tries: Tries, browser: Browser) -> None:
    browser.load(tries.trace("busy", warehouse(4, 40, 9)), "#event=20")
    browser.press("0")
    hidden_events = []
    for key in "++++---+++0++":
        browser.press(key)
        x, wide = browser.run("return [xOf(shown.count - 1), lanes.clientWidth]")
        if not 72 <= x <= wide:
            hidden_events.append((key, x, wide))
    tries.same("no zoom loses the chosen event", hidden_events, [])


def try_messages(tries: Tries, browser: Browser) -> None:
    browser.load(tries.trace("warehouse", HISTORY), "#event=60")
    current = "const it = document.getElementById(document.getElementById(arguments[0]).getAttribute('aria-activedescendant')); return it && [it.getAttribute('role'), it.getAttribute('aria-selected'), it.innerText]"
    browser.run("document.getElementById('state').focus()")
    rows = []
    for _ in range(3):
        browser.press(Keys.ARROW_DOWN)
        rows.append(browser.run(current, "state"))
    tries.claim("a reader of the screen hears each row of the state", all(it and it[:2] == ["row", "true"] for it in rows) and len({it[2] for it in rows}) == 3, rows)
    browser.run("act.chooseLocation(shown.run.locations.get('[\"packed\"]')); document.getElementById('writes').focus()")
    browser.press(Keys.ARROW_UP)
    rows = [browser.run(current, "writes")]
    browser.press(Keys.ARROW_UP)
    rows.append(browser.run(current, "writes"))
    tries.claim("and each row of the writes", all(it and it[:2] == ["option", "true"] for it in rows) and rows[0] != rows[1], rows)
    count = browser.run("const it = document.querySelector('#writes .now'); return [it.getAttribute('aria-posinset'), it.getAttribute('aria-setsize')]")
    tries.claim("with its place among them", 0 < int(count[0]) < int(count[1]), count)


def try_narrow(tries: Tries, browser: Browser) -> None:
    browser.resize(700, 900)
    last = next(it for it in reversed(range(len(HISTORY.events))) if isinstance(HISTORY.events[it].call, Fire))
    browser.load(tries.trace("warehouse", HISTORY), f"#event={last}")
    browser.run("scrollTo(0, 0); document.querySelector('#detail .location').click()")
    browser.frame()
    box = browser.run("const it = document.getElementById('writes-pane').getBoundingClientRect(); return [it.top, it.bottom, innerHeight, scrollY]")
    tries.claim("at 700 pixels the writes of a location that is pressed come into sight", 0 <= box[0] and box[1] <= box[2] + 1 and box[3] > 0, box)
    browser.press(Keys.ESCAPE)
    tries.same("Esc goes back to where that was", browser.run("return scrollY"), 0)
    browser.restore()


PARTS = {name[4:].replace("_", " "): run for name, run in list(globals().items()) if name.startswith("try_")}
