"""Tests of what is copied from the page, and of what is printed."""

import base64
import json
import re

from asking import BUSY, moments
from browser import Browser
from journal import Fired, History, Stale
from samples import journal_of, warehouse, wrong
from script import read_script
from showing import HISTORY
from tries import Tries
from values import location_json, value_json


def read_clipboard(browser: Browser, name: str) -> str:
    browser.click(name)
    browser.until("return !document.getElementById('toast').hidden", 5)
    return browser.driver.execute_async_script("navigator.clipboard.readText().then(arguments[0], it => arguments[0](String(it)))")


def try_copying(tries: Tries, browser: Browser) -> None:
    browser.driver.execute_cdp_cmd("Browser.grantPermissions", {"permissions": ["clipboardReadWrite", "clipboardSanitizedWrite"]})
    path = tries.trace("warehouse", HISTORY)
    browser.load(path, "#event=60&at=%5B%22packed%22%5D&kind=fired")
    state = moments(HISTORY)[61]
    link = read_clipboard(browser, "link")
    tries.claim("a link to what is shown is copied", link.startswith("file://") and link.endswith("#event=60&at=%5B%22packed%22%5D&kind=fired"), link)
    tries.has("that is said", browser.text("toast"), "Copied: a link")
    browser.load(path, link[link.index("#"):])
    tries.has("and the link leads there", browser.title(), "Event 60 ")
    tries.same("a value is copied as JSON", json.loads(read_clipboard(browser, "writes-copy")), state['["packed"]'])
    init = read_clipboard(browser, "state-copy")
    script = read_script(f'{{"init":{init},"agents":[]}}'.encode())
    held = {json.dumps(location_json(place), separators=(",", ":")): value_json(value) for place, value in script.init.items()}
    tries.same("the state is copied as the init of a script, which is read as that state", held, state)
    browser.run("navigator.clipboard.writeText = () => Promise.reject(new Error('none'))")
    tries.same("where a page has no clipboard of its own it is copied still", json.loads(read_clipboard(browser, "writes-copy")), state['["packed"]'])


def large_move() -> History:
    """Return a move of 120 instructions at sets of 60 elements, which names 120 reads."""
    places = [["set", f"of a shelf {it}"] for it in range(120)]
    init = [[it, {"set": [f"good {number}" for number in range(10, 70)]}] for it in places]
    return journal_of((0, {"fire": [["add", it, "new good"] for it in places], "reads": [[it, 0] for it in places]}, {"fired": 1}), init=init)


def pages(browser: Browser) -> int:
    """Return how many A4 pages the print has."""
    printed = browser.driver.execute_cdp_cmd("Page.printToPDF", {"paperWidth": 8.27, "paperHeight": 11.69, "printBackground": True})
    return len(re.findall(rb"/Type\s*/Page\b(?!s)", base64.b64decode(printed["data"])))


PRINTED = """
const box = id => document.getElementById(id).getBoundingClientRect(), detail = document.querySelector("#detail .detail").getBoundingClientRect();
return [detail.height > 80, ...["time", "events-pane", "side", "help-open"].map(it => box(it).height === 0), getComputedStyle(document.documentElement).colorScheme];
"""


def try_printing(tries: Tries, browser: Browser) -> None:
    stale, fired = ([it for it, event in enumerate(BUSY.events) if isinstance(event.reply, kind)] for kind in (Stale, Fired))
    busy, large = tries.trace("busy", BUSY), tries.trace("large", warehouse(24, 8, 6))
    for what, path, part in [("the summary", busy, ""), ("the summary of many agents", large, ""), ("a stale fire", busy, f"#event={stale[0]}"), ("a move", busy, f"#event={fired[9]}&at=%5B%22packed%22%5D"), ("a wrong answer", tries.trace("wrong", wrong()), "#event=2"), ("a large move", tries.trace("move", large_move()), "#event=0")]:
        browser.load(path, part)
        tries.same(f"{what} is printed on one page", pages(browser), 1)
    browser.scheme("print")
    tries.same("the print has the event alone, in light colors", browser.run(PRINTED), [True] * 5 + ["light"])
    browser.scheme()


PARTS = {name[4:].replace("_", " "): run for name, run in list(globals().items()) if name.startswith("try_")}
