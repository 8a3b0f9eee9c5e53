"""Tests that there is room on the page.

They cover rows in sight, lanes that fold and are dragged, rows that show values, and states without what isn't put.
"""

import gzip

from asking import OPEN, RICE, moments
from browser import Browser
from samples import journal_of, warehouse, write_trace
from selenium.webdriver.common.action_chains import ActionChains
from selenium.webdriver.common.keys import Keys
from showing import HISTORY
from tries import Tries

CARTS = '["carts"]'
# How many rows of a list are completely in sight.
VISIBLE_ROWS = """
const box = document.getElementById(arguments[0]), rows = box.querySelector(".rows").getBoundingClientRect(), to = Math.min(innerHeight, box.getBoundingClientRect().bottom);
const from = Math.max(box.getBoundingClientRect().top, box.querySelector(".heads")?.getBoundingClientRect().bottom ?? 0);
return [...box.querySelectorAll(".row")].map(it => it.getBoundingClientRect()).filter(it => it.top >= from - 1 && it.bottom <= to + 1).length;
"""
HIGH = "return document.getElementById('lanes-box').getBoundingClientRect().height"


# The facts without a title, and those of two lines; at how many places the bars of one list begin; tables and regions, of which none may
# lack a name or have that of another one in sight.
FIRST_SCREEN = """
const facts = [...document.querySelectorAll("#facts .fact")], seen = it => it.checkVisibility();
const named = [...document.querySelectorAll("table, [role=grid], section.card, [role=region], [role=listbox]")].filter(seen).map(it => it.getAttribute("aria-label"));
return {
  untitled: facts.filter(it => !it.title).map(it => it.innerText), tall: facts.filter(it => it.getClientRects().length > 1 || it.offsetHeight > 30).length,
  bars: [...document.querySelectorAll("#detail .lines")].map(list => new Set([...list.querySelectorAll(".share")].map(it => it.getBoundingClientRect().left)).size), unnamed: named.filter(it => !it).length,
  twice: named.filter((it, i) => named.indexOf(it) !== i), words: [...document.querySelectorAll(".chip .word-of")].filter(seen).length,
};
"""


def try_first_screen(tries: Tries, browser: Browser) -> None:
    trace = write_trace(warehouse(8, 60, 3))
    browser.load(tries.file("packed.trace.gz", gzip.compress(trace)))
    tries.same("a trace that gzip has made smaller is opened", (browser.text("name"), browser.texts("#facts .fact")[1]), ("packed.trace.gz", "719 events"))
    found = browser.run(FIRST_SCREEN)
    tries.same("each fact has a title and one line", (found["untitled"], found["tall"]), ([], 0))
    tries.claim("in each list of the summary the bars begin at one place", len(found["bars"]) >= 4 and set(found["bars"]) == {1}, found["bars"])
    tries.same("no two regions or tables have one name, and none has none", (found["twice"], found["unnamed"]), ([], 0))
    browser.resize(1920, 1080)
    browser.frame()
    tries.claim("where there is room for words, the choices have them", browser.run(FIRST_SCREEN)["words"] >= 4, browser.run(FIRST_SCREEN)["words"])
    browser.restore()
    browser.press("?")
    help_at = browser.run("const it = document.getElementById('help'), tops = [...it.querySelectorAll('dl > div')].map(row => row.getBoundingClientRect().left); return [it.scrollTop, new Set(tops).size]")
    tries.same("the keys are shown from the top, in two columns", help_at, [0, 1 if browser.size[0] < 800 else 2])
    browser.press(Keys.ESCAPE)
    browser.click("link")
    if browser.size[0] < 800:  # if the page is longer than the window, what is said covers the end of it
        return
    covered = browser.run("""const box = document.getElementById("toast").getBoundingClientRect(), below = document.elementsFromPoint(box.left + box.width / 2, box.top + box.height / 2).filter(it => !it.contains(document.getElementById("toast")) && it.id !== "toast");
      return [box.width > 0, below.filter(it => !it.matches("html, body")).map(it => it.id || it.className)]""")
    tries.same("what is said covers nothing", covered, [True, []])


def try_rows(tries: Tries, browser: Browser) -> None:
    browser.resize(1280, 720)
    for name, history in {"5 agents": HISTORY, "16 agents": warehouse(16, 8, 4)}.items():
        for part in ("", "#event=60", "#event=60&at=%5B%22packed%22%5D", "#event=60&at=%5B%22packed%22%5D&kind=fired&agent=1&if=packed%20size%20%3E%201"):
            browser.load(tries.trace("room", history), part)
            found = [browser.run(VISIBLE_ROWS, it) for it in ("events", "state", "writes")]
            least = (5, 6, 4) if "if=" in part else (8, 7, 4) if "at=" in part else (8, 8, 0)
            tries.claim(f"at 1280x720 with {name} and {part or 'nothing chosen'}, rows of events, of state and of writes: {found}", all(a >= b for a, b in zip(found, least)), (found, least))
    tries.shot(browser, "room")
    browser.restore()


def try_zoom(tries: Tries, browser: Browser) -> None:
    """What a fire depends on is completely visible if the page is made twice as large."""
    place = ["a_location_with_a_long_name", "and a long argument"]
    fire = lambda value, number: {"fire": [["put", place, value]], "reads": [[place, number]]}
    history = journal_of((0, fire("a text that is some words long", 0), {"fired": 1}), (1, {"read": [place]}, {"number": 1, "values": ["a text that is some words long"]}), (0, fire(2, 1), {"fired": 2}), (1, fire(3, 1), {"stale": place}))
    for size in ((720, 450), (640, 360), (600, 400)):
        browser.resize(*size, scale=2)
        browser.load(tries.trace("zoomed", history), "#event=3")
        tries.has("since then", browser.text("detail"), "move 2 wrote it")
        cut = browser.run("const it = document.getElementById('detail'); return [it.scrollWidth - it.clientWidth, ...[...it.querySelectorAll('td, th')].map(cell => cell.scrollWidth - cell.clientWidth)]")
        tries.claim(f"nothing is cut at 200 % in {2 * size[0]}x{2 * size[1]} pixels", max(cut) <= 0, cut)
    tries.shot(browser, "zoom")
    browser.restore()


def try_folding(tries: Tries, browser: Browser) -> None:
    browser.load(tries.trace("warehouse", HISTORY), "#event=60")
    before = browser.run(HIGH)
    browser.press("l")
    tries.same("l folds the lanes", (browser.find("lanes-box").is_displayed(), browser.find("fold").get_attribute("aria-expanded")), (False, "false"))
    browser.press(Keys.ARROW_RIGHT)
    browser.click("zoom-in")
    tries.claim("the page goes on without them", browser.title().startswith("Event 61 ") and browser.run("return seen() > 1"), browser.title())
    browser.click("fold")
    tries.same("a button unfolds them", browser.run(HIGH), before)
    browser.run("document.getElementById('grip').focus()")
    browser.press(Keys.ARROW_UP)
    lower = browser.run(HIGH)
    browser.press(Keys.ARROW_DOWN, Keys.ARROW_DOWN)
    tries.claim("keys give them less room and more", lower < before <= browser.run(HIGH), (lower, before, browser.run(HIGH)))
    tries.same("the height is said", int(browser.find("grip").get_attribute("aria-valuenow")) > 0, True)
    lower = browser.run(HIGH)
    ActionChains(browser.driver).drag_and_drop_by_offset(browser.find("grip"), 0, -30).perform()
    browser.frame()
    dragged = browser.run(HIGH)
    tries.claim("so does dragging", dragged < lower, (dragged, lower))
    browser.load(tries.room / "warehouse.trace")
    tries.same("the room stays so when the page is opened again", browser.run(HIGH), dragged)
    browser.run("localStorage.removeItem('folugben-lanes')")
    browser.open()


def try_values(tries: Tries, browser: Browser) -> None:
    browser.load(tries.trace("warehouse", HISTORY))
    states = moments(HISTORY)
    moved = next(it for it in range(1, len(states)) if states[it][RICE] != states[it - 1][RICE])
    read = next(it for it, event in enumerate(HISTORY.events) if browser.run("return shown.run.events[arguments[0]].read?.[0].label", it) == 'stock("rice")')
    row = "act.choose(arguments[0] + 1); showNow(); return document.getElementById(`event-${arguments[0]}`).querySelector('.what').title"
    tries.has("a row shows the values that a move changed", browser.run(row, moved - 1), f'stock("rice") {states[moved - 1][RICE]} → {states[moved][RICE]}')
    tries.has("and those that were read", browser.run(row, read), f'stock("rice") {states[read][RICE]}')
    stale = browser.run("return shown.run.byKind.stale[0]")
    tries.claim("and of a stale fire the value that it depends on, and the one that is there", " → " in browser.run(row, stale), browser.run(row, stale))
    opened = next(it for it in range(1, len(states)) if len(states[it][OPEN]["set"]) > len(states[it - 1][OPEN]["set"]))
    tries.has("and of a set what is new and its size", browser.run(row, opened - 1), f"added, set of {len(states[opened][OPEN]['set'])}")
    first = browser.run("return [...document.querySelectorAll('#state .row')].find(it => it.children[0].innerText === 'open')?.querySelector('.item').className")
    tries.has("in the state what is new of it comes first", first or "", "added")
    browser.press(Keys.END)
    sizes = browser.run("return [...document.querySelectorAll('#state .row')].map(it => [it.children[0].innerText, it.querySelector('.kind')?.innerText])")
    tries.same("the state shows the sizes of sets and bags", [words for name, words in sizes if name in ("carts", "open")][:2],
               [f"bag of {len(states[-1][CARTS]['bag'])}", f"set of {len(states[-1][OPEN]['set'])}"])


def try_unput(tries: Tries, browser: Browser) -> None:
    browser.load(tries.trace("warehouse", HISTORY))
    states = moments(HISTORY)
    count = lambda: int(browser.find("state").get_attribute("aria-rowcount")) - 1
    tries.same("locations into which nothing was put don't fill the state", count(), len(states[0]))
    tries.has("how many there are is said", browser.text("state-title"), f"{len(states[0])} of {browser.run('return shown.run.sorted.length')}")
    browser.write("state-find", "order(")
    tries.same("a search finds them", count(), browser.run("return shown.run.sorted.filter(it => it.label.startsWith('order(')).length"))
    browser.write("state-find", "")
    browser.run("act.chooseLocation(shown.run.sorted.find(it => !it.isPutIn(0)))")
    browser.frame()
    tries.same("one that is chosen is there", count(), len(states[0]) + 1)


PARTS = {name[4:].replace("_", " "): run for name, run in list(globals().items()) if name.startswith("try_")}
