"""Tests of what the page says of calls.

They cover moves, reads, stale fires, clashes, wrong answers, and strange values.
"""

from browser import Browser
from journal import CAUSES, Fired, Read, Stale
from samples import example, journal_of, strange, wrong
from selenium.webdriver.common.keys import Keys
from showing import HISTORY, numbers
from tries import Tries


def try_moves(tries: Tries, browser: Browser) -> None:
    """What is said of a fired move and of a read."""
    browser.load(tries.trace("warehouse", HISTORY))
    changed = browser.run("return shown.run.events.filter(it => it.writes?.some(it => it.items?.length)).map(it => it.number)")
    browser.slide(changed[-1] + 1)
    detail = browser.text("detail")
    tries.claim("a fired move says what it changed", all(it in detail for it in ("What it changed", "Old → new", "What it depends on", "Instructions")), detail)
    tries.claim("added and removed elements are marked", browser.all("#detail .item.added, #detail .item.removed, #detail .count.up, #detail .count.down"))
    reading = [it for it, event in enumerate(HISTORY.events) if isinstance(event.call, Read)][-1]
    browser.slide(reading + 1)
    tries.has("a read shows the values and who wrote them", browser.text("detail"), "Last written by")
    browser.run("document.querySelector('#detail .location').click()")
    browser.frame()
    tries.claim("a location in it leads to its writes", browser.find("writes-pane").is_displayed())
    browser.run("document.querySelector('#detail .link').click()")
    browser.frame()
    tries.has("a move in it leads to that move", browser.title(), "move ")
    put = [["put", ["x"], 1]]
    browser.load(tries.trace("full", journal_of((0, {"fire": put, "reads": []}, {"fired": 1}), (1, {"fire": put, "reads": []}, "full"), capacity=1)))
    browser.press(Keys.END)
    tries.has("a full storage says its capacity", browser.text("detail"), "as many moves were fired as the capacity, 1.")


def try_stale(tries: Tries, browser: Browser) -> None:
    browser.load(tries.trace("warehouse", HISTORY))
    stale = numbers(Stale)[0]
    browser.slide(stale + 1)
    reply, call = HISTORY.events[stale].reply, HISTORY.events[stale].call
    seen = min(it for at, it in call.reads if at == reply.at)
    later = [HISTORY.events[it].reply.number for it in numbers(Fired) if it < stale and any(at == reply.at for at, _ in HISTORY.events[it].call.move)]
    writer = min(it for it in later if it > seen)
    tries.has("a stale fire says which move wrote the location since", browser.text("detail"), f"Since then move {writer} by agent")
    tries.has("and what that move did", browser.text("detail"), f"What move {writer} did: ")
    tries.has("and which of its reads are unchanged", browser.text("detail"), f"move {writer} wrote it")
    tries.shot(browser, "stale")


# A clash of each cause, on an old value, with its report.
CLASHES = [
    ("Two", None, [["put", ["x"], 1], ["put", ["x"], 2], ["add", ["x"], 3]], "They are 1 and 2."),
    ("Mixed", {"set": [1]}, [["add", ["x"], 2], ["bagadd", ["x"], "e", 1]], "two families"),
    ("Kind", 7, [["add", ["x"], 1]], "Before the move it held 7 (opening state)."),
    ("Both", {"set": []}, [["add", ["x"], 4], ["add", ["x"], 5], ["remove", ["x"], 5]], "It is 5."),
    ("Against", {"set": []}, [["put", ["x"], {"set": [1, 2]}], ["remove", ["x"], 2]], "The set that is put has 2, which is removed."),
    ("Against", {"set": []}, [["put", ["x"], {"set": [1, 2]}], ["add", ["x"], 3]], "The set that is put lacks 3, which is added."),
    ("Against", {"bag": []}, [["put", ["x"], {"bag": [["e", 1]]}], ["bagadd", ["x"], "e", 1]], "A bag that is put agrees with no partial update."),
    ("Against", 1, [["put", ["x"], 1], ["inc", ["x"], 1]], "A number that is put agrees with no increment."),
    ("Short", {"bag": [["e", 2]]}, [["bagremove", ["x"], "e", 1], ["bagremove", ["x"], "e", 2]], '3 of "e" are removed, and the bag has 2.'),
    ("Short", {"bag": [["e", 1]]}, [["bagremove", ["x"], "f", 1]], '1 of "f" are removed, and the bag has none.'),
    ("Large", {"bag": [["f", 2**32 - 1]]}, [["bagadd", ["x"], "f", 1]], 'Of "f" it would have 4294967296.'),
    ("Large", 2**63 - 1, [["inc", ["x"], 2], ["inc", ["x"], -1]], "It would be 9223372036854775808."),
]


def try_clashes(tries: Tries, browser: Browser) -> None:
    for cause, old, move, words in CLASHES:
        init = [[["x"], old], [["y"], 1]]
        fire = {"fire": [["put", ["y"], 2], *move], "reads": []}
        browser.load(tries.trace("clash", journal_of((1, fire, {"clash": [["x"], cause]}), init=init)))
        browser.press(Keys.END)
        detail = browser.text("detail")
        tries.claim(f"a clash {cause} says: {words}", browser.texts("#facts .legal") and f"Clash, {cause}: at x " in detail and words in detail, detail)
        tries.same("its instructions at that location are marked", len(browser.all("#detail .here")), len(move))
    tries.shot(browser, "clash")
    tries.same("each cause is tried", {it[0] for it in CLASHES}, set(CAUSES))


def try_wrong(tries: Tries, browser: Browser) -> None:
    browser.load(tries.trace("wrong", wrong()))
    tries.same("a run that isn't legal says so, and where", browser.texts("#facts .illegal"), ["not legal: 7 wrong answers, the first at event 2"])
    browser.run("document.querySelector('#facts .illegal').click()")
    browser.frame()
    tries.has("that leads to the first wrong answer", browser.title(), "Event 2 read")
    tries.same("both values are side by side", browser.texts("#detail td")[:4], ["x", "1", "2", "move 1 by agent 0"])
    sides = []
    for _ in range(6):
        browser.press("w")
        sides.append(tuple(browser.texts("#detail .side")))
    wanted = [
        ("fired as move 2", "stale at x"),
        ("full", "clash Two at x"),
        ("stale at s", "fired as move 3"),
        ("clash Two at x", "fired as move 3"),
        ("fired as move 9", "fired as move 3"),
        ("fired as move 4", "clash Two at x"),
    ]
    wanted = [(f"In the journal {words}", f"Right answer {right}") for words, right in wanted]
    tries.same("w goes along the wrong answers, each beside the right one", sides, wanted)
    tries.has("a clash that is reported as fired changes nothing", browser.text("detail"), "Nothing: the move clashes.")
    browser.press("w", shift=True)
    browser.slide(4)
    tries.has("a stale move that is reported as fired says why it is stale", browser.text("detail"), "x is named as it was in the opening state; the run has no read of it by agent 1. Since then move 1 by agent 0 has written it.")
    tries.shot(browser, "wrong")


def try_strange(tries: Tries, browser: Browser) -> None:
    browser.load(tries.trace("strange", strange()))
    browser.press(Keys.END, Keys.ARROW_LEFT)
    tries.same("texts that look like markup stay texts", (len(browser.all("main img, main script")), browser.run("return document.title")), (0, "strange.trace – Folugben"))
    cells = browser.run("return [...document.querySelectorAll('#state .row')].map(row => [row.children[0].title, row.children[1].title])")
    state = dict(cells)
    tag = '"</script><script>document.title=\\"run\\"</script><img src=x onerror=\\"document.title=1\\">"'
    tries.same("the text is whole", state["v(0)"], tag)
    tries.same("what can't be seen is spelled out", state["v(1)"], '"\\u2028\\u2029\\u0000\\t\\\\\\"\'`${1}"')
    tries.same("numbers of 64 bits keep each digit", [state[f"v({it})"] for it in (3, 4, 5, 6)], [str(2**63 - 1), str(-(2**63)), str(2**53 + 1), f"[[], undef, true, {2**62 + 1}]"])
    tries.same("in sets, bags and locations too", (state[f"n({tag}, {2**63 - 1})"], state["bag"]), (f"{{{2**53}, {2**53 + 1}, {tag}}}", f"{{{2**63 - 1} ×{2**32 - 1}}}"))
    tries.same("and in sums that a double can't hold", state["big"], str(2**53 + 1))
    tries.has("a change of such a number is exact", " ".join(browser.texts("#detail td")), f"{2**53} → {2**53 + 1} (+1)")
    browser.press(Keys.ARROW_RIGHT)
    tries.has("and so is a clash", browser.text("detail"), f"Before the move it held {2**53 + 1}")
    tries.same("nothing is reported on the console", browser.problems(), [])
    tries.shot(browser, "strange")


def try_examples(tries: Tries, browser: Browser) -> None:
    for name in ("bank_transfers", "grid_robots", "library_loans", "one_move", "stock_counter", "traffic_light"):
        history = example(name, 1)
        browser.load(tries.trace(name, history))
        browser.press(Keys.END)
        number = len(history.events) - 1
        tries.claim(f"the example {name} is shown to its last event", browser.title().startswith(f"Event {number} ") and browser.texts("#facts .legal") == ["legal, checked by this page"], browser.title())
