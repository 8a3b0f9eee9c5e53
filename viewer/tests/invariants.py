"""Tests of conditions as invariants.

They cover their words, their reports, the suggestions while they are written, and the line of their numbers.
"""

from asking import BUSY, DOOR, OPEN, PACKED, RICE, moments, stretches
from browser import Browser
from selenium.webdriver.common.keys import Keys
from tries import Tries

TEA = '["stock","tea"]'


def stocks(state: dict[str, object]) -> list[int]:
    return [value for place, value in state.items() if place.startswith('["stock"')]


def try_words(tries: Tries, browser: Browser) -> None:
    browser.load(tries.trace("busy", BUSY))
    for text, test in {
        'stock("rice") < 195 and door = "shut"': lambda it: it[RICE] < 195 and it[DOOR] == "shut",
        'stock("rice") < 190 or stock("tea") < 190': lambda it: it[RICE] < 190 or it[TEA] < 190,
        'not stock("rice") < 195': lambda it: it[RICE] >= 195,
        'not (stock("rice") < 195 or stock("tea") < 195)': lambda it: it[RICE] >= 195 and it[TEA] >= 195,
        'stock("rice") < stock("tea")': lambda it: it[RICE] < it[TEA],
        'stock("rice") = stock("tea")': lambda it: it[RICE] == it[TEA],
        "sum(stock(*)) < 1560": lambda it: sum(stocks(it)) < 1560,
        "min(stock(*)) < 190 and not max(stock(*)) < 200": lambda it: min(stocks(it)) < 190 and max(stocks(it)) >= 200,
        "count(order(*)) > 2": lambda it: sum(at.startswith('["order"') for at in it) > 2,
        'packed count "tea" > 1': lambda it: dict(it[PACKED]["bag"]).get("tea", 0) > 1,
        "open size > packed size": lambda it: len(it[OPEN]["set"]) > len(it[PACKED]["bag"]),
        "not stock(*) < 190": lambda it: min(stocks(it)) >= 190,
        "stock(*) < 190 and open size > 2": lambda it: min(stocks(it)) < 190 and len(it[OPEN]["set"]) > 2,
        "stock(*) > sold": lambda it: any(value > it['["sold"]'] for value in stocks(it)),
    }.items():
        tries.same(f"{text} holds where the model says so", browser.run("watch(arguments[0]); return [fault, shown.holds]", text), ["", stretches(BUSY, test)])
    low, high = (end(it[RICE] for it in moments(BUSY)) for end in (min, max))
    for text, words in {
        'stock("rice") < -9': f"Never: it was {low} to {high}.",
        'stock("rice")': f"It was {low} to {high}.",
        "stok(*) < 1": "No location of this run is called stok(*); did you mean stock?",
        "stock < 1": "No location of this run is called stock.",
        "x = 1 and y": "And joins two conditions.",
    }.items():
        browser.run("renewWatch(arguments[0]); showWatch()", text)
        tries.same(f"{text} is answered", browser.text("watch-result"), words)


def try_writing(tries: Tries, browser: Browser) -> None:
    browser.load(tries.trace("busy", BUSY))
    offered = lambda: browser.texts("#watch-words [role=option]")
    browser.press("v")
    browser.press("st")
    tries.claim("functions and locations of the run are offered", offered()[0] == "stock(*)" and 'stock("tea")' in browser.run("return namesOf(shown.run)"), offered())
    browser.press(Keys.ARROW_DOWN, Keys.ENTER)
    tries.same("Enter takes the one that is chosen", (browser.find("watch").get_attribute("value"), offered()), ("stock(*)", []))
    browser.press(" <")
    browser.wait_idle()
    tries.same("nothing is called wrong while it is written", (browser.text("watch-result"), browser.find("watch").get_attribute("aria-invalid")), ("", "false"))
    browser.press(Keys.ENTER)
    tries.claim("but behind Enter it is", "missing" in browser.text("watch-result") and browser.find("watch").get_attribute("aria-invalid") == "true", browser.text("watch-result"))
    browser.write("watch", "stock(*) <")
    browser.leave()
    browser.wait_idle()
    tries.claim("and where the field is left", "missing" in browser.text("watch-result"), browser.text("watch-result"))


def try_track(tries: Tries, browser: Browser) -> None:
    browser.load(tries.trace("busy", BUSY), "#at=%5B%22stock%22%2C%22rice%22%5D")
    series = lambda: [it[1] for it in browser.run("return shown.plot.series")]
    steps = [it[RICE] for it in moments(BUSY)]
    tries.same("the chosen location's numbers are drawn", (browser.find("track").is_displayed(), series()), (True, [it for i, it in enumerate(steps) if i == 0 or steps[i - 1] != it]))
    browser.run("renewWatch('sum(stock(*)) < 1590'); act.show()")
    browser.frame()
    sums = [sum(stocks(it)) for it in moments(BUSY)]
    tries.same("so are those of an expression", (browser.run("return shown.plot.text"), series()), ("sum(stock(*))", [it for i, it in enumerate(sums) if i == 0 or sums[i - 1] != it]))
    tries.same("the line has its least and its most", browser.run("return [shown.plot.least, shown.plot.most]"), [min(sums), max(sums)])
    colors = browser.run("act.draw(); return new Promise(done => requestAnimationFrame(() => requestAnimationFrame(() => { const it = document.getElementById('track'); done(new Set(new Uint32Array(it.getContext('2d').getImageData(0, 0, it.width, it.height).data.buffer)).size); })))")
    tries.claim("the picture is drawn", colors > 5, colors)
    tries.shot(browser, "track")
    browser.run("act.chooseLocation(shown.run.locations.get('[\"door\"]')); renewWatch(''); act.show()")
    browser.frame()
    tries.claim("where there is no number there is no picture", not browser.find("track").is_displayed())


PARTS = {name[4:].replace("_", " "): run for name, run in list(globals().items()) if name.startswith("try_")}
