"""Tests of what a person does with a run that is shown."""

import time

from browser import IDLE, Browser
from journal import Clashed, Fired, Stale
from samples import warehouse
from selenium.webdriver.common.action_chains import ActionChains
from selenium.webdriver.common.keys import Keys
from tries import Tries

HISTORY = warehouse(5, 16, 3)
GUTTER = 72


def numbers(kind: type) -> list[int]:
    return [number for number, event in enumerate(HISTORY.events) if isinstance(event.reply, kind)]


def try_steps(tries: Tries, browser: Browser) -> None:
    browser.load(tries.trace("warehouse", HISTORY))
    last, fired, clashes, stale = len(HISTORY.events) - 1, numbers(Fired), numbers(Clashed), numbers(Stale)
    tries.has("the opening state comes first", browser.title(), "Opening state")
    tries.same("buttons back are off there", [browser.find(it).is_enabled() for it in ("first", "back", "move-back", "on")], [False, False, False, True])
    tries.shot(browser, "opening")
    for keys, shift, what, number in [
        ([Keys.ARROW_RIGHT], False, "right goes to the next event", 0),
        ([Keys.ARROW_RIGHT] * 3, False, "and on", 3),
        ([Keys.ARROW_LEFT], False, "left goes back", 2),
        ([Keys.ARROW_RIGHT], True, "with Shift to the next move", next(it for it in fired if it > 2)),
        (["c"], False, "c goes to the next clash", next(it for it in clashes if it > next(it for it in fired if it > 2))),
        (["s"], False, "s goes to the next stale fire", stale[0]),
        ([Keys.END], False, "End goes to the last event", last),
        (["c"], True, "Shift and c goes to the clash before", [it for it in clashes if it < last][-1]),
        (["g", "3", "1", Keys.ENTER], False, "g goes to a move by its number", fired[30]),
        ([Keys.ARROW_LEFT], True, "Shift and left goes to the move before", fired[29]),
    ]:
        browser.press(*keys, shift=shift)
        tries.claim(f"{what}: event {number}", browser.title().startswith(f"Event {number} "), browser.title())
    browser.press(Keys.HOME)
    tries.has("Home goes to the opening state", browser.title(), "Opening state")


def try_controls(tries: Tries, browser: Browser) -> None:
    browser.load(tries.trace("warehouse", HISTORY))
    last, fired = len(HISTORY.events) - 1, numbers(Fired)
    for name, number in [("on", 0), ("move-on", fired[0] if fired[0] > 0 else fired[1]), ("last", last), ("back", last - 1)]:
        browser.click(name)
        tries.claim(f"the button {name} goes to event {number}", browser.title().startswith(f"Event {number} "), browser.title())
    browser.slide(40)
    tries.has("the slider goes to any event", browser.title(), "Event 39")
    tries.has("and says which it is", browser.find("slider").get_attribute("aria-valuetext"), "Event 39, agent")
    browser.leave()
    browser.press("?")
    tries.claim("? shows the keys", browser.find("help").is_displayed())
    tries.shot(browser, "keys")
    browser.press(Keys.ESCAPE)
    tries.claim("Esc closes them", not browser.find("help").is_displayed())


def try_playing(tries: Tries, browser: Browser) -> None:
    browser.load(tries.trace("warehouse", HISTORY))
    browser.select("speed", "20")
    start = time.monotonic()
    browser.click("play")
    browser.until("return shown.count >= 4", 20)
    browser.click("play")
    most = 20 * (time.monotonic() - start) + 1
    count = int(browser.find("slider").get_attribute("value"))
    tries.claim("playing goes on by itself, at its speed, and pauses", 4 <= count <= most, (count, most))
    time.sleep(0.2)
    tries.same("it stays where it was paused", int(browser.find("slider").get_attribute("value")), count)
    browser.slide(len(HISTORY.events) - 1)
    browser.leave()
    browser.press(" ")
    browser.until("return !document.querySelector('#play.playing')", 5)
    browser.frame()
    tries.has("Space plays, and it ends with the last event", browser.title(), f"Event {len(HISTORY.events) - 1} ")


def try_lanes(tries: Tries, browser: Browser) -> None:
    browser.load(tries.trace("warehouse", HISTORY))
    lanes = browser.find("lanes")
    event = HISTORY.events[8]
    at = browser.run("lanes.scrollIntoView(); return [xOf(8), yOf(arguments[0])]", event.agent)
    size = lanes.size
    pointer = ActionChains(browser.driver).move_to_element_with_offset(lanes, round(at[0] - size["width"] / 2), round(at[1] - size["height"] / 2))
    pointer.perform()
    browser.frame()
    tries.has("an event in the lanes says what it is", browser.text("tip"), f"Event 8, agent {event.agent}: ")
    pointer.click().perform()
    browser.frame()
    tries.has("a click in the lanes chooses it", browser.title(), "Event 8 ")
    before = browser.run("return view.scale")
    browser.click("zoom-in")
    wider = browser.run("return view.scale")
    browser.click("fit")
    tries.same("zooming in and showing the whole run change the scale", (wider > before, browser.run("return view.from === 0 && seen() >= shown.run.events.length")), (True, True))
    browser.press(Keys.END)
    tries.claim("the chosen event is in sight", browser.run("return xOf(shown.count - 1) <= lanes.clientWidth"), browser.run("return xOf(shown.count - 1)"))
    strip = browser.find("strip")
    ActionChains(browser.driver).move_to_element_with_offset(strip, GUTTER // 2, 0).click().perform()
    browser.frame()
    number = int(browser.find("slider").get_attribute("value"))
    tries.claim("the middle of the strip leads to the middle of the run", abs(number - len(HISTORY.events) / 2) < 3, number)
    many = warehouse(256, 1, 5)
    browser.load(tries.trace("many", many), f"#event={len(many.events) - 1}")
    at = browser.run("const box = document.getElementById('lanes-box'), y = yOf(chosen().agent); return [box.scrollTop, y, box.scrollTop + box.clientHeight]")
    tries.claim("the chosen event's lane is in sight among 256", at[0] < at[1] < at[2], at)
    tries.claim("the lanes are drawn", browser.run("return new Set(lanes.getContext('2d').getImageData(0, 0, lanes.width, lanes.height).data).size > 20"))


def try_state(tries: Tries, browser: Browser) -> None:
    browser.load(tries.trace("warehouse", HISTORY))
    browser.slide(60)
    counts = []
    for which in ("held", "put", "all"):
        browser.select("state-which", which)
        counts.append(int(browser.find("state").get_attribute("aria-rowcount")) - 1)
    tries.claim("locations that hold undef, or into which nothing was put, are listed when they are asked for", counts[0] < counts[1] < counts[2], counts)
    browser.leave()
    browser.press("/")
    tries.same("/ goes to the search of locations", browser.run("return document.activeElement.id"), "state-find")
    browser.press("stock tea")
    tries.same("all words of it have to be there", [it.split(" ")[0] for it in browser.texts("#state .row")], ['stock("tea")'])
    browser.press(Keys.ENTER)
    tries.has("Enter shows its writes", browser.text("writes-title"), 'stock("tea")')
    browser.write("state-find", "no such")
    tries.has("a search without a find says so", browser.text("state"), "No location is called so")
    browser.write("state-find", "")
    browser.leave()
    browser.press(Keys.ESCAPE)
    tries.claim("Esc closes the writes", not browser.find("writes-pane").is_displayed())
    browser.run("document.getElementById('state').focus()")
    browser.press(Keys.ARROW_DOWN)
    tries.claim("down in the state chooses a location", browser.find("writes-pane").is_displayed())


def try_writes(tries: Tries, browser: Browser) -> None:
    browser.load(tries.trace("warehouse", HISTORY))
    times = browser.run("const it = shown.run.locations.get('[\"packed\"]'); act.chooseLocation(it); return it.times")
    browser.frame()
    tries.same("the writes of a location are counted", browser.text("writes-title"), f"packed {len(times)} writes")
    browser.press("]")
    tries.has("] goes to its next write", browser.title(), f"Event {times[0]} ")
    browser.press("]", "]", "[")
    tries.has("[ goes to the one before", browser.title(), f"Event {times[1]} ")
    tries.same("the row of now is marked", len(browser.all("#writes .now")), 1)
    browser.click("write-on")
    tries.has("so do the buttons", browser.title(), f"Event {times[2]} ")
    browser.click("writes-reads")
    tries.claim("reads too are listed", browser.run("return writes.rows.count()") > len(times) + 1)
    browser.click("writes-reads")
    browser.run("document.querySelector('#writes .row').click()")
    browser.frame()
    tries.has("its opening value leads to the opening state", browser.title(), "Opening state")
    browser.run("document.getElementById('writes').focus()")
    browser.press(Keys.ARROW_DOWN, Keys.ARROW_DOWN)
    tries.has("down goes along the writes", browser.title(), f"Event {times[1]} ")
    tries.shot(browser, "writes")


def try_search(tries: Tries, browser: Browser) -> None:
    browser.load(tries.trace("warehouse", HISTORY))
    clashes = numbers(Clashed)
    browser.run("document.querySelector('#kinds [title^=Clashes]').click()")
    browser.frame()
    tries.same("the list shows one kind alone", len(browser.all("#events .event")), len(clashes))
    tries.same("and says of how many", browser.text("events-count"), f"{len(clashes)} of {len(HISTORY.events)}")
    agent = HISTORY.events[clashes[0]].agent
    browser.select("events-agent", str(agent))
    tries.same("of one agent alone", len(browser.all("#events .event")), sum(HISTORY.events[it].agent == agent for it in clashes))
    browser.run("document.querySelector('#kinds [title^=All]').click()")
    browser.select("events-agent", "all")
    browser.leave()
    browser.press("e")
    browser.press("clash short packed")
    wanted = [it for it in clashes if HISTORY.events[it].reply.cause == "Short"]
    tries.same("a search finds events by what they show", [int(it.split(" ")[0]) for it in browser.texts("#events .number")], wanted)
    browser.write("events-find", 'put "rice"')
    tries.claim("and by values", 0 < int(browser.text("events-count").split(" ")[0]) < len(HISTORY.events), browser.text("events-count"))
    browser.write("events-find", "no such")
    tries.has("a search without a find says so", browser.text("events"), "No event is as asked for")
    browser.write("events-find", "")
    browser.run("document.getElementById('events').focus()")
    browser.press(Keys.ARROW_DOWN, Keys.ARROW_DOWN)
    tries.has("down goes along the list", browser.title(), "Event 1 ")
    row = browser.find("events").get_attribute("aria-activedescendant")
    tries.same("a reader of the screen hears the row", row, "event-1")
    time.sleep(IDLE)
    tries.has("and the choice is spoken", browser.find("spoken").get_attribute("textContent"), "Event 1, agent")
