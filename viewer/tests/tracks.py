"""Tests of the lanes as the main instrument.

They cover their height and axes, dimming, chains of attempts, ranges, and the pictures that are saved.
"""

from xml.etree import ElementTree

from asking import BUSY
from browser import Browser
from following import of_agent
from journal import Fire, Fired, Read, Stale
from samples import journal_of, warehouse
from selenium.webdriver.common.action_chains import ActionChains
from selenium.webdriver.common.keys import Keys
from tries import Tries

PIXELS = """
const [id, color] = arguments, it = document.getElementById(id), pen = document.createElement("canvas").getContext("2d");
pen.fillStyle = colors[color];
pen.fillRect(0, 0, 1, 1);
const [r, g, b] = pen.getImageData(0, 0, 1, 1).data, data = it.getContext("2d").getImageData(0, 0, it.width, it.height).data;
let count = 0;
for (let i = 0; i < data.length; i += 4) if (data[i] === r && data[i + 1] === g && data[i + 2] === b) count++;
return count;
"""


def contention(tries: int) -> list[tuple[int, object, object]]:
    """Agent 1 attempts to raise x this often; agent 0 is faster except the last time."""
    out: list[tuple[int, object, object]] = []
    for number in range(tries):
        out.append((1, {"read": [["x"]]}, {"number": number, "values": [number]}))
        if number < tries - 1:
            out.append((0, {"fire": [["put", ["x"], number + 1]], "reads": []}, {"fired": number + 1}))
        out.append((1, {"fire": [["put", ["x"], -1]], "reads": [[["x"], number]]}, {"stale": ["x"]} if number < tries - 1 else {"fired": tries}))
    return out


def try_height(tries: Tries, browser: Browser) -> None:
    for agents in (3, 8, 40):
        browser.load(tries.trace("many", warehouse(agents, 4, 5)))
        lane, box, room = browser.run("return [view.lane, document.getElementById('lanes-box').clientHeight, innerHeight]")
        tries.claim(f"{agents} agents have lanes of 18 pixels and more, in {box} pixels", lane >= 18 and box <= room * 0.35 + 2 and (agents == 40 or box >= agents * 18), (lane, box, room))
    svg = browser.run("return svgText()")
    tries.claim("each lane has its agent's name", all(f">agent {it}</text>" in svg for it in range(40)))
    browser.load(tries.trace("busy", BUSY))
    svg = browser.run("fit(); return svgText()")
    tries.claim("an axis is of events and one of moves", ">event</text>" in svg and ">move</text>" in svg)


def try_dimming(tries: Tries, browser: Browser) -> None:
    browser.load(tries.trace("busy", BUSY))
    before = [browser.run(PIXELS, it, "fired") for it in ("lanes", "strip")]
    browser.run("act.list({ kind: 'stale' })")
    browser.frame()
    browser.frame()
    after = [browser.run(PIXELS, it, "fired") for it in ("lanes", "strip")]
    stale = [browser.run(PIXELS, it, "stale") for it in ("lanes", "strip")]
    tries.claim("what isn't listed is dim in the lanes and the strip, and what is listed isn't", min(before) > 50 and max(after) < 50 and min(stale) > 10, (before, after, stale))


def try_tries(tries: Tries, browser: Browser) -> None:
    browser.load(tries.trace("contended", journal_of(*contention(58), init=[[["x"], 0]])))
    events = contention(58)
    fires = [it for it, (agent, call, _) in enumerate(events) if agent == 1 and "fire" in call]
    tries.has("the summary leads to the longest chain", browser.text("detail"), f"58 tries of agent 1 from event {fires[0]} on, fired in event {fires[-1]}.")
    browser.run("[...document.querySelectorAll('#detail .link')].find(it => it.textContent === '58 tries of agent 1').click()")
    browser.frame()
    tries.has("it begins with its first try", browser.title(), f"Event {fires[0]} stale")
    tries.has("each try says which it is", browser.text("detail"), f"Try 1 of 58: first event {fires[0]}, fired in event {fires[-1]}.")
    browser.slide(fires[56] + 1)
    tries.has("and the last but one", browser.text("detail"), f"Try 57 of 58: first event {fires[0]}, fired in event {fires[-1]}.")
    browser.run("fit()")
    browser.frame()
    tries.claim("the chain is drawn along its lane", browser.run(PIXELS, "lanes", "stale") > 500, browser.run(PIXELS, "lanes", "stale"))
    tries.shot(browser, "chain")


def try_range(tries: Tries, browser: Browser) -> None:
    browser.load(tries.trace("busy", BUSY))
    browser.run("fit()")
    browser.frame()
    lanes = browser.find("lanes")
    x = browser.run("document.getElementById('lanes-box').scrollIntoView(); return [xOf(20), xOf(60)]")
    size = lanes.size
    chain = ActionChains(browser.driver).move_to_element_with_offset(lanes, round(x[0] - size["width"] / 2), round(8 - size["height"] / 2)).click_and_hold()
    chain.move_by_offset(round(x[1] - x[0]), 0).release().perform()
    browser.frame()
    first, end = browser.run("return shown.range")
    part = BUSY.events[first:end]
    words = browser.text("range")
    moves, stale = sum(isinstance(it.reply, Fired) for it in part), sum(isinstance(it.reply, Stale) for it in part)
    tries.claim(f"a drag on the axis measures a range: {words}", abs(first - 20) < 2 and abs(end - 61) < 3 and f"Events {first} to {end - 1} {len(part)} events of {len({it.agent for it in part})} agents" in words and f" {moves} moves" in words and f"{stale} stale fire" in words, (first, end, words))
    tries.shot(browser, "range")
    browser.run("document.querySelector('#range button').click()")
    browser.frame()
    tries.same("it can be zoomed to", browser.run("return [Math.round(view.from), Math.round(seen())]"), [first, end - first])
    browser.leave()
    browser.press(Keys.ESCAPE)
    tries.claim("Esc ends it", not browser.find("range").is_displayed())


def try_pictures(tries: Tries, browser: Browser) -> None:
    browser.load(tries.trace("busy", BUSY), "#event=60&at=%5B%22stock%22%2C%22rice%22%5D&if=sum(stock(*)) < 1590")
    svg = ElementTree.fromstring(browser.run("return svgText()"))
    kinds = {it.tag.rsplit("}", 1)[1] for it in svg.iter()}
    tries.claim("what is shown is saved as lines, with the lanes, the numbers and the strip", kinds >= {"rect", "path", "text", "clipPath"} and len(list(svg.iter())) > 200, kinds)
    size = browser.run("const it = pngCanvas(); return [it.width, it.height, new Set(new Uint32Array(it.getContext('2d').getImageData(0, 0, it.width, it.height).data.buffer)).size]")
    tries.claim("and as dots", size[0] > 500 and size[1] > 200 and size[2] > 20, size)
    browser.click("save-svg")
    tries.has("that is said", browser.text("toast"), "Saved: busy.trace.svg")
    tries.same("the policy lets it be saved", [it for it in browser.problems() if "Security" in it], [])


def try_step_reads(tries: Tries, browser: Browser) -> None:
    """A step shows the answer of its read, even if that was wrong."""
    read = {"read": [["x"]]}
    fire = {"fire": [["put", ["x"], 9]], "reads": [[["x"], 0]]}
    browser.load(tries.trace("steps", journal_of((0, read, {"number": 0, "values": [5]}), (0, fire, {"fired": 1}), init=[[["x"], 1]])))
    browser.press(Keys.END)
    tries.has("a step shows what it read", browser.text("detail"), "Value read Since then x opening state read in event 0 5 not written")
    busy = next(it for it, event in enumerate(BUSY.events) if isinstance(event.call, Fire) and event.call.reads and of_agent(BUSY, it, Read, -1) is not None)
    browser.load(tries.trace("busy", BUSY), f"#event={busy}")
    tries.has("with the way to the read", browser.text("detail"), f"read in event {of_agent(BUSY, busy, Read, -1)}")


PARTS = {name[4:].replace("_", " "): run for name, run in list(globals().items()) if name.startswith("try_")}
