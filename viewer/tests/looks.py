"""Tests of how the page looks and sounds.

They cover contrast, names for readers of the screen, the way of the Tab key, and its width.
"""

from browser import Browser
from samples import warehouse, wrong
from selenium.webdriver.common.keys import Keys
from tries import Tries

# The texts with too little contrast: 4.5 for text, by the formula of WCAG 2.
CONTRAST = """
const pen = Object.assign(document.createElement("canvas"), { width: 1, height: 1 }).getContext("2d", { willReadFrequently: true });
const known = new Map();
function rgba(color) {
  if (!known.has(color)) {
    pen.clearRect(0, 0, 1, 1);
    pen.fillStyle = color;
    pen.fillRect(0, 0, 1, 1);
    const [r, g, b, a] = pen.getImageData(0, 0, 1, 1).data;
    known.set(color, [r, g, b, a / 255]);
  }
  return known.get(color);
}
const over = (top, below) => top.slice(0, 3).map((it, i) => it * top[3] + below[i] * (1 - top[3]));
function ground(node) {
  if (!node) return [255, 255, 255];
  const color = rgba(getComputedStyle(node).backgroundColor);
  return color[3] > 0.99 ? color.slice(0, 3) : over(color, ground(node.parentElement));
}
const light = color => {
  const [r, g, b] = color.map(it => it / 255).map(it => it <= 0.04045 ? it / 12.92 : ((it + 0.055) / 1.055) ** 2.4);
  return 0.2126 * r + 0.7152 * g + 0.0722 * b;
};
const ratio = (a, b) => (Math.max(light(a), light(b)) + 0.05) / (Math.min(light(a), light(b)) + 0.05);
const low = new Map();
let count = 0;
for (const node of document.querySelectorAll("body *")) {
  const hasText = [...node.childNodes].some(it => it.nodeType === 3 && it.textContent.trim()) || (node.matches("input") && node.placeholder);
  if (!hasText || !node.checkVisibility() || node.closest(":disabled, .unseen, script, option, noscript")) continue;
  const below = ground(node), style = getComputedStyle(node, node.placeholder ? "::placeholder" : null);
  const found = ratio(over(rgba(style.color), below), below) * (style.opacity < 1 ? 0 : 1);
  count++;
  if (found < 4.5) low.set(`${node.tagName} ${node.className} ${node.textContent.slice(0, 20)}`, found.toFixed(2));
}
const page = getComputedStyle(document.documentElement), named = name => rgba(page.getPropertyValue(`--${name}`).trim()).slice(0, 3);
for (const [a, b, least] of [["soft", "raised", 4.5], ["faint", "raised", 4.5], ["on-accent", "fired", 4.5], ...["fired", "read", "stale", "clash", "full", "wrong", "place", "accent"].map(it => [it, "raised", 3])]) {
  count++;
  if (ratio(named(a), named(b)) < least) low.set(`picture: ${a} on ${b}`, ratio(named(a), named(b)).toFixed(2));
}
return [count, [...low]];
"""
CONTROLS = {"button", "link", "checkbox", "slider", "combobox", "textbox", "searchbox", "listbox", "option", "grid", "image", "dialog", "region", "group", "progressbar"}


def try_contrast(tries: Tries, browser: Browser) -> None:
    history = warehouse(5, 16, 3)
    checked, low = 0, []

    def look() -> None:
        nonlocal checked
        count, found = browser.run(CONTRAST)
        checked += count
        low.extend(found)

    browser.open()
    look()
    browser.choose_file(tries.file("refused", b"hello\n"))
    look()
    browser.load(tries.trace("warehouse", history), "#event=46&at=%5B%22packed%22%5D")
    look()
    for key in ("c", "s", "?"):
        browser.press(key)
        look()
    for part in ("", "#event=46&at=%5B%22packed%22%5D&from=12&kind=stale&if=packed size > 1", "#event=3&of=%5B%22packed%22%5D&kind=clash&cause=Short&if=packed size >"):
        browser.load(tries.room / "warehouse.trace", part)
        browser.press("m")
        look()
    browser.load(tries.trace("wrong", wrong()))
    for _ in range(7):
        browser.press("w")
        look()
    browser.choose_file(tries.file("cut.trace", (tries.room / "wrong.trace").read_bytes()[:700]))
    look()
    tries.claim(f"each text has a contrast of 4.5, and each mark one of 3: {checked} looked at", checked > 400 and not low, sorted(set(map(tuple, low))))


def try_theme(tries: Tries, browser: Browser) -> None:
    browser.load(tries.trace("wrong", wrong()))
    names = ("light", "dark")
    tries.same("the colors are the system's", browser.run("return document.documentElement.dataset.theme"), names[browser.is_dark])
    browser.click("theme")
    tries.same("a button changes them", browser.run("return document.documentElement.dataset.theme"), names[not browser.is_dark])
    browser.load(tries.room / "wrong.trace")
    tries.same("and they stay so when the page is opened again", browser.run("return document.documentElement.dataset.theme"), names[not browser.is_dark])
    browser.click("theme")


def try_names(tries: Tries, browser: Browser) -> None:
    browser.load(tries.trace("warehouse", warehouse(5, 16, 3)), "#event=46&at=%5B%22packed%22%5D")
    tree = browser.driver.execute_cdp_cmd("Accessibility.getFullAXTree", {})["nodes"]
    named = [(it["role"]["value"], it.get("name", {}).get("value", "")) for it in tree if not it["ignored"] and it["role"]["value"] in CONTROLS]
    nameless = [role for role, name in named if not name.strip()]
    tries.claim(f"each control has a name for readers of the screen: {len(named)} looked at", len(named) > 60 and not nameless, nameless)
    tries.same("the page has one first heading, and says its language", (len(browser.all("h1")), browser.run("return document.documentElement.lang")), (1, "en"))
    twice = browser.run("const ids = [...document.querySelectorAll('[id]')].map(it => it.id); return ids.filter((it, i) => ids.indexOf(it) !== i)")
    tries.same("no two parts have one id", twice, [])
    browser.run("document.activeElement.blur(); scrollTo(0, 0); window.reached = []; addEventListener('focusin', it => reached.push(it.target.id))")
    for _ in range(6):
        browser.press(*[Keys.TAB] * 20)
    reached = set(browser.run("return reached"))
    wanted = {"help-open", "theme", "open", "play", "slider", "move", "speed", "zoom-in", "fit", "events-agent", "events-find", "events", "detail", "link", "grip", "fold", "watch", "state-compare", "state-copy", "state-which", "state-find", "state", "writes-reads", "writes-copy", "writes-close", "writes"}
    tries.same("the Tab key leads to each control", wanted - reached, set())


def try_width(tries: Tries, browser: Browser) -> None:
    for name, history, part in [("warehouse", warehouse(5, 16, 3), "#event=46&at=%5B%22packed%22%5D"), ("wrong", wrong(), "#event=3")]:
        browser.load(tries.trace(name, history), part)
        wide, window = browser.run("return [document.documentElement.scrollWidth, innerWidth]")
        tries.claim(f"the run {name} fits into the width of {browser.size[0]} pixels", wide <= window, (wide, window))
        outside = browser.run("""const out = []; for (const it of document.querySelectorAll("button, input, select, h2, canvas")) {
          const box = it.getBoundingClientRect(); if (it.checkVisibility() && !it.closest(".unseen, .scroll") && (box.left < 0 || box.right > innerWidth + 0.5)) out.push(it.id || it.textContent); } return out""")
        tries.same("no control is cut off", outside, [])
    boxes = browser.run("return ['events-pane', 'detail-pane', 'state-pane'].map(it => Math.round(document.getElementById(it).getBoundingClientRect().height))")
    tries.claim(f"each pane has room: {boxes}", min(boxes) >= 200, boxes)
