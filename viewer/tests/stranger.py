"""Tests of what a stranger's file can do.

They cover files, the verdict, what is seen, the time it takes, and the page's script.
"""

import json
import os
import subprocess
from random import Random
from typing import Any

from audit import Window, trace_lines
from browser import Browser
from inputs import Maker
from opening import View
from samples import journal_of, strange, warehouse, write_journal, write_trace, wrong
from selenium.webdriver.common.keys import Keys
from tries import Tries

Line = dict[str, Any]
SECONDS = 20
# Of each trace: the events that are doubted, or why it is refused.
DOUBTS = """
const [texts, done] = arguments;
(async () => {
  const out = [];
  for (const text of texts) out.push(await readRun(text, () => {}).then(run => run.doubted, fault => fault instanceof Fault ? "refused" : String(fault)));
  done(out);
})();
"""


def find_doubts(browser: Browser, texts: list[str]) -> list[Any]:
    return browser.driver.execute_async_script(DOUBTS, texts)


# ---- files
def try_links(tries: Tries, browser: Browser) -> None:
    view = View(tries.room / "links")
    journal, outside = write_journal(strange()), tries.room / "authorized_keys"
    page = view.room / "run.html"

    def refused(what: str) -> None:
        ran = view(text=journal)
        tries.same(f"{what} is refused", (ran.returncode, b"is there, and is no " in ran.stderr, outside.exists()), (4, True, False))

    page.symlink_to(outside)
    refused("a page that is a dangling link")
    ran = view("--page", str(page), text=journal)
    tries.same("so it is where --page names it", (ran.returncode, outside.exists()), (4, False))
    page.unlink()
    os.mkfifo(page)
    refused("a page that is a pipe")
    page.unlink()
    page.mkdir()
    refused("a page that is a folder")
    page.rmdir()
    existing = view.room / "kept.html"
    tries.same("a page is written where nothing is", (view("--page", str(existing), text=journal).returncode, existing.stat().st_mode & 0o777), (0, 0o666 & ~umask()))
    page.symlink_to(existing)
    refused("a link to a page of a run")
    page.unlink()
    os.link(existing, page)
    before = existing.read_bytes()
    view(text=write_journal(wrong()))
    tries.same("a file with two names keeps what it has under the other", (existing.read_bytes() == before, page.read_bytes() == before), (True, False))
    tries.same("nothing else is left in the folder", sorted(it.name for it in view.room.iterdir()), ["kept.html", "root", "run.html"])
    os.mkfifo(view.room / "pipe.journal")
    ran = view("--page", str(existing), str(view.room / "pipe.journal"), text=b"")
    tries.same("a pipe isn't waited for", (ran.returncode, b"is no regular file" in ran.stderr), (4, True))


def try_inputs(tries: Tries, browser: Browser) -> None:
    """Test that the input is never the page, and what is read of it and of an older page."""
    view = View(tries.room / "inputs")
    journal, other = view.room / "run.journal", view.room / "other.journal"
    journal.write_bytes(write_journal(strange()))
    os.link(journal, other)
    before = journal.read_bytes()
    for words in ((journal, journal), (other, journal), (journal, other)):
        ran = view("--page", str(words[0]), str(words[1]), text=b"")
        tries.same("a journal isn't replaced by its page", (ran.returncode, b"is the input" in ran.stderr, journal.read_bytes() == before), (4, True, True))
    with journal.open("rb") as source:
        ran = subprocess.run([view.root / "view", "--page", journal], stdin=source, capture_output=True, check=False)
    tries.same("nor from standard input", (ran.returncode, b"is the input" in ran.stderr, journal.read_bytes() == before), (4, True, True))
    page = view.room / "run.html"
    with page.open("wb") as out:
        out.write(b"<!doctype html>\n")
        out.truncate(3 * 2**30)
    ran = subprocess.run(["sh", "-c", 'ulimit -v 1000000; exec "$0" "$1"', view.root / "view", journal], cwd=view.room, capture_output=True, check=False, timeout=SECONDS)
    tries.same("of a large file by the page's name only the beginning is read", (ran.returncode, b"is no page of a run" in ran.stderr), (4, True))
    page.unlink()
    value = '"' + "x" * (2**24 + 5) + '"'
    window = '{"agents":1,"capacity":9,"events":0,"from":0,"init":[[["x"],' + value + ']],"moves":0,"part":0,"trace":2}\n'
    tries.same("a window may have a longer header than the program reads", view("--page", str(page), text=window.encode()).returncode, 0)
    view.write("asm_driver", "printf 'one\\n\\033[31mtwo\\342\\200\\256\\n' >&2; exit 2")
    ran = view("--page", str(page), str(journal), text=b"")
    tries.same("of what the program says the last line is shown, escaped", (ran.returncode, ran.stderr), (2, b"\\x1b[31mtwo\\u202e\n"))


def umask() -> int:
    mask = os.umask(0)
    os.umask(mask)
    return mask


def try_lines(tries: Tries, browser: Browser) -> None:
    view, page = View(tries.room / "lines"), tries.room / "lines.html"
    good = write_trace(strange())
    for what, text in {
        "a line that is a text": good.replace(b"\n", b'\n"ssh-rsa AAAA"\n', 1),
        "a line of another language": good.replace(b"\n", b"\nimport os; os.abort()\n", 1),
        "a line that ends the element": good.replace(b"\n", b"\n</script><script>document.title='run'</script>\n", 1),
        "bytes of no UTF-8": good.replace(b"\n", b'\n{"a":"\x84<script>"}\n', 1),
        "a carriage return within": good.replace(b"\n", b'\n{"a":1,\r"b":2}\n', 1),
        "a zero byte": good.replace(b"\n", b'\n{"a":"\0"}\n', 1),
        "an endless number": good.replace(b"\n", b'\n{"a":' + b"9" * 10000 + b"}\n", 1),
        "brackets without an end": good.replace(b"\n", b"\n" + b"[" * 100000 + b"\n", 1),
    }.items():
        ran = view("--page", str(page), text=text)
        tries.same(f"{what} comes into no page", (ran.returncode, b"line 2 of the trace is no JSON object" in ran.stderr, page.exists()), (2, True, False))
    with open("/dev/zero", "rb") as endless:
        ran = subprocess.run([view.root / "view", "--page", page], stdin=endless, capture_output=True, timeout=SECONDS, check=False)
    tries.same("of an endless input no more is read than the program reads", (ran.returncode, b"more than 16,777,216 bytes" in ran.stderr), (2, True))
    name = tries.room / '</script><script>document.title="name"</script>.html'.replace("/", "_")
    view("--page", str(name), text=good)
    browser.open(name.with_name(name.name.replace("?", "%3F")))
    browser.until("return !document.getElementById('main').hidden")
    tries.same("nor does a name bring a script", len(browser.all("script")), 2)


# ---- forged traces
def forgeries() -> dict[str, tuple[str, str, int]]:
    """Changes of a legal trace: an old text, a new one, and the event that disagrees."""
    return {
        "a read of 1 answered 5": ('"values":[1]', '"values":[5]', 0),
        "a read after another number of moves": ('"reply":{"number":0', '"reply":{"number":1', 0),
        "a put of 2 shown as one of 999": ('[["x"],1,2]', '[["x"],1,999]', 1),
        "a move with the number 77": ('{"fired":1}', '{"fired":77}', 1),
        "a stale fire that is said to clash": ('"reply":{"stale":["x"]}', '"reply":{"clash":[["x"],"Two"]}', 2),
        "a stale fire at another location": ('"reply":{"stale":["x"]}', '"reply":{"stale":["y"]}', 2),
        "a clash for another cause": ('"Two"', '"Mixed"', 3),
        "a clash at another location": ('{"clash":[["x"]', '{"clash":[["y"]', 3),
        "a sum that is another": ('[["x"],2,5]', '[["x"],2,6]', 4),
        "an element more": ('"added":[7]', '"added":[7,8]', 4),
        "an element less": ('"added":[7]', '"added":[]', 4),
        "another count": ('["e",1,3]', '["e",1,4]', 4),
        "a change that isn't there": (',[["x"],2,5]', "", 4),
        "a full storage with room": ('"reply":{"clash":[["x"],"Two"]}', '"reply":"full"', 3),
        "a right answer that is told wrong": ('"reply":{"number":0,"values":[1]}', '"reply":{"number":0,"values":[4]},"right":{"differs":[],"number":0}', 0),
        "a right answer that isn't": ('"reply":{"number":0,"values":[1]}', '"reply":{"number":0,"values":[4]},"right":{"differs":[],"number":1}', 0),
        "a position that doesn't differ": ('"reply":{"number":0,"values":[1]}', '"reply":{"number":1,"values":[1]},"right":{"differs":[0],"number":0}', 0),
    }


def fair() -> str:
    fire = lambda *move, reads=(): {"fire": list(move), "reads": [list(it) for it in reads]}
    return write_trace(journal_of(
        (0, {"read": [["x"]]}, {"number": 0, "values": [1]}),
        (0, fire(["put", ["x"], 2], reads=[(["x"], 0)]), {"fired": 1}),
        (1, fire(["put", ["x"], 3], reads=[(["y"], 0), (["x"], 0)]), {"stale": ["x"]}),
        (1, fire(["put", ["y"], 1], ["put", ["x"], 3], ["put", ["x"], 4]), {"clash": [["x"], "Two"]}),
        (1, fire(["inc", ["x"], 3], ["add", ["s"], 7], ["bagadd", ["b"], "e", 3], ["bagremove", ["b"], "e", 1]), {"fired": 2}),
        init=[[["x"], 1], [["s"], {"set": []}], [["b"], {"bag": [["e", 1]]}]],
    )).decode()


def try_forged(tries: Tries, browser: Browser) -> None:
    good = fair()
    browser.load(tries.file("fair.trace", good.encode()))
    tries.same("a trace that agrees is legal as far as the page has checked", browser.texts("#facts .legal"), ["legal, checked by this page"])
    for what, (old, new, number) in forgeries().items():
        assert good.count(old) == 1, (what, old, good)
        tries.same(f"{what} is doubted", find_doubts(browser, [good.replace(old, new).replace('[["x"],2,5]', '[["x"],999,1002]' if "999" in new else '[["x"],2,5]')])[0][:1], [number])
    browser.load(tries.file("forged.trace", good.replace('"values":[1]', '"values":[5]').encode()))
    tries.same("a forged trace isn't called legal", browser.texts("#facts .illegal, #facts .legal"), ["doesn't agree with itself: 1 event, the first at event 0"])
    browser.click("first")
    browser.run("document.querySelector('#facts .illegal').click()")
    browser.frame()
    tries.same("what it has and what agrees are beside each other", browser.texts("#detail .side"), ["In the trace x 5", "By its own state x 1"])
    tries.has("so it is in the list", browser.texts("#events .event")[0], "doesn't agree")
    view, page = View(tries.room / "by"), tries.room / "by.html"
    for text, words in ((write_journal(warehouse(3, 4, 1)), "legal, checked by asm_driver"), (write_trace(warehouse(3, 4, 1)), "legal, checked by this page")):
        view("--page", str(page), text=text)
        browser.open(page)
        browser.until("return !document.getElementById('main').hidden")
        tries.same("the page names who has checked the run", browser.texts("#facts .legal"), [words])


def try_altered(tries: Tries, browser: Browser) -> None:
    """Test traces of random runs: none is doubted, and each altered one is.

    An altered one has an altered answer or change.
    """
    browser.open()
    random, fair_ones, altered_ones = Random(3), [], []
    for seed in range(300):
        lines = write_trace(Maker(Random(seed)).history()).decode().splitlines()
        fair_ones.append("\n".join(lines) + "\n")
        for _ in range(4):
            if len(lines) > 1 and (text := altered(random, lines)):
                altered_ones.append(text)
    history = warehouse(4, 30, 2)
    for start in range(0, len(history.events), 7):
        fair_ones.append(trace_lines(write_journal(history), Window(0, start, min(start + 12, len(history.events)))))
    found = find_doubts(browser, fair_ones)
    tries.claim(f"of {len(fair_ones)} fair traces, legal and illegal, none is doubted", all(it == [] for it in found), [(i, it) for i, it in enumerate(found) if it != []][:3])
    found = find_doubts(browser, altered_ones)
    missed = [altered_ones[i] for i, it in enumerate(found) if it == [] or it not in ("refused",) and not isinstance(it, list)]
    tries.claim(f"each of {len(altered_ones)} altered ones is doubted or refused, {found.count('refused')} of them refused", len(altered_ones) > 400 and not missed, missed[:1])


def altered(random: Random, lines: list[str]) -> str | None:
    """Return the trace with one answer, right answer or change altered.

    Return None if the alteration changes nothing.
    """
    number = random.randrange(1, len(lines))
    line: Line = json.loads(lines[number])
    names = [it for it in ("reply", "right", "updates") if it in line]
    name = random.choice(names)
    changed = {**line, name: other(random, line[name])}
    if json.dumps(changed) == json.dumps(line) or changed.get("right") == line["reply"] != line.get("right", 0) and name == "right" and "right" not in line:
        return None
    if name == "reply" and "right" in line and changed["reply"] != line["right"] and ("fired" in changed["reply"]) == ("fired" in line["reply"]):
        return None  # another wrong answer is as wrong
    return "\n".join([*lines[:number], json.dumps(changed, separators=(",", ":")), *lines[number + 1 :]]) + "\n"


def other(random: Random, value: Any) -> Any:
    """Return a value of the same shape with an altered part.

    The part is one number, text or truth in it, if it has one.
    """
    if isinstance(value, bool):
        return not value
    if isinstance(value, int):
        return value + random.choice((-1, 1))
    if isinstance(value, str):
        return {"Two": "Mixed", "Mixed": "Kind", "Kind": "Short", "Short": "Large", "Both": "Against"}.get(value, value)
    if isinstance(value, list) and value:
        at = random.randrange(len(value))
        return [*value[:at], other(random, value[at]), *value[at + 1 :]]
    if isinstance(value, dict) and value:
        name = random.choice(list(value))
        return {**value, name: other(random, value[name])}
    return value


# ---- what is seen
def try_directions(tries: Tries, browser: Browser) -> None:
    at = ["pay", "אב", 1000, 77, "ג"]
    fires = [{"fire": [["put", at, it]], "reads": []} for it in ("אחת", "שתיים")]
    browser.resize(1920, 900)  # a size at which a location has room on one line
    browser.load(tries.trace("hebrew", journal_of((0, fires[0], {"fired": 1}), (0, fires[1], {"fired": 2}))))
    browser.press(Keys.END)
    where = """
      const text = arguments[0], out = [];
      const walker = document.createTreeWalker(document.querySelector(arguments[1]), NodeFilter.SHOW_TEXT);
      for (let node; (node = walker.nextNode());) for (const it of text) {
        const i = node.data.indexOf(it);
        if (i < 0 || out.some(known => known[0] === it)) continue;
        const range = document.createRange();
        range.setStart(node, i); range.setEnd(node, i + it.length);
        out.push([it, range.getBoundingClientRect().left]);
      }
      return out.sort((a, b) => a[1] - b[1]).map(it => it[0]);
    """
    for where_it_is in ("#detail td.at", "#state .row .location", "#events .event[aria-selected=true]"):
        tries.same(f"arguments keep their places from left to right in {where_it_is}", browser.run(where, ["pay", "אב", "1000", "77", "ג"], where_it_is)[:5], ["pay", "אב", "1000", "77", "ג"])
    tries.same("so do the old value and the new", browser.run(where, ["אחת", "→", "שתיים"], "#detail td:last-child"), ["אחת", "→", "שתיים"])
    title = browser.run("return document.querySelector('#state .row [role=gridcell]').title")
    tries.same("titles isolate each text", title, 'pay(\u2068"אב"\u2069, 1000, 77, \u2068"ג"\u2069)')
    browser.write("state-find", 'pay("אב"')
    tries.same("a search finds them as they are written", len(browser.all("#state .row")), 1)
    browser.restore()


# What a page would run, or be changed by, that inserts it as markup, into a script, or as a name of JavaScript.
TEXTS = (
    "<script>window.hit=1</script>", "</script><script>window.hit=1</script>", "<img src=x onerror=window.hit=1>", "<svg onload=window.hit=1>",
    '"><img src=x onerror=window.hit=1>', "' onmouseover='window.hit=1", '<iframe srcdoc="<script>parent.hit=1</script>">',
    '<a href="javascript:window.hit=1">a</a>', "javascript:window.hit=1", "${window.hit=1}", "`${window.hit=1}`", "{{window.hit=1}}", "<!--", "-->", "]]>",
    '<base href="https://example.org/">', '<meta http-equiv="refresh" content="0;url=https://example.org/">', "<style>*{display:none}</style>",
    "<template><script>window.hit=1</script></template>", "&lt;img src=x onerror=window.hit=1&gt;", "__proto__",
)
# What such a text would leave in the page.
TRACES = """
const tags = "img, iframe, base, meta, style, script, template, object, embed, link, a[href^='javascript'], [onmouseover], [onerror], [onload]";
return [window.hit === undefined && ({}).hit === undefined, document.querySelectorAll(tags).length, document.getElementById("main").hidden];
"""


def try_texts(tries: Tries, browser: Browser) -> None:
    """Test hostile texts as opening values, arguments, values, elements of sets, of bags and of lists, and as a file's name."""
    fire = lambda *move: {"fire": list(move), "reads": []}
    events = [(0, fire(["put", ["a", it], it], ["put", ["l", it], {"list": [it, {"list": [it]}]}], ["add", ["s"], it], ["bagadd", ["b"], it, 1]), {"fired": n})
              for n, it in enumerate(TEXTS, 1)]
    history = journal_of(*events, init=[*([["o", it], it] for it in TEXTS), [["s"], {"set": []}], [["b"], {"bag": []}]])
    browser.load(tries.trace("plain", warehouse(3, 4, 1)))
    before = browser.run(TRACES)
    browser.load(tries.trace("texts", history))
    for _ in TEXTS:
        browser.press(Keys.ARROW_RIGHT)
    tries.same(f"of {len(TEXTS)} hostile texts none leaves an element or runs", browser.run(TRACES), before)
    shown = browser.run("return [...document.querySelectorAll('#state [title], #detail [title]')].map(it => it.title).join('\\n') + document.getElementById('state').textContent")
    tries.same("each is shown as a text", [it for it in TEXTS if json.dumps(it) not in shown], [])
    for text in TEXTS:
        browser.write("state-find", text)
        browser.run("renewWatch(arguments[0]); showWatch()", f'a({json.dumps(text)}) = {json.dumps(text)}')
    tries.same("nor does one that is searched, or in a condition", browser.run(TRACES), before)
    browser.write("state-find", "")
    view, page = View(tries.room / "texts"), tries.room / "texts.html"
    tries.same("./view takes them", view("--page", str(page), text=write_journal(history)).returncode, 0)
    browser.open(page)
    browser.until("return !document.getElementById('main').hidden")
    browser.press(Keys.END)
    tries.same("nor in the page that ./view writes", browser.run(TRACES), before)
    for text in TEXTS:
        browser.run("""const files = new DataTransfer(); files.items.add(new File([arguments[0]], arguments[1]));
          document.body.dispatchEvent(new DragEvent("drop", { bubbles: true, cancelable: true, dataTransfer: files }))""", write_trace(history).decode(), text)
        browser.until(f"return document.getElementById('name').textContent.length === {len(text)}")
        tries.same(f"nor as a file's name: {text}", (browser.run(TRACES), browser.run("return document.title")), (before, f"{text} – Folugben"))
    tries.same("no problem is reported", browser.problems(), [])


def try_unseen(tries: Tries, browser: Browser) -> None:
    signs = "\u00ad\u034f\u061c\u115f\u1680\u17b4\u180e\u2000\u200b\u202e\u2066\u2800\u3000\u3164\ufe0f\uffa0\ufff9\U000e0041\u00a0"
    history = journal_of((0, {"fire": [["put", ["x", f"a{it}b"], f"a{it}b"] for it in signs], "reads": []}, {"fired": 1}))
    browser.load(tries.trace("unseen", history))
    browser.press(Keys.END)
    words = browser.run("return document.getElementById('detail').textContent + [...document.querySelectorAll('[title]')].map(it => it.title).join('')")
    tries.same("no sign is shown that can't be seen or looks like a space", [hex(ord(it)) for it in signs if it in words], [])
    tries.has("each is written as JSON escapes it", words, '"a\\u200bb"')
    browser.run("""const files = new DataTransfer(); files.items.add(new File([arguments[0]], "a\\u202eb.trace"));
      document.body.dispatchEvent(new DragEvent("drop", { bubbles: true, cancelable: true, dataTransfer: files }))""", write_trace(history).decode())
    browser.until("return document.getElementById('name').textContent !== 'unseen.trace' && !document.getElementById('main').hidden")
    tries.same("so is a file's name", (browser.text("name"), browser.run("return document.title")), ("a\\u202eb.trace", "a\\u202eb.trace – Folugben"))


# ---- time
def nested_value(depth: int, width: int) -> Any:
    return {"list": [nested_value(depth - 1, width) for _ in range(width)]} if depth else 7


def try_times(tries: Tries, browser: Browser) -> None:
    bag = {"bag": [[it, 1] for it in range(200_000)]}
    moves = [["bagremove", ["b"], it, 1] for it in range(4000)] + [["bagremove", ["b"], 200_001, 1]]
    tree, text = nested_value(3, 40), "12345678901234567 " * (2**23 // 18)
    for what, history in {
        "a clash on a bag of 200,000 elements": journal_of((0, {"fire": moves, "reads": []}, {"clash": [["b"], "Short"]}), init=[[["b"], bag]]),
        "a list of 64,000 lists": journal_of((0, {"fire": [["put", ["x"], {"list": [tree] * 3}]], "reads": []}, {"fired": 1})),
        "a text of 8 MB with digits": journal_of((0, {"fire": [["put", ["x"], text]], "reads": []}, {"fired": 1})),
    }.items():
        seconds = browser.load(tries.trace("heavy", history))
        browser.run("window.start = performance.now()")
        browser.press(Keys.END)
        seconds = max(seconds, browser.run("return (performance.now() - start) / 1000"))
        nodes = browser.run("return document.querySelectorAll('*').length")
        tries.claim(f"{what} is shown in a few seconds and {nodes} nodes: {seconds:.1f} s", seconds < 15 and nodes < 12000 and browser.title().startswith("Event 0 "), (seconds, nodes, browser.text("fault")))
    path = tries.trace("small", strange())
    for part in ("(" * 20000, "not " * 20000, "x = " + "[" * 20000):
        browser.load(path, f"#if={part}")
        tries.same("an address with a long condition opens the run", (browser.find("main").is_displayed(), browser.problems()), (True, []))
    good = write_trace(wrong()).decode()
    words = [{"toString": 1}, ["put"], None, 7, {"__proto__": None}, True]
    found = find_doubts(browser, [good.replace('["put",', f"[{json.dumps(it)},", 1).replace("-0", "0") for it in words])
    tries.same("an instruction whose word is no text is refused", found, ["refused"] * len(words))


# ---- the page's script
INTRUDERS = """
window.hit = 0;
const add = (tag, properties) => document.body.append(Object.assign(document.createElement(tag), properties));
add("script", { textContent: "window.hit++" });
add("script", { src: "data:text/javascript,window.hit++" });
add("div", { innerHTML: "<img src=x onerror='window.hit++'><svg onload='window.hit++'>" });
add("iframe", { srcdoc: "<script>parent.hit++</script>" });
add("a", { href: "javascript:window.hit++", id: "intruder" });
document.getElementById("intruder").click();
document.head.append(Object.assign(document.createElement("base"), { href: "https://example.org/" }));
return new Promise(done => setTimeout(() => done([window.hit, document.baseURI.startsWith("file:")]), 300));
"""


def try_policy(tries: Tries, browser: Browser) -> None:
    browser.load(tries.trace("strange", strange()))
    policy = browser.run("return document.querySelector('meta[http-equiv]').content")
    tries.claim("the page's policy allows its own script and style by hash alone", policy.count("'sha256-") == 2 and "unsafe" not in policy and "base-uri 'none'; form-action 'none'" in policy, policy)
    tries.same("no problem is reported by itself", browser.problems(), [])
    tries.same("a script that gets into the page doesn't run, nor does another base", browser.run(INTRUDERS), [0, True])
    browser.problems()


PARTS = {name[4:].replace("_", " "): run for name, run in list(globals().items()) if name.startswith("try_")}
