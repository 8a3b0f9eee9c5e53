"""Tests of how a run comes onto the page, and of what is refused.

It comes by a file, by a drop, or by ./view.
"""

import hashlib
import json
import os
import re
import shutil
import socket
import subprocess
import time
import urllib.error
import urllib.request
from collections.abc import Callable
from pathlib import Path
from typing import Any

from browser import Browser
from journal import Event, Fired, History, event_json, reply_json
from samples import ROOT, example, journal_of, strange, warehouse, write_journal, write_trace, wrong
from tries import Tries
from values import pairs_json

DROP = """
const files = new DataTransfer();
files.items.add(new File([arguments[0]], arguments[1]));
for (const kind of ["dragover", "drop"]) document.body.dispatchEvent(new DragEvent(kind, { bubbles: true, cancelable: true, dataTransfer: files }));
"""


def try_opening(tries: Tries, browser: Browser) -> None:
    browser.open()
    tries.claim("an empty page asks for a trace", browser.find("start").is_displayed() and not browser.find("main").is_displayed())
    tries.has("it says that nothing leaves the computer", browser.text("hint"), "It stays on this computer")
    tries.shot(browser, "start")
    history = warehouse(5, 16, 3)
    browser.load(tries.trace("chosen", history))
    tries.same("a chosen file is shown with its name", browser.text("name"), "chosen.trace")
    tries.same("what the run has is counted", browser.texts("#facts .fact")[:3], ["5 agents", f"{len(history.events)} events", f"{history.moves()} moves"])
    tries.same("a legal run is called so", browser.texts("#facts .legal"), ["legal, checked by this page"])
    browser.open()
    browser.run(DROP, write_trace(history).decode(), "dropped.trace")
    browser.until("return !document.getElementById('main').hidden")
    tries.same("a dropped file is shown", browser.text("name"), "dropped.trace")
    browser.run(DROP, write_trace(example("one_move")).decode(), "other.trace")
    browser.until("return document.getElementById('name').textContent === 'other.trace'")
    tries.same("another one takes its place", browser.texts("#facts .fact")[1], "1 event")
    browser.load(tries.trace("chosen", history), "#event=46&at=%5B%22packed%22%5D")
    tries.has("an address leads to its event", browser.title(), "Event 46")
    tries.has("and to the writes of its location", browser.text("writes-title"), "packed")
    tries.same("nothing was loaded from elsewhere", browser.run("return performance.getEntriesByType('resource').length"), 0)
    tries.same("the console has no problem", browser.problems(), [])


def try_empty(tries: Tries, browser: Browser) -> None:
    header = {"agents": 0, "capacity": 1, "events": 0, "init": [], "trace": 1}
    browser.load(tries.file("nothing.trace", json.dumps(header).encode() + b"\n"))
    tries.has("a run without a call says so", browser.text("detail"), "No call was made in this run")
    tries.has("so does its list of events", browser.text("events"), "This run has no event")
    tries.has("so does its state", browser.text("state"), "No location is written or read in this run")
    for key in "c artnmxll[]+-0m":  # (l twice, as the page keeps whether the lanes are folded)
        browser.press(key)
    browser.run("renewWatch('x > 1'); showWatch()")
    tries.same("keys do nothing there, and no problem is reported", browser.problems(), [])


def refused_texts(good: str) -> dict[str, tuple[str | bytes, str]]:
    """Return texts that are no trace, each with what must be said of it.

    Most are a good one with one change.
    """
    lines = good.splitlines()
    journal, script = write_journal(wrong()).decode(), (ROOT / "examples" / "bank_transfers.json").read_text()

    def altered(old: str, new: str, count: int = 1) -> str:
        assert old in good, old
        return good.replace(old, new, count)

    return {
        "an empty file": ("", "This file is empty"),
        "a text that is no JSON": ("hello\n", "This is no trace: its first line isn't JSON"),
        "bytes that are no UTF-8": (b"\xff\xfe\x00", "its bytes are no text in UTF-8"),
        "a journal": (journal, "This is a journal, not its trace. ./view < JOURNAL shows it"),
        "a script": (json.dumps(json.loads(script)), "This is a script, not the trace of its run"),
        "another JSON": ("[1]\n", "its first line is no header"),
        "another version": (altered('"trace":1', '"trace":3'), "this is one of another version"),
        "a window without its place": (altered('"trace":1', '"trace":2'), "Line 1 doesn't fit a trace: the header has no `from`"),
        "a window with more moves than calls before": (altered('"trace":1', '"from":1,"moves":2,"part":0,"trace":2'), "`moves` isn't a whole number up to `from`"),
        "a header without a member": (altered('"capacity":4096,', ""), "Line 1 doesn't fit a trace: the header has no `capacity`"),
        "half a line in the midst": ("\n".join([*lines[:3], lines[3][:40], *lines[4:]]) + "\n", "Line 4 can't be read: the line ends at column 41"),
        "an empty line": (altered("\n", "\n\n"), "Line 2 can't be read"),
        "a line that is missing": ("\n".join([*lines[:3], *lines[4:]]) + "\n", "Line 4 doesn't fit a trace: its `event` isn't 2"),
        "a line too many": (good + lines[-1].replace('"event":9', '"event":10') + "\n", "the header counts 10 events, and this is one more"),
        "an agent that isn't there": (altered('"agent":1', '"agent":2'), "its `agent` isn't one of the 2 of the header"),
        "a further member": (altered('"agent":1', '"also":0,"agent":1'), "it has a further member \"also\""),
        "a fired move without updates": (altered('"reply":{"fired":1},"updates"', '"reply":"full","updates"'), "it isn't fired and has `updates`"),
        "a number with a point": (altered('["put",["x"],2]', '["put",["x"],2.0]'), "can't be read: no plain whole number at column 41"),
        "a minus zero": (altered('["put",["x"],2]', '["put",["x"],-0]'), "no plain whole number at column 41"),
        "a number beyond 64 bits": (altered('["put",["x"],2]', f'["put",["x"],{2**63}]'), "outside the range of 64 bits"),
        "a set out of order": (altered('{"set":[1,2]}', '{"set":[2,1]}'), "the elements of a set aren't in ascending order"),
        "a name of another form": (altered('["put",["x"]', '["put",["1"]'), "a location has no name of 1 to 64 letters"),
        "another word": (altered('["put"', '["get"'), "begins with none of put, add"),
        "a change of what isn't there": (altered('[["x"],1,2]', '[["x"],7,2]'), "its change at x doesn't fit the value there"),
        "an element removed that isn't there": (altered('"removed":[1]', '"removed":[3]'), "its change at s doesn't fit the value there"),
        "lists that are nested too deeply": (altered('["put",["x"],2]', '["put",["x"],' + 9 * '{"list":[' + 9 * "]}" + "]"), "a list is nested deeper than 8"),
        "brackets without an end": ("[" * 100000 + "\n", "its first line isn't JSON"),
    }


def try_refusals(tries: Tries, browser: Browser) -> None:
    good = write_trace(wrong()).decode()
    browser.open()
    for what, (text, words) in refused_texts(good).items():
        browser.choose_file(tries.file("refused", text if isinstance(text, bytes) else text.encode()))
        fault = browser.text("fault")
        tries.claim(f"{what} is refused: {fault}", words in fault and not browser.find("main").is_displayed(), words)
    tries.shot(browser, "refused")
    browser.choose_file(tries.file("cut.trace", good[: good.index('"event":7')].encode()))
    tries.same("a trace that was cut off is shown with a warning", browser.text("warning"), "This trace is cut off: it has 7 events of 10. What is there is shown.")
    browser.choose_file(tries.file("fed.trace", good[:-1].encode()))
    tries.same("one without its last line feed is whole", (browser.find("warning").is_displayed(), browser.texts("#facts .fact")[1]), (False, "10 events"))
    tries.same("no refusal is a problem on the console", browser.problems(), [])


class View:
    """Run ./view in a folder where the model is in the program's place."""

    def __init__(self, room: Path) -> None:
        self.room = room
        self.root = room / "root"
        self.opened = self.root / "opened"
        shutil.copytree(ROOT / "viewer", self.root / "viewer")
        self.opened.mkdir()
        shutil.copy(ROOT / "view", self.root / "view")
        self.write("asm_driver", f'[ -z "$2" ] || exec <"$2"\nexec python3 "{ROOT}/tools/model/model.py" "$1"')
        self.write("opened/xdg-open", f'echo "$1" >"{self.opened}/file"')

    def write(self, name: str, line: str) -> None:
        (self.root / name).write_text(f"#!/bin/sh\n{line}\n")
        (self.root / name).chmod(0o755)

    def __call__(self, *words: str, text: bytes, path: str = os.environ["PATH"]) -> subprocess.CompletedProcess[bytes]:
        environment = os.environ | {"PATH": path, "TMPDIR": str(self.room)}
        return subprocess.run([self.root / "view", *words], input=text, capture_output=True, env=environment, cwd=self.room, check=False)


def try_view(tries: Tries, browser: Browser) -> None:
    view, page = View(tries.room), tries.room / 'a "run" & <its> page.html'
    there = {it.name for it in tries.room.glob("*.html")}
    for what, text in {"a journal": write_journal(strange()), "a trace": write_trace(strange())}.items():
        ran = view("--page", str(page), text=text)
        tries.same(f"./view --page takes {what}", (ran.returncode, ran.stdout, ran.stderr), (0, b"", b""))
        browser.open(page)
        browser.until("return !document.getElementById('main').hidden")
        tries.same("the run is on the page when that is opened", (browser.text("name"), browser.texts("#facts .fact")[1]), (page.stem, "10 events"))
        tries.same("the page holds no further script", (len(browser.all("script")), browser.run("return document.title")), (2, f"{page.stem} – Folugben"))
    tries.same("no more than the one file was written", {it.name for it in tries.room.glob("*.html")} - there, {page.name})
    ran = view(text=write_journal(strange()), path=f"{view.opened}:{os.environ['PATH']}")
    named = ran.stdout.decode().strip()
    tries.same("without --page a browser is started with the page, which is named", ((view.opened / "file").read_text().strip(), named, ran.returncode), (named, "./run.html", 0))
    journal = tries.file("bank.journal", write_journal(strange()))
    ran = view(str(journal), text=b"", path=poor_path(tries.room))
    tries.same("where none is there it is named, and is named as its journal", (ran.stdout, (tries.room / "bank.html").exists(), b"no browser could be started" in ran.stderr), (b"./bank.html\n", True, True))
    (tries.room / "bank.html").write_text("a page of a bank")
    ran = view(str(journal), text=b"")
    tries.same("another file of that name is left as it is", (ran.returncode, (tries.room / "bank.html").read_text()), (4, "a page of a bank"))
    ran = view("--page", str(tries.room / "none.html"), text=b"hello\n")
    tries.same("what is no journal is refused as the program does", (ran.returncode, ran.stderr, (tries.room / "none.html").exists()), (2, b"journal line 1: not JSON\n", False))
    ran = view("--pages", "x", text=b"")
    tries.same("other words are refused", (ran.returncode, b"unrecognized arguments: --pages" in ran.stderr, b"usage:" in ran.stderr), (2, True, True))
    name = "a\x1b[31m\u202eb"
    (tries.room / f"{name}.html").write_text("no page")
    for words, text in (([f"{name}.journal"], b""), ([f"--{name}"], b""), (["--page", f"{name}/page.html"], write_trace(strange())), ([str(tries.file(f"{name}.trace", write_trace(strange())))], b"")):
        ran = view(*words, text=text)
        output = ran.stdout + ran.stderr
        tries.same("of a name nothing is printed that a terminal obeys", (ran.returncode != 0, b"\x1b" in output, "\u202e".encode() in output, b"\\x1b[31m\\u202eb" in output), (True, False, False, True))


class Chain:
    """The folder of a run, with the names and digests of its segments."""

    def __init__(self, folder: Path) -> None:
        self.folder, self.digest, self.number, self.moves = folder, "0" * 64, 0, 0
        folder.mkdir()

    def add(self, history: History) -> Path:
        text, moves, events = write_journal(history), sum(isinstance(it.reply, Fired) for it in history.events), len(history.events)
        line = f"{self.digest} {self.number} {self.moves} {moves} {events} {len(text)}\n".encode()
        before, self.digest = self.digest, hashlib.sha256(line + text).hexdigest()
        file = self.folder / f"{self.number:08}-{self.moves}-{moves}-{events}-{before}-{self.digest}.journal"
        file.write_bytes(text)
        self.number, self.moves = self.number + 1, self.moves + moves
        return file


class Follow:
    """./view --follow of a run, until the end of a with."""

    def __init__(self, room: Path, run: Path) -> None:
        self.view = View(room)
        # The model audits no folders.
        self.view.write("asm_driver", f'exec "{ROOT}/asm_driver" "$@"')
        self.server = subprocess.Popen([self.view.root / "view", "--follow", run], stdout=subprocess.PIPE, stderr=subprocess.PIPE,
                                       env=os.environ | {"PATH": f"{self.view.opened}:{os.environ['PATH']}", "TMPDIR": str(room)})
        assert self.server.stdout
        self.address = self.server.stdout.readline().decode().strip()

    def __enter__(self) -> "Follow":
        return self

    def __exit__(self, *_: object) -> None:
        self.server.terminate()
        self.server.wait(20)

    def trace(self) -> tuple[dict[str, Any], list[bytes]]:
        with urllib.request.urlopen(f"{self.address}trace", timeout=60) as answer:
            first, *lines = answer.read().splitlines()
        return json.loads(first), lines


def growing_run(folder: Path) -> tuple[Chain, History]:
    """Write the first two segments of a run; return what follows them too."""
    put = lambda number, of, read: (0, {"fire": [["put", ["x"], number]], "reads": [[["x"], read]]}, of)
    chain = Chain(folder)
    chain.add(journal_of(capacity=1, init=[[["x"], 1]]))
    chain.add(journal_of((0, {"read": [["x"]]}, {"number": 0, "values": [1]}), put(2, {"fired": 1}, 0), put(3, "full", 1), capacity=1, init=[[["x"], 1]]))
    return chain, journal_of(put(3, {"fired": 1}, 0), put(4, {"stale": ["x"]}, 0), agents=3, init=[[["x"], 2]])


def try_follow(tries: Tries, browser: Browser) -> None:
    """Test that a growing run is served on the loopback address.

    The address must be known, and the run is shown where it was.
    """
    chain, second = growing_run(tries.room / "bank.run")
    with Follow(tries.room / "follow", chain.folder) as following:
        address = following.address
        host, token = address.removesuffix("/").rsplit("/", 1)
        tries.claim("the address is this computer's alone, and has a token", address.startswith("http://127.0.0.1:") and len(token) >= 32, address)
        tries.same("without the token nothing is served", [status(it) for it in (host + "/", f"{host}/{'x' * len(token)}/", f"{host}/{token}/../view", f"{host}/{token}/run")], [404] * 4)
        opened = following.view.opened / "file"
        wait_for(opened.exists)
        page = Path(opened.read_text().strip())
        tries.same("the browser is given a page of the user's own, and no word has the token", (token in str(page), page.stat().st_mode & 0o777, address in page.read_text()), (False, 0o600, True))
        browser.driver.get(address)
        browser.until("return !document.getElementById('main').hidden")
        tries.same("the page shows what there is", browser.texts("#facts .fact")[1:3] + browser.texts("#facts .legal"), ["3 events", "1 move", "legal, checked by asm_driver"])
        browser.slide(2)
        browser.run("act.chooseLocation(shown.run.locations.get('[\"x\"]'))")
        silent = [socket.create_connection(("127.0.0.1", int(host.rsplit(":", 1)[1]))) for _ in range(5)]
        added = chain.add(second)
        browser.until("return shown.run.events.length === 5", 30)
        browser.frame()
        tries.same("what the run gains is added, and the place stays", (browser.title()[:8], browser.text("writes-title"), browser.texts("#facts .fact")[2]), ("Event 1 ", "x 2 writes", "2 moves"))
        tries.same("moves and events go on from those before", browser.run("return [shown.run.events[4].named[0].number, shown.run.events[3].move, shown.run.doubted.length]"), [1, 2, 0])
        tries.same("the console has no problem", [it for it in browser.problems() if "favicon" not in it], [])
        for it in silent:
            it.close()
        (chain.folder / "zzz.journal").write_bytes(added.read_bytes())
        browser.until("return shown.run.where !== ''", 30)
        browser.frame()
        tries.same("a foreign file is no part of it, and the page says where it ends", (browser.texts("#facts .legal"), browser.text("warning"), browser.texts("#facts .fact")[1]), (
            ["legal as far as it is shown, checked by asm_driver"], "The run isn't shown to its end: zzz.journal isn't shown, and none after it: asm_driver audit refuses it: segment 3 misnamed", "5 events"))


def wait_for(is_so: Callable[[], bool]) -> None:
    end = time.monotonic() + 20
    while not is_so() and time.monotonic() < end:
        time.sleep(0.05)


def try_refused_segments(tries: Tries, browser: Browser) -> None:
    """Test that of a folder only what an audit accepts is shown."""
    def apart(chain: Chain, second: History) -> None:
        chain.add(journal_of((0, {"read": [["x"]]}, {"number": 0, "values": [9]}), init=[[["x"], 9]]))

    def wrong_answer(chain: Chain, second: History) -> None:
        chain.add(journal_of((0, {"read": [["x"]]}, {"number": 0, "values": [9]}), init=[[["x"], 2]]))

    def altered(chain: Chain, second: History) -> None:
        file = chain.add(second)
        file.write_bytes(file.read_bytes().replace(b'"stale"', b'"Stale"'))

    def missing(chain: Chain, second: History) -> None:
        chain.add(second).unlink()
        chain.add(journal_of((0, {"read": [["x"]]}, {"number": 0, "values": [3]}), init=[[["x"], 3]]))

    def renamed(chain: Chain, second: History) -> None:
        file = chain.add(second)
        file.rename(file.with_name(file.name.replace("-1-2-", "-2-2-")))

    def misplaced(chain: Chain, second: History) -> None:
        file = chain.add(second)
        file.rename(file.with_name(file.name.replace("-1-1-2-", "-0-1-2-")))

    def unchained(chain: Chain, second: History) -> None:
        before, file = chain.digest, chain.add(second)
        file.rename(file.with_name(file.name.replace(before, "0" * 64)))

    def linked(chain: Chain, second: History) -> None:
        file = chain.add(second)
        file.rename(chain.folder / "elsewhere")
        file.symlink_to(chain.folder / "elsewhere")

    def piped(chain: Chain, second: History) -> None:
        file = chain.add(second)
        file.unlink()
        os.mkfifo(file)

    for number, (make, why) in enumerate({
        apart: "apart", wrong_answer: "illegal", altered: "segment 2 damaged", missing: "segment 2 missing", renamed: "segment 2 damaged",
        misplaced: "segment 2 misplaced", unchained: "segment 2 misplaced", linked: "symbolic link", piped: "no regular file",
    }.items()):
        chain, second = growing_run(tries.room / f"refused{number}.run")
        make(chain, second)
        with Follow(tries.room / f"refused{number}", chain.folder) as following:
            first, lines = following.trace()
            tries.claim(f"a segment that is {make.__name__} isn't shown: {first['where']}", why in first["where"] and re.match("segment [23] isn't shown, and none after it: ", first["where"]), first)
            tries.same("those before it are", (len(lines), first["ends"]), (4, [1, 1]))
    chain, second = growing_run(tries.room / "dropped.run")
    min(chain.folder.iterdir()).unlink()
    with Follow(tries.room / "dropped", chain.folder) as following:
        tries.same("a run whose first segment was dropped is shown", (len(following.trace()[1]), following.trace()[0]), (4, {"ends": [1], "where": ""}))
        min(chain.folder.iterdir()).unlink()
        chain.add(second)
        tries.same("it goes on when a shown one is dropped", (len(following.trace()[1]), following.trace()[0]["where"]), (6, ""))
    journal = tries.file("again.journal", b"half of it")
    with Follow(tries.room / "again", journal) as following:
        tries.same("a file that can't be read yet is tried again", status(f"{following.address}trace"), 503)
        journal.write_bytes(write_journal(example("one_move")))
        tries.same("once it is written it is shown", len(following.trace()[1]), 2)
        journal.write_bytes(b"half of it")
        tries.claim("while it is written again the last one stays", "refuses it" in following.trace()[0]["where"] and len(following.trace()[1]) == 2)


def status(address: str) -> int:
    try:
        with urllib.request.urlopen(address, timeout=60) as answer:
            return int(answer.status)
    except urllib.error.HTTPError as error:
        return error.code


def try_beside(tries: Tries, browser: Browser) -> None:
    history = warehouse(5, 16, 3)
    other = journal_of(*[(it.agent, call_of(it), reply_json(it.reply)) for it in history.events[:60]], agents=5, capacity=history.capacity, init=pairs_json(history.init))
    browser.load(tries.trace("whole", history), "#event=46")
    choose = lambda path: (browser.find("beside-file").send_keys(str(path)), browser.until("return !document.getElementById('beside').innerText.startsWith('Reading')"))
    choose(tries.trace("same", history))
    tries.same("the same run is called so", browser.text("beside"), f"same.trace is the same run: all {len(history.events)} events are the same. Close")
    choose(tries.trace("short", other))
    moves = sum(isinstance(it.reply, Fired) for it in history.events[:60])
    words = browser.text("beside")
    tries.claim(f"where two runs part is said: {words}", f"short.trace differs from this run from event 60 on, after {moves} moves." in words and "There: no more event." in words and f"The states differ first after move {moves + 1}, at" in words)
    tries.claim("the states' difference has each side", len(browser.all("#beside td")) >= 3)
    tries.shot(browser, "beside")
    browser.run("document.querySelector('#beside .link').click()")
    browser.frame()
    tries.has("and the way there", browser.title(), "Event 60 ")
    browser.load(tries.trace("short", other), "#event=46")
    browser.choose_file(tries.trace("whole", history))
    tries.same("a further file of the same run is shown where the one before was", (browser.title()[:9], browser.text("toast")), ("Event 46 ", f"The run continues: {len(history.events) - 60} further events"))


def call_of(event: Event) -> object:
    return event_json(event)["call"]


def poor_path(room: Path) -> str:
    """Return a path with no browser, but with what ./view and the model need."""
    folder = room / "poor"
    folder.mkdir()
    for name in ("sh", "env", "python3"):
        found = shutil.which(name)
        if found:
            (folder / name).symlink_to(os.path.realpath(found) if name != "python3" else "/usr/bin/python3")
    return str(folder)
