// The run of a trace: its events, its locations, and the value of each at any move.
import { Fault, readJson } from "./exact.js";
import { doubtOf, effectsFor, isDone } from "./judge.js";
import { checkEvent, checkHeader, Content } from "./shape.js";
import { byElement, byLocation, firstFrom, isSame, keyOf, locationText } from "./terms.js";

export const KINDS = ["read", "fired", "stale", "clash", "full"];
export const kindOf = reply => reply === "full" ? "full" : KINDS.find(it => it in reply) ?? "read";

// Whether the event's answer is wrong, or something in it doesn't match the trace.
export const isBad = event => event.isWrong || !!event.doubt;

// Return the right answer to a read, with its values: if the trace lists positions that differ, those of the state.
function rightValues({ read, reply }, { differs, number }) {
  const values = [...reply.values], complete = new Map();
  for (const i of differs) {
    if (!complete.has(read[i])) complete.set(read[i], read[i].content.whole());
    values[i] = complete.get(read[i]);
  }
  return { number, values, differs };
}

// This many items may follow a complete value as changes, however small that value is.
const FEW = 64;

class Place {
  constructor(at) {
    this.at = at;
    this.key = keyOf(at);
    this.opening = null;
    this.times = []; // the events that write it, and what each of them writes
    this.writes = [];
    this.content = new Content(null); // only while the trace is read
    this.debt = 0;
    this.last = { index: -1, value: null }; // the value that was computed last
  }
  get label() {
    return this.text ??= locationText(this.at);
  }
  // Apply a change of the trace; return false if it isn't one of what the location holds.
  take(write, change) {
    const fits = change.length === 2 ? this.replace(write, change) : this.alter(write, change[0]);
    this.times.push(write.event);
    this.writes.push(write);
    return fits;
  }
  replace(write, [old, value]) {
    const fits = this.content.equals(old);
    Object.assign(write, { old, value, size: 1 });
    this.content = new Content(value);
    this.debt = 0;
    return fits;
  }
  alter(write, change) {
    const isBags = "counts" in change;
    write.isBag = isBags;
    write.items = isBags ? change.counts : [...change.added.map(it => [it, 0, 1]), ...change.removed.map(it => [it, 1, 0])].sort((a, b) => byElement(a[0], b[0]));
    const fits = this.content.kind === (isBags ? "bag" : "set") && write.items.every(([it, was, now]) => was !== now && this.content.countOf(it) === was);
    if (!fits) return false;
    this.content.follow(write.items);
    write.size = this.content.size;
    // A complete value is stored after as many changes as it has items, so all these values take no more room than the changes.
    this.debt += write.items.length + 1;
    if (this.debt >= Math.max(FEW, write.size)) {
      write.snapshot = this.content.whole();
      this.debt = 0;
    }
    return true;
  }
  // Return the value that its write with this index leaves; -1 is the opening value.
  after(index) {
    if (index < 0) return this.opening;
    const write = this.writes[index];
    if (!write.items) return write.value;
    if (this.last.index === index) return this.last.value;
    let from = index;
    while (from >= 0 && this.writes[from].items && !this.writes[from].snapshot) from--;
    const base = from < 0 ? this.opening : this.writes[from].items ? this.writes[from].snapshot : this.writes[from].value;
    const content = new Content(base);
    for (let i = from + 1; i <= index; i++) content.follow(this.writes[i].items);
    this.last = { index, value: content.whole() };
    return this.last.value;
  }
  // Call back with what it holds first, and then with each write and the value after it.
  walk(visit) {
    let content = new Content(this.opening);
    visit(content, null);
    for (const write of this.writes) {
      if (write.items) content.follow(write.items);
      else content = new Content(write.value);
      visit(content, write);
    }
  }
  // Return whether it has an opening value, or is written in the first `count` events.
  isPutIn(count) {
    return this.opening !== null || this.times[0] < count;
  }
  // Return the index of its last write in the first `count` events, or -1 if there is none.
  indexBefore(count) {
    return firstFrom(this.times, count) - 1;
  }
}

export class Run {
  // `ends` are the numbers of moves at which a segment was full, in a run that continues.
  constructor(header, ends = []) {
    checkHeader(header);
    this.ends = new Set(ends);
    const { agents, capacity, events, part = null, from = 0, moves = 0 } = header;
    // In a window of a segment, `from` events with `moves` moves precede it, of which nothing is known. Its events count from 0
    // here, and are shown with their numbers in the segment; so are its moves.
    Object.assign(this, { agents, capacity, announced: events, part, from, movesBefore: moves });
    this.events = [];
    this.locations = new Map();
    this.moves = []; // the events of the fired moves
    for (const [at, value] of header.init) {
      const it = this.location(at);
      it.opening = value;
      it.content = new Content(value);
    }
  }
  location(at) {
    const key = keyOf(at);
    let found = this.locations.get(key);
    if (!found) this.locations.set(key, found = new Place(at));
    return found;
  }
  add(line) {
    const number = this.events.length;
    checkEvent(line, this.from + number, this.agents);
    if (number === this.announced) throw new Fault(`the header counts ${number} events, and this is one more`);
    const { agent, call, reply } = line;
    const event = { number, ordinal: line.event, agent, kind: kindOf(reply), reply, right: line.right, isWrong: "right" in line, before: this.movesBefore + this.moves.length };
    if ("read" in call) {
      event.read = call.read.map(at => this.location(at));
      if (event.isWrong) event.right = rightValues(event, line.right);
    } else {
      event.fire = call.fire;
      event.targets = call.fire.map(it => this.location(it[1]));
      event.named = call.reads.map(([at, number]) => ({ location: this.location(at), number }));
    }
    for (const answer of event.isWrong ? [reply, event.right] : [reply]) {
      const at = answer.stale ?? answer.clash?.[0];
      if (at) this.location(at);
    }
    this.judge(event, line.updates);
    this.events.push(event);
  }
  // Apply what the event changes. `doubt` is what doesn't match what the trace has so far.
  judge(event, updates) {
    const effects = effectsFor(event, this), doubt = doubtOf(event, effects, this);
    if (event.kind === "fired") this.fire(event, updates);
    if (doubt) event.doubt = doubt;
    else if (event.kind === "fired" && !isDone(event, effects)) event.doubt = { isChange: true };
  }
  fire(event, updates) {
    this.moves.push(event.number);
    event.move = this.movesBefore + this.moves.length;
    event.writes = updates.map(([at, ...change]) => {
      const location = event.targets.find(it => isSame(it.at, at)) ?? this.location(at), write = { event: event.number, move: event.move, agent: event.agent, location, index: location.writes.length };
      if (!location.take(write, change)) throw new Fault(`its change at ${location.label} doesn't fit the value there`);
      return write;
    });
  }
  finish() {
    this.sorted = [...this.locations.values()].sort((a, b) => byLocation(a.at, b.at));
    for (const it of this.sorted) it.content = null;
    this.byAgent = Array.from({ length: this.agents }, () => []);
    this.byKind = Object.fromEntries(KINDS.map(kind => [kind, []]));
    this.wrong = [];
    this.doubted = [];
    for (const it of this.events) {
      this.byAgent[it.agent].push(it.number);
      this.byKind[it.kind].push(it.number);
      if (it.isWrong) this.wrong.push(it.number);
      if (it.doubt) this.doubted.push(it.number);
    }
    return this;
  }
  // Return how many moves have fired once the first `count` events are done, including those before a window.
  movesIn(count) {
    return this.movesBefore + firstFrom(this.moves, count);
  }
  // Return how many events there are up to that move, including it.
  eventsTo(move) {
    const index = move - this.movesBefore;
    return index <= 0 ? 0 : index > this.moves.length ? this.events.length : this.moves[index - 1] + 1;
  }
  // Return whether the state after this many moves is known. Before a window it isn't.
  isKnownAfter(moves) {
    return moves >= this.movesBefore;
  }
  lastWrite(location, count) {
    return location.writes[location.indexBefore(count)] ?? null;
  }
  valueAt(location, count) {
    return location.after(location.indexBefore(count));
  }
  isUndefAt(location, count) {
    const write = this.lastWrite(location, count);
    return (write ? write.items ? 0 : write.value : location.opening) === null;
  }
  // Return the writes of the location by moves above that number, before the event. Those before a window are unknown.
  writesSince(location, number, event) {
    if (!this.isKnownAfter(number)) return null;
    const from = firstFrom(location.writes, number + 1, it => it.move), to = firstFrom(location.times, event.number);
    return from < to ? { first: location.writes[from], count: to - from } : null;
  }
  // Return what the event has to do with the location, or null.
  howTouched(event, location) {
    if (event.writes?.some(it => it.location === location)) return "wrote";
    const at = event.reply.stale ?? event.reply.clash?.[0];
    if (at && keyOf(at) === location.key) return event.kind;
    if (event.read?.includes(location)) return "read";
    if (event.targets?.includes(location)) return "target";
    return event.named?.some(it => it.location === location) ? "named" : null;
  }
}

// Return the bytes of a file, which may be compressed with gzip.
async function bytesOf(file) {
  const [first, second] = new Uint8Array(await file.slice(0, 2).arrayBuffer());
  return first === 0x1f && second === 0x8b ? file.stream().pipeThrough(new DecompressionStream("gzip")) : file.stream();
}
// Read a trace from a text or a file, line by line and in turns, so that the page stays responsive.
export async function readRun(source, progress, ends = []) {
  const reading = new Lines(ends), isText = typeof source === "string";
  const reader = isText ? null : (await bytesOf(source)).getReader(), decoder = new TextDecoder("utf-8", { fatal: true });
  let done = 0, since = performance.now();
  for (;;) {
    const from = done, part = isText ? { done: from >= source.length, value: source.slice(from, from + 2 ** 20) } : await reader.read();
    if (part.done) break;
    done += part.value.length;
    let text = part.value;
    if (!isText) {
      try {
        text = decoder.decode(part.value, { stream: true });
      } catch {
        throw new Fault("This is no trace: its bytes are no text in UTF-8.");
      }
    }
    for (const line of reading.of(text)) {
      reading.take(line);
      if (performance.now() - since < 30) continue;
      progress(Math.min(0.99, done / (isText ? source.length : source.size)));
      await new Promise(go => setTimeout(go));
      since = performance.now();
    }
  }
  return reading.finish();
}

// The limit of a trace's line, in characters: an event of a journal has at most 16 MiB, and its trace has each value at most
// twice more.
const MOST_LINE = 2 ** 27;
class Lines {
  constructor(ends) {
    this.ends = ends;
    this.unread = "";
    this.number = 0;
    this.run = null;
  }
  // Return the lines that end within the text. What is behind them begins the next line.
  of(text) {
    const lines = (this.unread + text).split("\n");
    this.unread = lines.pop();
    if (this.unread.length > MOST_LINE) throw new Fault("This is no trace: one of its lines has no end.");
    return lines;
  }
  take(line) {
    this.number++;
    let value;
    try {
      value = readJson(line);
    } catch (fault) {
      throw new Fault(this.run ? `Line ${this.number} can't be read: ${fault.message}.` : "This is no trace: its first line isn't JSON.");
    }
    try {
      if (this.run) this.run.add(value);
      else this.run = new Run(value, this.ends);
    } catch (fault) {
      if (!(fault instanceof Fault)) throw fault;
      throw new Fault(fault.message.startsWith("This ") ? fault.message : `Line ${this.number} doesn't fit a trace: ${fault.message}.`);
    }
  }
  // A trace that was cut off has fewer events than its header counts. Half a line at its end is left out.
  finish() {
    if (!this.run && !this.unread) throw new Fault("This file is empty.");
    if (!this.run) this.take(this.unread);
    else if (this.unread) this.takeLast();
    return this.run.finish();
  }
  takeLast() {
    try {
      this.take(this.unread);
    } catch (fault) {
      if (this.run.events.length === this.run.announced) throw fault;
    }
  }
}

// What the page shows now, and what its parts ask of each other.

// `count` events are done, so the chosen event is the last of these; in the opening state none is chosen. `mark` is another such
// count, with which the state is compared. `holds` are the stretches of counts in which the condition holds. `onsets` are the
// moments at which it starts to hold, with their locations, and `onset` is the location of the moment that was visited. `plot`
// has the numbers that are drawn, and `range` the events that are measured, from the first one on and before the second.
export const shown = { run: null, count: 0, location: null, mark: null, holds: [], onsets: [], onset: null, plot: null, range: null };
export const chosen = () => shown.count ? shown.run.events[shown.count - 1] : null;

// Set where the page is put together: `choose(count, how)`, `chooseLocation(location)`, `list(asked)`, which lists the events
// that are asked for, `mark(count)`, `speak(text)`, `show()`, and `changed(isJump)`, which updates the address.
export const act = {};
