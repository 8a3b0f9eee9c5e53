// The summary of a run, beside its opening state: what to look at first. Each line lists the events that it counts.
import { chainsOf, unputIn } from "./chains.js";
import { block } from "./event.js";
import { ofKind } from "./filter.js";
import { beginningText, button, glyph, make, span } from "./nodes.js";
import { act, shown } from "./run.js";
import { grouped, keyOf, locationText, plural } from "./terms.js";

const MOST_LINES = 6;

export function openingNode() {
  const { run } = shown, hasEvents = run.events.length > 0;
  return make("div", { class: "detail" },
    make("h2", { class: "title" }, beginningText()),
    make("p", { class: "soft" }, hasEvents
      ? ["The state before the first event. Step on with ", make("kbd", {}, "→"), ", play with ", make("kbd", {}, "Space"), ", or press a line to list its events."]
      : run.part === null ? "No call was made in this run, so the opening state is all there is." : "The window has no event, so this state is all there is."),
    hasEvents ? make("div", { class: "summary" }, shares(), longestChain(run), ...blocksOf(run)) : null, facts(), hasEvents ? marksNode() : null);
}
function facts() {
  const { run } = shown, place = run.part === null ? [] : [["Part", run.part], ["Events before", run.from], ["Moves before", run.movesBefore]];
  const all = [...place, ["Agents", run.agents], ["Events", run.events.length], ["Locations", run.sorted.length], ["Capacity, in moves", run.capacity]];
  return block("The run", make("dl", { class: "facts" }, all.map(([name, number]) => make("div", {}, make("dt", {}, name), make("dd", {}, grouped(number))))));
}
const NAMES = { fired: "Fired moves", read: "Reads", stale: "Stale fires", clash: "Clashes", full: "Full" };
function shares() {
  const { run } = shown, all = run.events.length;
  const lines = Object.keys(NAMES).map(kind => ({ count: run.byKind[kind].length, label: [glyph(kind), ` ${NAMES[kind]}`], asked: { kind } }));
  if (run.wrong.length) lines.push({ count: run.wrong.length, label: [glyph("read", true), " Wrong answers"], asked: { kind: "wrong" } });
  if (run.doubted.length) lines.push({ count: run.doubted.length, label: [glyph("read", true), " Doubtful"], asked: { kind: "doubt" } });
  return linesBlock("Answers", lines.filter(it => it.count), all);
}

// Return the block about the fire with the most tries.
function longestChain(run) {
  const { longest } = chainsOf(run);
  if (!longest) return null;
  const [first] = longest, last = longest.at(-1), end = last.kind === "fired" ? `fired in event ${last.ordinal}` : last.kind === "stale" ? "never fired" : `ended with ${last.kind} in event ${last.ordinal}`;
  return block("Longest chain of tries", make("p", {}, button("link", "Go to its first try", () => act.choose(first.number + 1), `${plural(longest.length, "try", "tries")} of agent ${first.agent}`), ` from event ${first.ordinal} on, ${end}.`));
}

// ---- counts, computed once for each run
function blocksOf(run) {
  run.counted ??= counted(run);
  return run.counted.map(({ title, note, lines, all }) => linesBlock(title, lines, all, note));
}
function counted(run) {
  const eventsOf = kind => run.byKind[kind].map(it => run.events[it]), answer = it => it.right ?? it.reply;
  const stale = eventsOf("stale"), clashes = eventsOf("clash"), unput = ofKind("unput").map(it => run.events[it]);
  const stales = { kind: "stale" }, clash = { kind: "clash" };
  return [
    { title: "Stale fires by location", all: stale.length, lines: byPlace(stale, it => [answer(it).stale], stales) },
    { title: "Agents that retry most", note: "Stale fires by agent, of so many fires.", lines: retries(run) },
    { title: "Clashes by location", all: clashes.length, lines: byPlace(clashes, it => [answer(it).clash?.[0]], clash) },
    { title: "Clashes by agent", all: clashes.length, lines: byAgent(clashes, clash) },
    { title: "Clashes by cause", all: clashes.length, lines: lined(clashes.map(it => answer(it).clash?.[1]).filter(Boolean), it => ({ label: it, asked: { ...clash, cause: it } })) },
    { title: "Moves that depend on what was not yet put", all: unput.length, note: "The usual cause of a wrong value in a legal run: undef was read there before anything was put.",
      lines: byPlace(unput, it => unputIn(it).map(place => place.at), { kind: "unput" }) },
  ].filter(it => it.lines.length);
}
// Return a line for each different item, with how often it occurs, the most frequent first.
function lined(items, line, keyed = it => it) {
  const counts = new Map();
  for (const it of items) {
    const found = counts.get(keyed(it));
    if (found) found.count++;
    else counts.set(keyed(it), { count: 1, ...line(it) });
  }
  return [...counts.values()].sort((a, b) => b.count - a.count);
}
const byPlace = (events, placesOf, asked) => lined(events.flatMap(placesOf).filter(Boolean), at => ({ label: span("at", locationText(at)), asked: { ...asked, place: keyOf(at) } }), keyOf);
const byAgent = (events, asked) => lined(events.map(it => it.agent), agent => ({ label: `agent ${agent}`, asked: { ...asked, agent } }));
// Return for each agent with a stale fire: these, the longest series of them, and all its fires.
function retries(run) {
  const out = [];
  run.byAgent.forEach((list, agent) => {
    let fires = 0, count = 0, row = 0, most = 0;
    for (const number of list) {
      const { kind, fire } = run.events[number];
      if (!fire) continue;
      fires++;
      row = kind === "stale" ? row + 1 : 0;
      if (row) count++;
      most = Math.max(most, row);
    }
    if (count) out.push({ count, all: fires, label: `agent ${agent}`, more: ` of ${grouped(fires)}${most > 1 ? `, ${grouped(most)} in a row` : ""}`, asked: { kind: "stale", agent } });
  });
  return out.sort((a, b) => b.count - a.count);
}

// ---- nodes
function linesBlock(title, lines, all, note = null, most = MOST_LINES) {
  const left = lines.length - most, shownLines = left > 1 ? lines.slice(0, most) : lines;
  const out = block(title, note ? make("p", { class: "soft small" }, note) : null, make("ul", { class: "lines" }, shownLines.map(it => lineNode(it, it.all ?? all))),
    left > 1 ? button("link rest-lines", "Show all lines", () => out.replaceWith(linesBlock(title, lines, all, note, Infinity)), `${grouped(left)} more`) : null);
  return out;
}
function lineNode({ count, label, more = null, asked }, all) {
  const bar = make("i");
  bar.style.width = `${Math.max(1.5, 100 * count / Math.max(1, all)).toFixed(1)}%`;
  return make("li", {}, button("tally", "List these events", () => act.list(asked),
    span("tally-name", label), span(`share ${asked.kind}`, bar), span("tally-count", make("b", {}, grouped(count)), more)));
}
// Return the legend of the marks in the lanes.
export function marksNode() {
  const { run } = shown, names = { fired: "fired move", read: "read", stale: "stale fire", clash: "clash", full: "full" };
  const kinds = Object.keys(names).filter(it => run.byKind[it].length).map(it => span("", glyph(it), names[it]));
  return block("Marks in the lanes", make("div", { class: "legend" }, kinds, run.wrong.length || run.doubted.length ? span("", glyph("fired", true), "wrong or doubtful") : null,
    span("", span("dash"), "writes the chosen location"), span("", span("dash holds"), "the condition holds"),
    span("", span("dash stale"), "from the move that made it stale"), span("", span("dash ground"), "from what it depends on")));
}
