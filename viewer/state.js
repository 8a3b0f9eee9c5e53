// The state after the chosen event, or how it differs from the state at another moment.
import { changeNode } from "./change.js";
import { hasAll, termsOf } from "./filter.js";
import { List, ROW } from "./lists.js";
import { $, beginningText, glyph, locationNode, make, moveLink, span, valueNode } from "./nodes.js";
import { act, chosen, isBad, shown } from "./run.js";
import { differingItems } from "./shape.js";
import { firstFrom, grouped, keyOf, plural, valueText, withoutIsolates } from "./terms.js";

let rows = []; // the locations in the list
let marks = new Map(); // those that the chosen event touches
let countShown = -1;
const isComparing = () => shown.mark !== null;
// The counts of events that are compared, the earlier one first.
const ends = () => [Math.min(shown.mark, shown.count), Math.max(shown.mark, shown.count)];

function findRows() {
  const { run, count, location } = shown, terms = termsOf($("state-find").value), which = $("state-which").value;
  const isHere = {
    put: it => it.isPutIn(count), held: it => !run.isUndefAt(it, count), all: () => true,
  }[terms.length ? "all" : which];
  const isShown = isComparing() ? isDifferent : it => isHere(it) || marks.has(it) || it === location || it === shown.onset;
  rows = run.sorted.filter(it => (!terms.length || hasAll(withoutIsolates(it.label).toLowerCase(), terms)) && isShown(it));
}
function findMarks() {
  const event = isComparing() ? null : chosen(), answer = event?.right ?? event?.reply;
  marks = new Map();
  if (!event) return;
  for (const it of event.writes ?? []) marks.set(it.location, { kind: "changed", write: it });
  const at = event.writes ? null : answer.stale ?? answer.clash?.[0];
  if (at) marks.set(shown.run.location(at), { kind: answer.stale ? "stale" : "clash" });
}

// ---- two moments
function isDifferent(location) {
  const [from, to] = ends();
  if (location.indexBefore(from) === location.indexBefore(to)) return false;
  return keyOf(shown.run.valueAt(location, from)) !== keyOf(shown.run.valueAt(location, to));
}
// Return how the location differs between both moments, in the form of a write.
function differenceAt(location) {
  const { run } = shown, [from, to] = ends(), old = run.valueAt(location, from), value = run.valueAt(location, to), items = differingItems(old, value);
  if (!items) return { location, old, value };
  return { location, items, isBag: "bag" in value, size: (value.set ?? value.bag).length, index: location.indexBefore(to) };
}
const moveAt = count => count ? shown.run.events[count - 1].move : null;
const momentText = count => moveAt(count) ? `Move ${moveAt(count)}` : count ? `Event ${shown.run.events[count - 1].ordinal}` : beginningText();
$("state-compare").addEventListener("click", () => act.mark(isComparing() ? null : shown.count));

function stateRow(i) {
  const { run, count } = shown, location = rows[i], mark = marks.get(location), at = isComparing() ? ends()[1] : count, write = run.lastWrite(location, at), value = run.valueAt(location, at);
  const kind = mark ? mark.kind : value === null ? "nothing" : "", isChosen = location === shown.location;
  const content = isComparing() ? changeNode(differenceAt(location), 4, true) : mark?.write ? changeNode(mark.write, 4, true) : valueNode(value, 8);
  return make("div", { class: `row place ${kind} ${location === shown.onset ? "onset" : ""}`, id: `place-${i}`, role: "row", "aria-rowindex": i + 2, "aria-selected": String(isChosen), onclick: () => act.chooseLocation(location) },
    make("span", { role: "gridcell", title: location.label }, locationNode(location)),
    make("span", { role: "gridcell", title: valueText(value).slice(0, 600) }, content),
    make("span", { role: "gridcell", class: "by" }, write ? [moveLink(write), ` a${write.agent}`] : value !== null || run.from ? beginningText().toLowerCase() : "not yet written"));
}
export const state = new List($("state"), ROW, {
  count: () => rows.length,
  sign: i => `${rows[i].key} ${shown.run.lastWrite(rows[i], shown.count)?.event} ${marks.get(rows[i])?.kind} ${rows[i] === shown.location} ${rows[i] === shown.onset} ${shown.mark} ${isComparing() && shown.count}`,
  make: stateRow,
  empty: () => isComparing() ? "Nothing differs between the two." : !shown.run.sorted.length ? "No location is written or read in this run."
    : $("state-find").value ? "No location is called so." : $("state-which").value === "held" ? "No location holds a value." : "Nothing is put yet.",
});
function titleText() {
  const { count, run } = shown, moves = run.movesIn(count);
  if (isComparing()) return ends().every(moveAt) ? `Move ${moveAt(ends()[0])} → ${moveAt(ends()[1])}` : `${momentText(ends()[0])} → ${momentText(ends()[1])}`;
  return !count ? beginningText() : moves ? `After move ${moves}` : "Before any move";
}
export function showState() {
  const { run, location } = shown;
  findMarks();
  findRows();
  const left = run.sorted.length - rows.length;
  $("state-title").replaceChildren(titleText(), " ", make("span", { class: "faint" }, isComparing() ? `${grouped(rows.length)} differ` : left ? `${grouped(rows.length)} of ${grouped(run.sorted.length)}` : ""));
  $("state-compare").setAttribute("aria-pressed", String(isComparing()));
  $("state").setAttribute("aria-rowcount", rows.length + 1);
  const first = marks.size && countShown !== shown.count ? rows.findIndex(it => marks.has(it)) : -1;
  countShown = shown.count;
  const isSeen = first < 0 || rows.some((it, i) => marks.has(it) && state.sees(i));
  state.show(isSeen ? -1 : first);
  state.setActive(location ? `place-${rows.indexOf(location)}` : null);
}
// Bring a location into sight, if it is listed.
export function revealAt(place) {
  if (!place) return;
  showState();
  state.show(rows.indexOf(place));
}
// Bring the chosen location into sight, if it is listed.
export const revealPlace = () => revealAt(shown.location);
$("state-find").addEventListener("input", showState);
// Enter moves along the results.
$("state-find").addEventListener("keydown", event => {
  if (event.key !== "Enter" || !rows.length) return;
  event.preventDefault();
  const at = rows.indexOf(shown.location), to = at < 0 ? 0 : (at + (event.shiftKey ? rows.length - 1 : 1)) % rows.length;
  act.chooseLocation(rows[to]);
});
$("state-which").addEventListener("change", showState);
$("state").addEventListener("keydown", event => {
  const by = { ArrowDown: 1, ArrowUp: -1 }[event.key];
  if (!by || !rows.length) return;
  event.preventDefault();
  const to = Math.max(0, Math.min(rows.length - 1, rows.indexOf(shown.location) + by));
  act.chooseLocation(rows[to], true);
});

export function renewState() {
  const { run } = shown, writer = `move ${run.movesIn(run.events.length)} a${Math.max(0, run.agents - 1)}`;
  countShown = -1;
  $("state-find").value = "";
  $("state-which").value = "put";
  $("side").style.setProperty("--writer", `${Math.max(14, Math.ceil(writer.length * 0.95))}ch`);
  state.clear();
}

// ---- the writes of one location

const HOW = { read: "read", named: "rested on by a fire", target: "an update wasn't fired", stale: "stale", clash: "clash", wrote: "written" };
let items = []; // of the chosen location: each write, or each event that touches it
function findItems() {
  const { run, location } = shown;
  if (!$("writes-reads").checked) items = location.writes.map(write => ({ event: write.event, write }));
  else {
    const writes = new Map(location.writes.map(it => [it.event, it]));
    items = run.events.map(it => ({ event: it.number, write: writes.get(it.number), how: run.howTouched(it, location) })).filter(it => it.how);
  }
}
// The row of the last item up to the chosen event. The opening value has row 0.
const itemIndex = () => firstFrom(items, shown.count, it => it.event);
function writeRow(i) {
  const now = itemIndex(), item = items[i - 1], isNow = i === now, event = i ? shown.run.events[item.event] : null;
  const kind = `row write ${isNow ? "now" : ""} ${i > now ? "later" : ""}`, attributes = { role: "option", "aria-selected": String(isNow), "aria-posinset": i + 1, "aria-setsize": items.length + 1 };
  return make("div", { class: kind, id: `write-${i}`, ...attributes, onclick: () => act.choose(i ? item.event + 1 : 0, { isPressed: true }) },
    span("", !i ? (shown.run.from ? "before" : "opening") : item.write ? `move ${item.write.move}` : `event ${event.ordinal}`), span("", i ? `agent ${event.agent}` : ""),
    span("", !i ? valueNode(shown.location.opening, 8) : item.write ? changeNode(item.write, 5, true) : [glyph(event.kind, isBad(event)), ` ${HOW[item.how]}`]));
}
export const writes = new List($("writes"), ROW, {
  count: () => items.length + 1,
  sign: i => `${shown.location.key} ${items.length} ${i === itemIndex()} ${i > itemIndex()} ${i ? items[i - 1].event : ""}`,
  make: writeRow,
  empty: () => "",
});
let itemsOfLocation = null;
export function showWrites(isFresh = false) {
  const { location } = shown;
  $("writes-pane").hidden = !location;
  $("side").classList.toggle("both", !!location);
  if (!location) return void (itemsOfLocation = null);
  if (isFresh || itemsOfLocation !== location) findItems();
  itemsOfLocation = location;
  $("writes-title").replaceChildren(span("at", location.label), span("faint", plural(location.writes.length, "write")));
  writes.show(itemIndex());
  writes.setActive(`write-${itemIndex()}`);
}
$("writes-reads").addEventListener("change", () => showWrites(true));
$("writes").addEventListener("keydown", event => {
  const by = { ArrowDown: 1, ArrowUp: -1 }[event.key];
  if (!by) return;
  event.preventDefault();
  const to = itemIndex() + by;
  if (to === 0) act.choose(0, { isStep: true });
  else if (to > 0 && to <= items.length) act.choose(items[to - 1].event + 1, { isStep: true });
});

export function renewWrites() {
  $("writes-reads").checked = false;
  itemsOfLocation = null;
  writes.clear();
}
