// The list of events, and its search.
import { changeText } from "./change.js";
import { faultText } from "./event.js";
import { filter, forgetTexts, isFiltered, isListed, LABELS, listIndex, listItem, listLength, nextListed, ofKind, setFilter } from "./filter.js";
import { List, ROW } from "./lists.js";
import { $, glyph, make, span } from "./nodes.js";
import { act, isBad, shown } from "./run.js";
import { grouped, isSame, locationText, shortText } from "./terms.js";

const MOST_NAMED = 4;

// Return what the event did, with values, for a row of the list.
function whatNodes(event) {
  const { run } = shown, named = (list, text) => list.slice(0, MOST_NAMED).flatMap((it, i) => [i ? ", " : " ", span("name", it.label), " ", text(it, i)]).concat(list.length > MOST_NAMED ? ", …" : "");
  if (event.kind === "fired") return [make("b", {}, `move ${event.move}`), span("names", named(event.writes.map(it => it.location), (_, i) => changeText(event.writes[i])))];
  if (event.kind === "read") return ["read", span("names", named(event.read, (_, i) => shortText(event.reply.values[i])))];
  if (event.kind === "stale") return ["stale", span("names", staleNodes(event, run.location(event.reply.stale)))];
  return event.kind === "clash" ? [`clash ${event.reply.clash[1]}`, span("names", " ", span("name", locationText(event.reply.clash[0])))] : "full";
}
// Return the value that a stale fire depends on, and the present one. Omit it for sets and bags, whose values would have to be
// computed.
function staleNodes(event, location) {
  const { run } = shown;
  if (run.lastWrite(location, event.number)?.items) return [" ", span("name", location.label)];
  const numbers = event.named.filter(it => it.location === location && it.number <= event.before && run.isKnownAfter(it.number)).map(it => it.number);
  const values = numbers.length ? [run.valueAt(location, run.eventsTo(Math.min(...numbers))), run.valueAt(location, event.number)] : [];
  return [" ", span("name", location.label), values.length && !isSame(...values) ? ` ${changeText({ old: values[0], value: values[1] })}` : ""];
}
const labelOf = (event, what) => `Event ${event.ordinal}, agent ${event.agent}: ${what}${faultText(event)}`;
function eventRow(i) {
  const event = shown.run.events[listItem(i)], isChosen = event.number === shown.count - 1, what = span("what", whatNodes(event));
  what.title = what.textContent;
  const attributes = { role: "option", "aria-selected": String(isChosen), "aria-posinset": i + 1, "aria-setsize": listLength(), "aria-label": labelOf(event, what.textContent) };
  return make("div", { class: "row event", id: `event-${event.number}`, ...attributes, onclick: () => act.choose(event.number + 1, { isPressed: true }) },
    span("number", String(event.ordinal)), glyph(event.kind, isBad(event)), span("agent", `a${event.agent}`), what, event.isWrong ? span("tag wrong", "wrong") : null, event.doubt ? span("tag wrong", "doesn't agree") : null);
}
export const events = new List($("events"), ROW, {
  count: listLength,
  sign: i => `${listItem(i)} ${listItem(i) === shown.count - 1} ${listLength()}`,
  make: eventRow,
  empty: () => shown.run.events.length ? "No event is as asked for." : "This run has no event.",
});
// The row of the chosen event, or of the next one in the list.
const eventIndex = () => Math.min(isFiltered() ? listIndex(shown.count - 1) : shown.count - 1, listLength() - 1);
export function showEvents() {
  events.show(eventIndex());
  events.setActive(`event-${shown.count - 1}`);
  $("events-off").hidden = !shown.count || isListed(shown.count - 1);
}

// ---- search
export function relist(asked) {
  setFilter(asked);
  $("events-agent").value = filter.agent;
  if (document.activeElement !== $("events-find")) $("events-find").value = filter.text;
  $("events-count").textContent = isFiltered() ? `${grouped(listLength())} of ${grouped(shown.run.events.length)}` : "";
  $("events-clear").hidden = !isFiltered();
  showHere();
  showKinds();
  showEvents();
  act.draw();
}
const ask = change => act.list({ ...filter, ...change });
function showKinds() {
  const { run } = shown, countOf = kind => ofKind(kind)?.length ?? run.events.length, isThere = it => it === "all" || it === filter.kind || (it !== "unput" && countOf(it));
  const chip = (kind, title, isPressed, act, ...children) => make("button", { class: `chip ${kind}`, type: "button", title, "aria-label": title, "aria-pressed": String(isPressed), onclick: act }, children);
  const press = kind => () => {
    ask({ kind, cause: null });
    $("kinds").querySelector("[aria-pressed=true]")?.focus();
  };
  const off = (what, change) => chip("off", `Not only ${what}`, true, () => {
    ask(change);
    $("events-find").focus();
  }, `${what} ×`);
  const place = run.locations.get(filter.place);
  $("kinds").replaceChildren(...Object.keys(LABELS).filter(isThere).map(kind => {
    const title = `${LABELS[kind]}: ${grouped(countOf(kind))}`;
    return chip("", title, filter.kind === kind, press(kind), kind === "all" ? "All" : kind === "wrong" ? "Wrong" : kind === "doubt" ? "Doubtful" : kind === "unput" ? "On nothing put" : [glyph(kind), span("word-of", LABELS[kind])], make("b", {}, grouped(countOf(kind))));
  }), filter.cause ? off(filter.cause, { cause: null }) : "", place ? off(place.label, { place: null }) : "");
}
// Show the option that limits the search to the values of the chosen location.
export function showHere() {
  const { location } = shown, isOffered = !!location && filter.place !== location.key;
  $("events-here").hidden = !isOffered;
  if (isOffered) $("events-here").replaceChildren("only ", span("name", location.label));
  $("events-find").placeholder = filter.place ? "Find in its values" : "Find in events";
}
$("events-here").addEventListener("click", () => {
  ask({ place: shown.location.key, kind: "all", cause: null });
  $("events-find").focus();
});
$("events-clear").addEventListener("click", () => {
  act.list({});
  $("events-find").value = "";
  $("events").focus();
});
$("events-off").querySelector("button").addEventListener("click", () => $("events-clear").click());
$("events-find").addEventListener("input", () => act.list({ ...filter, text: $("events-find").value }, true));
$("events-find").addEventListener("keydown", event => {
  if (event.key !== "Enter") return;
  event.preventDefault();
  const by = event.shiftKey ? -1 : 1, to = nextListed(shown.count - 1, by);
  if (to === null) act.speak(`No ${by > 0 ? "later" : "earlier"} event is found`);
  else act.choose(to + 1);
});
$("events-agent").addEventListener("change", () => ask({ agent: $("events-agent").value }));
$("events").addEventListener("keydown", event => {
  const by = { ArrowDown: 1, ArrowUp: -1, PageDown: 12, PageUp: -12 }[event.key];
  if (!by || !listLength()) return;
  event.preventDefault();
  const at = listIndex(shown.count - 1), to = by < 0 || isListed(shown.count - 1) ? at + by : at + by - 1;
  act.choose(listItem(Math.max(0, Math.min(listLength() - 1, to))) + 1, { isStep: true });
});

export function renewEvents() {
  const { run } = shown;
  forgetTexts();
  $("events-find").value = "";
  $("events-agent").replaceChildren(make("option", { value: "all" }, "All agents"), ...run.byAgent.map((_, i) => make("option", { value: i }, `Agent ${i}`)));
  $("events").style.setProperty("--digits", `${String(Math.max(0, run.from + run.events.length - 1)).length}ch`);
  events.clear();
}
