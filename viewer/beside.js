// Compare the run that is shown with another one: whether one continues the other, where they diverge, and how their states
// differ.
import { eventLink, eventText } from "./event.js";
import { Fault } from "./exact.js";
import { $, button, make, span, valueNode } from "./nodes.js";
import { act, readRun, shown } from "./run.js";
import { grouped, isSame, plainText, plural, withoutIsolates } from "./terms.js";

const MOST_DIFFERING_PLACES = 8;
const callOf = event => event.read ? event.read.map(it => it.at) : [event.fire, event.named.map(it => [it.location.at, it.number])];
const isSameEvent = (a, b) => a.agent === b.agent && !a.read === !b.read && isSame(a.reply, b.reply) && isSame(callOf(a), callOf(b));
const openingOf = run => run.sorted.filter(it => it.opening !== null).map(it => [it.at, it.opening]);
// Whether both begin in the same state, at the same place of a segment.
const isSameBeginning = (a, b) => a.part === b.part && a.from === b.from && isSame(openingOf(a), openingOf(b));
// Return the number of the first event in which two runs differ. One of them may have no event there.
function firstDifference(a, b) {
  const least = Math.min(a.events.length, b.events.length);
  let i = 0;
  while (i < least && isSameEvent(a.events[i], b.events[i])) i++;
  return i;
}
// Whether a run continues another one.
export const isContinuation = (run, old) => run.agents >= old.agents && isSameBeginning(run, old) && run.events.length >= old.events.length && firstDifference(run, old) === old.events.length;

const valueIn = (run, key, count) => run.locations.has(key) ? run.valueAt(run.locations.get(key), count) : null;
// Return the locations whose values differ after the given number of events of each run.
function differingPlaces(a, b, countA, countB) {
  const keys = new Set([...a.sorted, ...b.sorted].map(it => it.key));
  return [...keys].filter(key => !isSame(valueIn(a, key, countA), valueIn(b, key, countB)));
}
// Return the first number of moves, from `from` on, after which the states differ, with the locations; null if they never differ.
function firstStates(a, b, from) {
  const last = Math.max(a.movesIn(a.events.length), b.movesIn(b.events.length)), most = Math.min(a.movesIn(a.events.length), b.movesIn(b.events.length));
  for (let move = from; move <= most; move++) {
    const writes = move > from || from > 0 ? [a, b].flatMap(it => it.events[it.eventsTo(move) - 1]?.writes ?? []) : [];
    const keys = move === from ? differingPlaces(a, b, a.eventsTo(move), b.eventsTo(move)) : [...new Set(writes.map(it => it.location.key))].filter(key => !isSame(valueIn(a, key, a.eventsTo(move)), valueIn(b, key, b.eventsTo(move))));
    if (keys.length) return { move, keys };
  }
  return last > most ? { move: most + 1, keys: differingPlaces(a, b, a.eventsTo(most + 1), b.eventsTo(most + 1)) } : null;
}

// ---- texts
function partingNodes(other, name) {
  const { run } = shown, at = firstDifference(run, other), isSameStart = isSameBeginning(run, other);
  if (isSameStart && at === run.events.length && at === other.events.length) return [`${name} is the same run: all ${plural(at, "event")} are the same.`];
  const states = firstStates(run, other, isSameStart ? run.movesIn(at) : run.movesBefore), here = run.events[at], there = other.events[at];
  const eventWords = event => withoutIsolates(eventText(event)).replace(/^Event [\d,]+, /, "");
  return [
    isSameStart ? `${name} differs from this run from event ${grouped(run.from + at)} on, after ${plural(run.movesIn(at), "move")}.` : `${name} begins in another state.`,
    span("", make("b", {}, "Here: "), here ? [eventLink(here, eventWords(here)), "."] : "no more event."), span("", make("b", {}, "There: "), there ? `${eventWords(there)}.` : "no more event."),
    states && states.keys.length ? span("", `The states differ first after move ${grouped(states.move)}, at ${plural(states.keys.length, "location")}.`) : "The states differ nowhere.",
    states && states.keys.length ? placesNode(other, states) : null,
  ];
}
function placesNode(other, { move, keys }) {
  const { run } = shown, rows = keys.slice(0, MOST_DIFFERING_PLACES).map(key => {
    const place = run.locations.get(key) ?? other.locations.get(key), value = it => valueNode(valueIn(it, key, it.eventsTo(move)), 6);
    return make("tr", {}, make("td", { class: "at" }, span("location", place.label)), make("td", {}, value(run)), make("td", {}, value(other)));
  });
  const heads = ["Location", "Here", "There"].map(it => make("th", { scope: "col" }, it));
  return [make("table", { "aria-label": "What the states differ in" }, make("thead", {}, make("tr", {}, heads)), make("tbody", {}, rows)), keys.length > MOST_DIFFERING_PLACES ? make("p", { class: "soft" }, `and ${grouped(keys.length - MOST_DIFFERING_PLACES)} more`) : null];
}
async function openBeside(file) {
  const name = plainText(file.name), close = button("button small", "Show this run alone", () => {
    $("beside").hidden = true;
  }, "Close");
  const show = nodes => $("beside").replaceChildren(...nodes.flat().filter(it => it !== null), close);
  $("beside").hidden = false;
  show([`Reading ${name} …`]);
  try {
    const other = await readRun(file, () => {});
    show(partingNodes(other, name));
  } catch (fault) {
    show([`${name} could not be compared. ${fault instanceof Fault ? fault.message : plainText(fault.message)}`]);
  }
}
$("beside-open").addEventListener("click", () => $("beside-file").click());
$("beside-file").addEventListener("change", () => {
  if ($("beside-file").files[0]) openBeside($("beside-file").files[0]);
  $("beside-file").value = "";
});

// Return what is retained when a run grows: all that is shown. If the last event was chosen, the new last one will be.
export function retainedView(old) {
  const { count, location, mark, range } = shown;
  return { count: count && count === old.events.length ? Infinity : count, mark, at: location?.key ?? null, range };
}
export const speakGrowth = (run, old) => act.speak(run.events.length > old.events.length ? `The run continues: ${plural(run.events.length - old.events.length, "further event")}` : "The run is the same");
