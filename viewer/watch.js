// The condition or the expression that is asked for: when it holds, its values, and the ways to these moments.
import { isOperand, KEYWORDS, operandsOf, operandText, patternText, readCondition } from "./condition.js";
import { Fault } from "./exact.js";
import { isByPlace, momentsOf, placesOf, plotted, rangeOf, seriesOf } from "./moments.js";
import { $, make } from "./nodes.js";
import { act, shown } from "./run.js";
import { revealAt } from "./state.js";
import { firstFrom, grouped, isNumber, nearestName, plural, shortText, withoutIsolates } from "./terms.js";

let condition = null; // the present condition, with its text and the location that was chosen then
let fault = "", isFaultShown = true; // what is wrong with it, and whether that is shown yet
let range = null, at = -1; // the smallest and greatest number of its first operand, and the moment of it that was visited

export const conditionText = () => condition?.text ?? "";
// Take in a condition or an expression, and find when it holds.
export function watch(text) {
  condition = null;
  fault = "";
  if (text.trim()) {
    try {
      condition = { text: text.trim(), tree: readCondition(text) };
    } catch (found) {
      if (!(found instanceof Fault)) throw found;
      fault = found.message;
    }
  }
  findMoments();
}
function findMoments() {
  const { run, location } = shown;
  Object.assign(shown, { holds: [], onsets: [], onset: null, plot: null });
  at = -1;
  range = null;
  if (condition) {
    condition.of = location;
    fault = lackOf(condition.tree);
    if (!fault) take(condition.tree);
  }
  if (!shown.plot && location && (location.writes.some(it => isNumber(it.value)) || isNumber(location.opening))) plot({ pattern: null });
  function take(tree) {
    const operand = plotted(tree);
    if (!isOperand(tree)) {
      const { stretches, onsets } = momentsOf(run, tree, location);
      Object.assign(shown, { holds: stretches, onsets });
    }
    if (operand) plot(operand);
    range = isOperand(tree) || operandsOf(tree).length ? rangeOf(run, operandsOf(tree)[0], location) : null;
  }
}
function plot(operand) {
  const series = seriesOf(shown.run, operand, shown.location), numbers = series.map(it => it[1]).filter(it => it !== null);
  if (numbers.length) shown.plot = { text: operandText(operand, shown.location), series, least: Math.min(...extremes(numbers)), most: Math.max(...extremes(numbers)) };
}
const extremes = numbers => numbers.reduce(([least, most], it) => [Math.min(least, it), Math.max(most, it)], [Infinity, -Infinity]);
// Return in words what a condition names that the run doesn't have.
function lackOf(tree) {
  for (const operand of operandsOf(tree)) {
    if ("value" in operand || placesOf(shown.run, operand.pattern, shown.location).length) continue;
    if (!operand.pattern) return "choose a location, or name one before it";
    const near = nearestName(operand.pattern[0], new Set(shown.run.sorted.map(it => it.at[0])));
    return `no location of this run is called ${patternText(operand.pattern)}${near && near !== operand.pattern[0] ? `; did you mean ${near}?` : ""}`;
  }
  return "";
}
// A condition that names no location is about the chosen one. So is the picture if the condition yields none.
export function followLocation() {
  findMoments();
}

// ---- texts
export function showWatch() {
  const text = fault && !isFaultShown ? "" : watchText(), isWrong = !!fault && isFaultShown;
  $("watch-result").textContent = text;
  $("watch-result").title = text;
  $("watch-result").classList.toggle("wrong-words", isWrong);
  $("watch").setAttribute("aria-invalid", String(isWrong));
  for (const id of ["watch-back", "watch-on"]) $(id).disabled = !shown.onsets.length;
}
function watchText() {
  if (fault) return `${fault[0].toUpperCase()}${fault.slice(1)}${/[.?]$/.test(fault) ? "" : "."}`;
  if (!condition) return "";
  const { onsets, holds, count, run } = shown, i = firstFrom(holds, count + 1, it => it[0]) - 1, isNow = i >= 0 && count < holds[i][1];
  const was = range ? `it was ${String(range[0]) === String(range[1]) ? grouped(range[0]) : `${grouped(range[0])} to ${grouped(range[1])}`}` : "";
  if (isOperand(condition.tree)) return was ? `${was[0].toUpperCase()}${was.slice(1)}.` : "It was no number.";
  if (!holds.length) return was ? `Never: ${was}.` : "Never.";
  const here = hereText(), times = timesText();
  if (here) return `${here} (${times}).`;
  return isNow ? `Holds now (${times}), after ${grouped(lengthOf(holds))} of ${grouped(run.events.length)} events.` : `Doesn't hold now (${times}), after ${grouped(lengthOf(holds))} of ${grouped(run.events.length)} events.`;
  function timesText() {
    const places = new Set(onsets.map(it => it.place)).size, which = here ? `${grouped(at + 1)} of ${grouped(onsets.length)}` : plural(onsets.length, "time");
    return isByPlace(condition.tree) && places > 1 ? `${which}, at ${plural(places, "location")}` : which;
  }
}
// Return what starts to hold at the chosen moment, if anything.
function hereText() {
  const { onsets, count } = shown;
  if (onsets[at]?.count !== count) at = firstFrom(onsets, count, it => it.count);
  const here = onsets[at]?.count === count ? onsets[at] : null;
  shown.onset = here?.place ?? null;
  if (!here) return "";
  if (!here.place || !isByPlace(condition.tree)) return "Comes to hold here";
  return `${here.place.label} ${condition.tree.order === "changes" ? "changes to" : count ? "becomes" : "is"} ${shortText(shown.run.valueAt(here.place, count))}`;
}
// (The opening state is a moment, but no event.)
const lengthOf = holds => holds.reduce((all, [from, to]) => all + to - Math.max(1, from), 0);

// ---- moving along
// Go to the next moment at which the condition starts to hold, or to the one before. Several moments may belong to one event.
export function goToHold(by) {
  const { onsets, count } = shown, isHere = onsets[at]?.count === count;
  const to = isHere ? at + by : by > 0 ? firstFrom(onsets, count + 1, it => it.count) : firstFrom(onsets, count, it => it.count) - 1;
  if (!condition) return act.speak("No condition is asked for");
  if (!onsets[to]) return act.speak(`The condition comes to hold at no ${by > 0 ? "later" : "earlier"} event`);
  at = to;
  if (onsets[to].count === count) act.show();
  else act.choose(onsets[to].count);
  revealAt(onsets[to].place);
}
let waiting = 0;
function takeText() {
  clearTimeout(waiting);
  if ($("watch").value.trim() === conditionText() && !fault) return;
  watch($("watch").value);
  act.show();
  act.changed(false);
}
function showFault() {
  isFaultShown = true;
  if (fault) showWatch();
}
$("watch").addEventListener("input", () => {
  isFaultShown = false;
  clearTimeout(waiting);
  waiting = setTimeout(() => shown.run && takeText(), 250);
});
$("watch").addEventListener("keydown", event => {
  if (event.key !== "Enter" || event.defaultPrevented) return;
  event.preventDefault();
  takeText();
  showFault();
  if (!fault && condition && shown.onsets.length) goToHold(event.shiftKey ? -1 : 1);
});
$("watch").addEventListener("blur", () => {
  if (!shown.run) return;
  takeText();
  showFault();
});
$("watch-back").addEventListener("click", () => goToHold(-1));
$("watch-on").addEventListener("click", () => goToHold(1));

// Take in the condition of another run or of another address.
export function renewWatch(text) {
  clearTimeout(waiting);
  $("watch").value = text;
  isFaultShown = true;
  watch(text);
}

// ---- completion: the words of conditions, and the functions and locations of the run

const MOST_OFFERED = 8;
let offered = [], chosenAt = -1, from = 0;
// Return the names of the run: its functions, as patterns if they have arguments, and its locations.
function namesOf(run) {
  return run.names ??= [...new Set([...run.sorted.map(({ at }) => at.length > 1 ? `${at[0]}(${at.slice(1).map(() => "*").join(", ")})` : at[0]), ...run.sorted.map(it => withoutIsolates(it.label)), ...KEYWORDS])];
}
function offer() {
  const field = $("watch"), before = field.value.slice(0, field.selectionStart), started = /[A-Za-z_][\w]*(?:\([^()]*)?$/.exec(before);
  from = started ? started.index : before.length;
  const text = started ? started[0] : "", isEnd = field.selectionStart === field.value.length;
  offered = text && isEnd && shown.run ? namesOf(shown.run).filter(it => it.startsWith(text) && it !== text).slice(0, MOST_OFFERED) : [];
  choose(-1);
}
function choose(i) {
  chosenAt = i;
  const box = $("watch-words");
  box.hidden = !offered.length;
  $("watch").setAttribute("aria-expanded", String(!box.hidden));
  box.replaceChildren(...offered.map((it, at) => make("div", { id: `watch-word-${at}`, role: "option", "aria-selected": String(at === i), onpointerdown: event => take(event, at) }, it)));
  if (i >= 0) $("watch").setAttribute("aria-activedescendant", `watch-word-${i}`);
  else $("watch").removeAttribute("aria-activedescendant");
}
function take(event, i) {
  event.preventDefault();
  const field = $("watch");
  field.value = `${field.value.slice(0, from)}${offered[i]}${KEYWORDS.includes(offered[i]) ? " " : ""}`;
  close();
  field.dispatchEvent(new Event("input"));
  close();
}
function close() {
  offered = [];
  choose(-1);
}
// This listener runs before the condition's own: Enter takes what is chosen here.
$("watch").addEventListener("keydown", event => {
  const by = { ArrowDown: 1, ArrowUp: -1 }[event.key];
  if (!offered.length) return;
  if (by) choose((chosenAt + by + offered.length + (chosenAt < 0 && by < 0 ? 1 : 0)) % offered.length);
  else if (event.key === "Escape") close();
  else if ((event.key === "Enter" && chosenAt >= 0) || (event.key === "Tab" && !event.shiftKey && chosenAt >= 0)) return take(event, chosenAt);
  else return event.key === "Enter" ? close() : undefined;
  event.preventDefault();
}, { capture: true });
$("watch").addEventListener("input", offer);
$("watch").addEventListener("blur", close);
