// The ways from the chosen event to another one, and their keys. Ways along events visit only listed events.
import { ownReads, retryOf, tryBefore } from "./chains.js";
import { isFiltered, listItem, listLength, nextListed, nextOf, ofKind } from "./filter.js";
import { fit, zoom } from "./lanes.js";
import { $, runName } from "./nodes.js";
import { isPlaying, play } from "./play.js";
import { endRange } from "./pointing.js";
import { foldLanes } from "./room.js";
import { act, chosen, shown } from "./run.js";
import { firstFrom } from "./terms.js";
import { goToHold } from "./watch.js";

const amongListed = () => isFiltered() ? " among those listed" : "";
const none = (by, what) => act.speak(`No ${by > 0 ? "later" : "earlier"} ${what}`);
// Go to the next event or to the one before; return false if there is none.
function step(by) {
  const to = isFiltered() ? nextListed(shown.count - 1, by) : shown.count - 1 + by;
  if (to === null || to < -1 || to >= shown.run.events.length) {
    none(by, `event${amongListed()}`);
    return false;
  }
  act.choose(to + 1, { isStep: true });
  return true;
}
// Go to the next event of an ascending list, or to the one before.
function jump(list, by, what) {
  const to = nextOf(list, shown.count - 1, by);
  if (to === null) none(by, what + amongListed());
  else act.choose(to + 1);
}
function jumpMove(by) {
  const { moves } = shown.run, isFirst = by < 0 && !isFiltered() && firstFrom(moves, shown.count - 1) === 0;
  if (isFirst) act.choose(0);
  else jump(moves, by, "move");
}
function jumpWrite(by) {
  const { location, count } = shown;
  if (!location) return act.speak("No location is chosen");
  const i = by > 0 ? firstFrom(location.times, count) : firstFrom(location.times, count - 1) - 1;
  if (location.times[i] === undefined) none(by, "write of the location");
  else act.choose(location.times[i] + 1);
}
function jumpOfAgent(by) {
  const event = chosen();
  if (!event) return act.speak("No event is chosen");
  const list = shown.run.byAgent[event.agent], to = list[firstFrom(list, event.number) + by];
  if (to === undefined) none(by, `event of agent ${event.agent}`);
  else act.choose(to + 1);
}
// Go to the last event of the chosen event's agent, or to its first.
function jumpToEndOfAgent(by) {
  const event = chosen(), list = event && shown.run.byAgent[event.agent];
  if (list) act.choose((by > 0 ? list.at(-1) : list[0]) + 1);
  else act.speak("No event is chosen");
}
// Go to an event that is related to the chosen one.
function follow(find, what) {
  const event = chosen(), to = event && find(event);
  if (to) act.choose(to.number + 1);
  else act.speak(event ? `The event has no ${what}` : "No event is chosen");
}
const lastRead = event => [...ownReads(event).values()].sort((a, b) => b.number - a.number)[0];

export function showSteps() {
  const { run, count } = shown, isBegin = count === 0, isEnd = count === run.events.length;
  for (const id of ["first", "move-back"]) $(id).disabled = isBegin;
  $("move-on").disabled = isEnd;
  $("back").disabled = isFiltered() ? nextListed(count - 1, -1) === null : isBegin;
  $("on").disabled = isFiltered() ? nextListed(count - 1, 1) === null : isEnd;
  $("last").disabled = !listLength() || count === listItem(listLength() - 1) + 1;
}
const acts = {
  first: () => act.choose(0), last: () => listLength() ? act.choose(listItem(listLength() - 1) + 1) : none(1, `event${amongListed()}`), back: () => step(-1), on: () => step(1),
  "move-back": () => jumpMove(-1), "move-on": () => jumpMove(1), play: () => play(!isPlaying() && canGoOn(), () => step(1) && canGoOn()),
  "zoom-in": () => zoom(1.6), "zoom-out": () => zoom(1 / 1.6), fit, "write-back": () => jumpWrite(-1), "write-on": () => jumpWrite(1), "writes-close": () => act.chooseLocation(null),
  "help-open": () => $("help").showModal(),
};
const canGoOn = () => isFiltered() ? nextListed(shown.count - 1, 1) !== null : shown.count < shown.run.events.length;
for (const id in acts) $(id).addEventListener("click", acts[id]);
$("speed").addEventListener("change", () => {
  if (!isPlaying()) return;
  play(false);
  acts.play();
});
$("slider").addEventListener("input", () => act.choose(+$("slider").value, { isStep: true }));
$("move").addEventListener("change", () => {
  const number = Number.parseInt($("move").value.replaceAll(/\D/g, ""), 10);
  const { run } = shown, last = run.movesIn(run.events.length);
  $("move").blur();
  if (number > last) act.speak(last ? `The last move is move ${last}` : `The ${runName()} has no move`);
  else if (number < run.movesBefore) act.speak(`Move ${number} is before the window, which begins after move ${run.movesBefore}`);
  else if (number >= 0) act.choose(run.eventsTo(number));
  $("move").value = shown.run.movesIn(shown.count);
});

function find(id) {
  $(id).focus();
  $(id).select();
}
function escape() {
  if (shown.range) endRange();
  else if (shown.location) act.chooseLocation(null);
  else if (shown.mark !== null) act.mark(null);
}
const keys = {
  ArrowLeft: by => by > 0 ? acts.back() : jumpMove(-1), ArrowRight: by => by > 0 ? acts.on() : jumpMove(1), Home: acts.first, End: acts.last,
  c: by => jump(shown.run.byKind.clash, by, "clash"), s: by => jump(shown.run.byKind.stale, by, "stale fire"), w: by => jump(ofKind("bad"), by, "wrong or doubtful answer"),
  a: jumpOfAgent, z: jumpToEndOfAgent, r: () => follow(lastRead, "read of its own"), t: by => by > 0 ? follow(retryOf, "later try") : follow(tryBefore, "earlier try"),
  n: goToHold, v: () => find("watch"), m: () => act.mark(shown.mark === null ? shown.count : null), x: () => act.list({}), l: foldLanes,
  "[": acts["write-back"], "]": acts["write-on"], "/": () => find("state-find"), e: () => find("events-find"), g: () => find("move"),
  "+": acts["zoom-in"], "=": acts["zoom-in"], "-": acts["zoom-out"], "−": acts["zoom-out"], 0: fit, "?": acts["help-open"], Escape: escape, " ": acts.play,
};
document.addEventListener("keydown", event => {
  if (!shown.run || event.ctrlKey || event.metaKey || event.altKey || event.defaultPrevented || $("help").open) return;
  const { target, key } = event;
  if (target.matches("input:not([type=range], [type=checkbox]), select")) {
    if (key !== "Escape") return;
    event.preventDefault(); // it would empty the field
    target.blur();
    return;
  }
  if (key === " " && target.matches("button, input")) return; // the key presses that
  const does = keys[key] ?? keys[key.toLowerCase()];
  if (!does) return;
  event.preventDefault();
  does(event.shiftKey ? -1 : 1);
});
