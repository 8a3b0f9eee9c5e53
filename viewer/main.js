// Put the page together: what is shown, what is chosen, and the change from one run to another.
import { addressed, beforeChange, changed, onAddress } from "./address.js";
import { isContinuation, retainedView, speakGrowth } from "./beside.js";
import { eventNode, eventText } from "./event.js";
import { events, relist, renewEvents, showEvents, showHere } from "./events.js";
import { filter } from "./filter.js";
import { draw, renewLanes, resized } from "./lanes.js";
import { $, beginningText, make, runName, span } from "./nodes.js";
import { openTrace } from "./opening.js";
import "./picture.js";
import { showRange } from "./pointing.js";
import { fitLanes, refit } from "./room.js";
import { act, chosen, shown } from "./run.js";
import { reveal } from "./sight.js";
import { renewState, renewWrites, revealPlace, showState, showWrites, state, writes } from "./state.js";
import { showSteps } from "./steps.js";
import { marksNode, openingNode } from "./summary.js";
import { grouped, plainText, plural } from "./terms.js";
import { paint } from "./theme.js";
import { conditionText, followLocation, renewWatch, showWatch } from "./watch.js";

// ---- choosing
act.draw = draw;
act.changed = changed;
const within = count => Math.max(0, Math.min(shown.run.events.length, count));
act.choose = (count, { keepsView = false, isStep = false, isPressed = false } = {}) => {
  const to = within(count);
  if (isPressed) bring($("detail-pane"));
  if (to === shown.count) return;
  beforeChange();
  shown.count = to;
  if (!keepsView) reveal();
  act.show();
  changed(!isStep);
};
act.chooseLocation = (location, isStep = false) => {
  if (location === shown.location) return location ? bring($("writes-pane")) : undefined;
  beforeChange();
  shown.location = location;
  followLocation();
  showHere();
  if (!location) bringBack(); // before the page gets shorter
  showWrites();
  refit();
  if (location) {
    bring($("writes-pane"));
    revealPlace();
  }
  act.show();
  changed(!isStep);
};
act.list = (filter, isStep = false) => {
  beforeChange();
  relist(filter);
  showSteps();
  if (!isStep) bring($("events-pane"));
  changed(!isStep);
};
// Store a moment, with which the state is compared.
act.mark = count => {
  beforeChange();
  shown.mark = count;
  act.speak(count === null ? "The state is shown without a comparison" : "This moment is marked; choose another one to see what differs");
  act.show();
  changed(true);
};
// If the page is longer than the window, bring what was asked for into sight. `way` is from where and to where.
let way = null;
function bring(pane) {
  const box = pane.getBoundingClientRect(), from = scrollY;
  if (box.top >= 0 && box.bottom <= innerHeight) return;
  pane.scrollIntoView({ block: "nearest" });
  way = { from: way?.to === from ? way.from : from, to: scrollY };
}
function bringBack() {
  if (way?.to === scrollY) scrollTo(0, way.from);
  way = null;
}

// ---- showing
let painting = 0, announcing = 0, hiding = 0, spoken = "";
act.show = () => {
  painting ||= requestAnimationFrame(() => {
    painting = 0;
    if (shown.run) showNow();
  });
};
function showNow() {
  const { run, count } = shown, event = chosen(), text = event ? eventText(event) : beginningText();
  $("slider").value = count;
  $("slider").setAttribute("aria-valuetext", text);
  if (document.activeElement !== $("move")) $("move").value = run.movesIn(count);
  showSteps();
  $("detail").replaceChildren(event ? eventNode(event) : openingNode());
  $("detail").scrollTop = 0;
  showWatch();
  showWrites(); // first, as it takes its room from the state
  refit();
  showState();
  showEvents();
  draw();
  if (text === spoken) return;
  spoken = text;
  clearTimeout(announcing);
  announcing = setTimeout(() => announce(text), 200);
}
function announce(text) {
  $("spoken").textContent = text;
}
// Announce what would otherwise go unnoticed: to screen readers, and for a moment on the page.
act.speak = text => {
  announce(text);
  clearTimeout(announcing);
  clearTimeout(hiding);
  $("toast").textContent = text;
  $("toast").hidden = false;
  hiding = setTimeout(() => {
    $("toast").hidden = true;
  }, 2400);
};

// ---- another run
let isFirst = true;
act.showRun = run => {
  const { name } = run, old = shown.run, isGrown = old !== null && isContinuation(run, old), was = isGrown ? retainedView(old) : null;
  const start = isFirst ? addressed(run) : { count: 0, mark: null, at: null, condition: "", filter: {} };
  isFirst = false;
  Object.assign(shown, { run, count: 0, location: null, mark: null, holds: [], onsets: [], onset: null, plot: null, range: null });
  $("busy").hidden = $("start").hidden = true;
  $("main").hidden = $("help-open").hidden = $("link").hidden = $("beside-open").hidden = false;
  $("beside").hidden = true;
  $("refused").hidden = true;
  $("name").textContent = name;
  document.title = `${name} – Folugben`;
  $("warning").hidden = run.events.length === run.announced && !run.where;
  $("warning").textContent = run.where ? `The run isn't shown to its end: ${run.where}` : `This trace is cut off: it has ${plural(run.events.length, "event")} of ${grouped(run.announced)}. What is there is shown.`;
  $("fit").textContent = `Whole ${runName()}`;
  $("of").textContent = `of ${grouped(run.movesIn(run.events.length))}`;
  $("slider").max = run.events.length;
  showFacts();
  $("help-marks").replaceChildren(marksNode());
  renewEvents();
  renewState();
  renewWrites();
  fitLanes();
  renewLanes();
  if (isGrown) goOn(was, old);
  else goTo(start);
  changed(false, true);
};
// Show a run that has grown as the previous one was shown.
function goOn({ count, mark, at, range }, old) {
  goTo({ count, mark, at, condition: conditionText(), filter: { ...filter } });
  shown.range = range;
  showRange();
  speakGrowth(shown.run, old);
}
// Show what an address names.
function goTo({ count, mark, at, condition, filter }) {
  const { run } = shown;
  Object.assign(shown, { count: within(count), mark: mark === null ? null : within(mark), location: run.locations.get(at) ?? null });
  renewWatch(condition);
  relist(filter);
  showRange();
  reveal();
  showNow();
}
onAddress(goTo);
function showFacts() {
  const { run } = shown, fact = (number, one, title) => make("span", { class: "fact", title }, make("b", {}, grouped(number)), ` ${number === 1 ? one : `${one}s`}`);
  const place = run.part === null ? "" : span("fact", `part ${grouped(run.part)} from event ${grouped(run.from)} on`);
  $("facts").replaceChildren(place, fact(run.agents, "agent", "Agents that call the storage, counted from 0"), fact(run.events.length, "event", "Answered calls: reads and fires, in the order of their answers"), fact(run.moves.length, "move", "Fires that were fired, and so changed the state"), fact(run.sorted.length, "location", "Locations that the run reads, writes or begins with"), ...verdict(run));
}
// Return nodes on whether the run is legal, and who has checked that. The page itself has checked every trace.
const CHECKERS = ["asm_driver", "libfolugben"];
function verdict(run) {
  const to = (list, text, title) => make("button", { class: "fact illegal", type: "button", title, onclick: () => act.choose(list[0] + 1) }, `${text}, the first at event ${run.events[list[0]].ordinal}`);
  if (run.doubted.length) return [to(run.doubted, `doesn't agree with itself: ${plural(run.doubted.length, "event")}`, "Go to the first event that doesn't agree with the trace")];
  if (run.wrong.length) return [to(run.wrong, `not legal: ${plural(run.wrong.length, "wrong answer")}`, "Go to the first wrong answer")];
  const by = CHECKERS.includes(run.by) ? run.by : null;
  const word = run.where ? "legal as far as it is shown" : run.part !== null ? "legal as far as the window shows" : run.events.length === run.announced ? "legal" : "legal so far";
  return by ? [make("span", { class: "fact legal", title: `The trace was made of a journal by ${by}, which has checked each answer.` }, `${word}, checked by ${by}`)]
    : [make("span", { class: "fact legal", title: "Each answer agrees with the state that the trace's changes leave. This page alone has checked that: a proved check reads the journal." }, `${word}, checked by this page`)];
}

new ResizeObserver(() => {
  if (!shown.run) return;
  if (fitLanes()) reveal();
  resized();
  for (const it of [events, state, writes]) if (it.box.clientHeight) it.show();
}).observe($("main"));

paint();
const embedded = $("trace").textContent;
if (embedded.trim()) openTrace(embedded.replace(/^\n/, ""), $("trace").dataset.name || "a run", $("trace").dataset.by);

// Runs that grow: if ./view --follow serves the page, it polls for what the run has gained.

const EACH = 1000;
let served = "", missed = "";
async function askAgain() {
  const { follow, name, by } = $("trace").dataset;
  try {
    const answer = await fetch(follow, { headers: served ? { "If-None-Match": served } : {}, cache: "no-store" });
    if (answer.status === 200) {
      served = answer.headers.get("ETag") ?? "";
      // The first line says after how many moves segments were full, and why the run isn't shown to its end.
      const text = await answer.text(), end = text.indexOf("\n") + 1, { ends, where } = JSON.parse(text.slice(0, end));
      await openTrace(text.slice(end), name, by, ends, plainText(where));
    } else if (answer.status !== 304) throw new Error(await answer.text());
    missed = "";
  } catch (fault) {
    if (missed !== fault.message) act.speak(`The run can't be followed now, and is tried again: ${plainText(fault.message)}`);
    missed = fault.message;
  }
  setTimeout(askAgain, EACH);
}
if ($("trace").dataset.follow) askAgain();
