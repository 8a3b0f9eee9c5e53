// The height of the lanes, which can be folded and dragged.
import { draw } from "./lanes.js";
import { $ } from "./nodes.js";
import { shown } from "./run.js";
import { AXIS, LANES_MARGIN, reveal, setHeight, USUAL_LANE } from "./sight.js";
import { showTrack } from "./strip.js";

const LEAST_HIGH = AXIS + 24, MOST_HIGH = 640, STEP = 24, MOST_PART = 0.35, STORAGE_KEY = "folugben-lanes";
// What the person chose: a height, 0 if the lanes are folded, or null for the usual height.
let wanted = null, unfolded = null; // and the height after unfolding
try {
  const found = Number.parseInt(localStorage.getItem(STORAGE_KEY) ?? "", 10);
  if (found >= 0) wanted = Math.min(MOST_HIGH, found);
} catch {
  // some browsers store nothing for a file
}

// The height of eight rows of events, and that of seven rows of the state beside four writes of a location.
const LEAST_PANES = 326, LEAST_WITH_WRITES = 398;
// Return the height that the lanes can take from what they share with the panes. If the page is longer than the window, they
// share none.
function left() {
  if (getComputedStyle($("main")).display !== "grid") return Infinity;
  return $("lanes-box").offsetHeight + document.querySelector(".panes").offsetHeight - (shown.location ? LEAST_WITH_WRITES : LEAST_PANES);
}
// The usual height: each agent has a lane high enough for its name, up to a share of the window, if the panes still have room.
const usual = () => Math.max(LANES_MARGIN + 2 * USUAL_LANE, Math.min(Math.round(innerHeight * MOST_PART), LANES_MARGIN + Math.max(3, shown.run.agents) * USUAL_LANE, left()));
// Set the height of the lanes; return whether it has changed.
export function fitLanes() {
  const high = wanted ?? usual(), isFolded = high === 0, box = $("lanes-box"), before = `${box.hidden} ${box.style.maxHeight}`;
  box.hidden = isFolded;
  if (!isFolded) box.style.maxHeight = `${high}px`;
  if (!isFolded) setHeight(high);
  $("grip").setAttribute("aria-valuenow", high);
  $("fold").setAttribute("aria-expanded", String(!isFolded));
  $("fold").classList.toggle("folded", isFolded);
  return before !== `${box.hidden} ${box.style.maxHeight}`;
}
// What shares the height was shown or hidden.
let shared = "";
export function refit() {
  showTrack();
  const now = ["track", "writes-pane", "range"].map(it => $(it).hidden).join();
  if (now === shared) return;
  shared = now;
  if (fitLanes()) reveal();
}
function setRoom(high) {
  if (wanted !== 0) unfolded = wanted;
  wanted = high === null ? null : high < LEAST_HIGH ? 0 : Math.min(MOST_HIGH, Math.round(high));
  try {
    if (wanted === null) localStorage.removeItem(STORAGE_KEY);
    else localStorage.setItem(STORAGE_KEY, wanted);
  } catch {
    // as above
  }
  fitLanes();
  if (wanted !== 0) reveal();
  draw();
}
export const foldLanes = () => setRoom(wanted === 0 ? unfolded : 0);

$("fold").addEventListener("click", foldLanes);
const now = () => $("lanes-box").hidden ? 0 : $("lanes-box").clientHeight;
let pull = null;
$("grip").addEventListener("pointerdown", pointer => {
  pull = { y: pointer.clientY, high: now() };
  $("grip").setPointerCapture(pointer.pointerId);
});
$("grip").addEventListener("pointermove", pointer => pull && setRoom(pull.high + pointer.clientY - pull.y));
for (const kind of ["pointerup", "pointercancel"]) $("grip").addEventListener(kind, () => {
  pull = null;
});
$("grip").addEventListener("dblclick", foldLanes);
$("grip").addEventListener("keydown", event => {
  const by = { ArrowDown: STEP, ArrowUp: -STEP }[event.key];
  if (by) setRoom(Math.max(by > 0 ? LEAST_HIGH : 0, now() + by));
  else if (event.key === "Enter") foldLanes();
  else return;
  event.preventDefault();
});
