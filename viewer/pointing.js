// What a person does in the lanes: point at an event, choose it, move along, zoom, and measure a range.
import { eventText } from "./event.js";
import { draw, ENOUGH, hover, resized, zoom } from "./lanes.js";
import { $, button, glyph, make, span } from "./nodes.js";
import { act, KINDS, shown } from "./run.js";
import { AXIS, clamp, GUTTER, view, width } from "./sight.js";
import { firstFrom, grouped, plural } from "./terms.js";

const exactAt = pointer => view.from + (pointer.clientX - $("lanes").getBoundingClientRect().left - GUTTER) / view.scale;
function eventAt(pointer) {
  const { run } = shown, exact = exactAt(pointer), agent = Math.floor((pointer.clientY - $("lanes").getBoundingClientRect().top - AXIS) / view.lane);
  if (exact < view.from) return -1;
  let number = Math.floor(exact);
  if (view.scale < ENOUGH && run.byAgent[agent]?.length) { // the nearest event of the lane, if it is near
    const list = run.byAgent[agent], i = firstFrom(list, exact), distance = it => Math.abs(it + 0.5 - exact);
    const near = [list[i - 1], list[i]].filter(it => it !== undefined).sort((a, b) => distance(a) - distance(b))[0];
    if (distance(near) * view.scale < 6) number = near;
  }
  return number >= 0 && number < run.events.length ? number : -1;
}
const isOnAxis = pointer => pointer.clientY - $("lanes-box").getBoundingClientRect().top < AXIS - 4;

// ---- a range, and what is in it
function setRange(first, last) {
  const most = shown.run.events.length, within = it => Math.max(0, Math.min(most, it));
  shown.range = first === null ? null : [within(Math.floor(Math.min(first, last))), within(Math.floor(Math.max(first, last)) + 1)];
  showRange();
  draw();
}
const LABELS_OF = { read: "read", fired: "move", stale: "stale fire", clash: "clash", full: "full" };
export function showRange() {
  const { range, run } = shown;
  $("range").hidden = !range;
  if (!range) return;
  const [from, to] = range, counts = new Map(), agents = new Set();
  let bad = 0;
  for (let i = from; i < to; i++) {
    const { kind, agent, isWrong, doubt } = run.events[i];
    counts.set(kind, (counts.get(kind) ?? 0) + 1);
    agents.add(agent);
    if (isWrong || doubt) bad++;
  }
  const sums = KINDS.filter(it => counts.has(it)).map(it => span("sum", glyph(it), ` ${it === "full" ? `${grouped(counts.get(it))} full` : plural(counts.get(it), LABELS_OF[it], it === "clash" ? "clashes" : `${LABELS_OF[it]}s`)}`));
  $("range").replaceChildren(
    make("b", {}, `Events ${grouped(run.from + from)} to ${grouped(run.from + to - 1)}`), span("", `${plural(to - from, "event")} of ${plural(agents.size, "agent")}`), ...sums, bad ? span("sum", glyph("fired", true), ` ${grouped(bad)} wrong or doubtful`) : "",
    button("button small", "Show this range alone", zoomToRange, "Zoom to it"), button("button small", "Measure no range (Esc)", () => setRange(null), "Close"));
}
function zoomToRange() {
  const [from, to] = shown.range;
  view.scale = width() / Math.max(1, to - from);
  clamp();
  view.from = from;
  resized();
}
export const endRange = () => setRange(null);

// ---- pointing, moving and measuring
$("lanes-box").addEventListener("scroll", draw, { passive: true });
let drag = null;
$("lanes").addEventListener("pointerdown", pointer => {
  drag = { x: pointer.clientX, from: view.from, at: exactAt(pointer), isRange: pointer.shiftKey || isOnAxis(pointer), isMoved: false };
  $("lanes").setPointerCapture(pointer.pointerId);
});
function dragTo(pointer) {
  drag.isMoved ||= Math.abs(pointer.clientX - drag.x) > 4;
  if (drag.isMoved && drag.isRange) return setRange(drag.at, exactAt(pointer));
  if (drag.isMoved) view.from = drag.from - (pointer.clientX - drag.x) / view.scale;
  resized();
}
$("lanes").addEventListener("pointermove", pointer => {
  if (drag) return dragTo(pointer);
  const number = eventAt(pointer), tip = $("tip");
  hover(number);
  tip.hidden = number < 0;
  if (number < 0) return;
  tip.textContent = eventText(shown.run.events[number]);
  tip.style.left = `${Math.max(4, Math.min(pointer.clientX + 14, innerWidth - tip.offsetWidth - 8))}px`;
  tip.style.top = `${Math.min(pointer.clientY + 16, innerHeight - tip.offsetHeight - 8)}px`;
});
$("lanes").addEventListener("pointerup", pointer => {
  const number = drag && !drag.isMoved ? eventAt(pointer) : -1;
  drag = null;
  if (number >= 0) act.choose(number + 1, { keepsView: true });
});
$("lanes").addEventListener("pointercancel", () => {
  drag = null;
});
$("lanes").addEventListener("pointerleave", () => {
  $("tip").hidden = true;
  hover(-1);
});
$("lanes").addEventListener("wheel", event => {
  const isSideways = event.shiftKey || Math.abs(event.deltaX) > Math.abs(event.deltaY);
  if (!isSideways && !event.ctrlKey && !event.altKey) return; // the page scrolls
  event.preventDefault();
  if (!isSideways) return zoom(Math.exp(-event.deltaY * 0.002), event.clientX - $("lanes").getBoundingClientRect().left);
  view.from += (event.deltaX || event.deltaY) / view.scale;
  resized();
}, { passive: false });
