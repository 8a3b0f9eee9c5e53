// What is in sight of a run in the pictures of time, and how they are drawn: sizes, colors, shares.
import { $ } from "./nodes.js";
import { chosen, isBad, KINDS, shown } from "./run.js";

// The axis has a row of events and one of moves.
export const GUTTER = 72, AXIS_ROW = 16, AXIS = 2 * AXIS_ROW + 6, USUAL_LANE = 18, LANES_MARGIN = AXIS + 8;
const MOST_SCALE = 72, MOST_LANE = 30;
const COLORS = ["fired", "read", "stale", "clash", "full", "wrong", "ink", "soft", "faint", "line", "accent", "wash", "place", "holds", "on-accent", "raised"];
export const colors = {};
// The first event in sight, the width of an event, the height of a lane, and the version of the colors.
export const view = { from: 0, scale: 14, lane: 24, font: "sans-serif", painted: 0 };

export function readColors() {
  const style = getComputedStyle(document.documentElement);
  view.font = style.getPropertyValue("--sans");
  for (const name of COLORS) colors[name] = style.getPropertyValue(`--${name}`).trim();
  view.painted++;
}

// (Folded lanes have no width of their own.)
export const width = () => Math.max(1, ($("lanes").clientWidth || $("strip").clientWidth) - GUTTER);
export const seen = () => width() / view.scale;
export const xOf = number => GUTTER + (number - view.from + 0.5) * view.scale;
export const yOf = agent => AXIS + (agent + 0.5) * view.lane;
export function clamp() {
  const { run } = shown, least = Math.min(width() / Math.max(1, run.events.length), MOST_SCALE);
  view.scale = Math.min(MOST_SCALE, Math.max(least, view.scale));
  view.from = Math.max(0, Math.min(view.from, run.events.length - seen()));
}
// Show all of a short run, or the beginning of a long one.
export function renewSight() {
  Object.assign(view, { from: 0, scale: Math.max(14, width() / Math.max(1, shown.run.events.length)) });
  clamp();
}
// Share that height among the lanes, as far as possible.
export function setHeight(high) {
  view.lane = Math.max(USUAL_LANE, Math.min(MOST_LANE, Math.floor((high - LANES_MARGIN) / Math.max(1, shown.run.agents))));
  $("lanes").style.height = `${lanesHigh()}px`; // at once, so that the lanes can be scrolled to the chosen event
}
export const lanesHigh = () => AXIS + Math.max(1, shown.run.agents) * view.lane + 6;
// Move the view so that the chosen event is in sight.
export function reveal() {
  const number = shown.count - 1;
  if (number < view.from + 1) view.from = number - seen() * 0.25;
  else if (number > view.from + seen() - 2) view.from = number - seen() * 0.75;
  clamp();
  const box = $("lanes-box"), y = number >= 0 ? yOf(chosen().agent) : 0;
  if (y < box.scrollTop + AXIS || y > box.scrollTop + box.clientHeight - 10) box.scrollTop = y - box.clientHeight / 2;
}
// Zoom about a position, or without one about the chosen event, which then stays in sight.
export function zoomAbout(by, x = null) {
  if (x === null && shown.count) reveal();
  const at = x ?? (shown.count ? xOf(shown.count - 1) : GUTTER + width() / 2), number = view.from + (at - GUTTER) / view.scale;
  view.scale *= by;
  clamp();
  view.from = number - (at - GUTTER) / view.scale;
  clamp();
}

export function prepared(canvas, high) {
  const ratio = window.devicePixelRatio || 1, wide = canvas.clientWidth, size = [Math.round(wide * ratio), Math.round(high * ratio)];
  if (canvas.width !== size[0] || canvas.height !== size[1]) {
    [canvas.width, canvas.height] = size;
    canvas.style.height = `${high}px`;
  }
  const pen = canvas.getContext("2d");
  pen.setTransform(ratio, 0, 0, ratio, 0, 0);
  pen.clearRect(0, 0, wide, high);
  return [pen, wide];
}

// ---- columns that several events share
const STACK = ["fired", "read", "full", "stale", "clash"], LEAST_SHARE = 1.5;
const SLOT = Object.fromEntries(KINDS.map(it => [it, STACK.indexOf(it)])), WRONG = STACK.length;
// How many events of each kind, and with a wrong answer, each column has.
export class Columns {
  constructor(count) {
    this.counts = new Uint32Array(count * (WRONG + 1));
  }
  put(column, event) {
    const at = column * (WRONG + 1);
    this.counts[at + SLOT[event.kind]]++;
    if (isBad(event)) this.counts[at + WRONG]++;
  }
  sum(column) {
    let out = 0;
    for (let i = 0; i < WRONG; i++) out += this.counts[column * (WRONG + 1) + i];
    return out;
  }
  // Draw the shares of the kinds in a stack. Even a small one is visible.
  draw(pen, column, x, top, wide, high) {
    const at = column * (WRONG + 1);
    let all = 0, small = 0;
    for (let i = 0; i < WRONG; i++) all += this.counts[at + i];
    if (!all) return;
    for (let i = 0; i < WRONG; i++) if (this.counts[at + i] && this.counts[at + i] / all * high < LEAST_SHARE) small += LEAST_SHARE - this.counts[at + i] / all * high;
    let bottom = top + high;
    for (let i = 0; i < WRONG; i++) {
      const count = this.counts[at + i], part = count / all * high;
      if (!count) continue;
      // the largest share loses what small ones gain
      const tall = part < LEAST_SHARE ? LEAST_SHARE : part > high / 2 ? Math.max(LEAST_SHARE, part - small) : part;
      pen.fillStyle = colors[STACK[i]];
      pen.fillRect(x, bottom - tall, wide, tall);
      bottom -= tall;
    }
    if (!this.counts[at + WRONG]) return;
    pen.fillStyle = colors.wrong;
    pen.fillRect(x - 0.5, top - 2, Math.max(2, wide + 1), 4);
  }
}
export const DIM = 0.2;
// Draw a column's shares. If only some of its events are listed, those are in full color, and all others dim.
export function drawShares(pen, all, listed, column, x, top, wide, high) {
  if (listed === all) return all.draw(pen, column, x, top, wide, high);
  pen.globalAlpha = DIM;
  all.draw(pen, column, x, top, wide, high);
  pen.globalAlpha = 1;
  const count = listed.sum(column), part = count ? Math.max(2, high * count / all.sum(column)) : 0;
  if (count) listed.draw(pen, column, x, top + high - part, wide, part);
}
