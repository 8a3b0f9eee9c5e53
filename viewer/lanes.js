// The lanes: one for each agent, along the events.
import { chainOf, firesMadeStale } from "./chains.js";
import { isFiltered, isListed } from "./filter.js";
import { $ } from "./nodes.js";
import { chosen, isBad, shown } from "./run.js";
import { AXIS, AXIS_ROW, clamp, colors, Columns, DIM, drawShares, GUTTER, lanesHigh, prepared, renewSight, seen, view, xOf, yOf, zoomAbout } from "./sight.js";
import { drawStretches, drawStrip, drawTrack } from "./strip.js";
import { firstFrom, grouped } from "./terms.js";

// From this width of an event on, in pixels, each event is drawn. Below it, several events share a column of width COLUMN.
export const ENOUGH = 6;
const COLUMN = 3, MOST_ARCS = 40;
let hovered = -1;
export function hover(number) {
  if (number === hovered) return;
  hovered = number;
  draw();
}

const radius = () => Math.max(2.2, Math.min(view.scale / 2 - 1, view.lane / 2 - 3.5, 9));
export function renewLanes() {
  hovered = -1;
  renewSight();
}
export function zoom(by, x = null) {
  zoomAbout(by, x);
  draw();
}
export function fit() {
  Object.assign(view, { from: 0, scale: 0 });
  resized();
}

let frame = 0;
export function draw() {
  frame ||= requestAnimationFrame(() => {
    frame = 0;
    if (!shown.run) return;
    drawLanes();
    drawTrack();
    drawStrip();
  });
}
export function resized() {
  clamp();
  draw();
}

function drawLanes() {
  if ($("lanes-box").hidden) return;
  const high = lanesHigh();
  paintLanes(...prepared($("lanes"), high), high, $("lanes-box").scrollTop);
}
// Draw the lanes with a pen, of a canvas or of a picture that is retained. `top` is the position of the axis.
export function paintLanes(pen, wide, high, top) {
  const { run, mark } = shown;
  const from = Math.max(0, Math.floor(view.from)), to = Math.min(run.events.length, Math.ceil(view.from + seen()) + 1);
  drawAgents(pen, wide);
  pen.save();
  pen.beginPath();
  pen.rect(GUTTER, 0, wide - GUTTER, high);
  pen.clip();
  drawRange(pen, high);
  drawHolds(pen, from, to, high);
  if (hovered >= 0) drawColumn(pen, hovered, high, 0.55);
  if (mark !== null) drawMoment(pen, mark, high);
  if (shown.count) {
    drawColumn(pen, shown.count - 1, high, 1);
    pen.fillStyle = colors.accent;
    pen.fillRect(xOf(shown.count - 1) - 0.75, AXIS - 6, 1.5, high);
    drawChain(pen, chosen());
    for (const [from, to, isStale] of arcsOf(chosen())) drawArc(pen, from, to, isStale);
  }
  if (view.scale >= ENOUGH) drawEvents(pen, from, to);
  else drawDense(pen, from, to, Math.ceil(wide - GUTTER));
  pen.restore();
  drawAxis(pen, from, to, wide, top);
}
function drawAgents(pen, wide) {
  pen.font = `11.5px ${view.font}`;
  pen.textBaseline = "middle";
  pen.textAlign = "left";
  for (let agent = 0; agent < shown.run.agents; agent++) {
    pen.fillStyle = colors.line;
    pen.fillRect(GUTTER, Math.round(yOf(agent)), wide - GUTTER, 1);
    pen.fillStyle = colors.soft;
    pen.fillText(`agent ${agent}`, 12, yOf(agent));
  }
}
// Draw the numbers of events and of moves, and where the chosen location is written. They stay at the top when the lanes are
// scrolled.
function drawAxis(pen, from, to, wide, top) {
  const { location, count } = shown;
  pen.fillStyle = colors.raised;
  pen.fillRect(0, top, wide, AXIS - 6);
  drawNumbers(pen, top, "event", from, to, it => it, it => grouped(shown.run.from + it));
  const { moves, movesBefore } = shown.run, first = firstFrom(moves, from);
  drawNumbers(pen, top + AXIS_ROW, "move", first, firstFrom(moves, to), it => moves[it], it => grouped(movesBefore + it + 1), movesBefore + 1);
  pen.fillStyle = colors.place;
  for (let i = location ? firstFrom(location.times, from) : 0; location?.times[i] < to; i++) {
    const x = xOf(location.times[i]);
    if (x >= GUTTER) pen.fillRect(x - (view.scale < ENOUGH ? 0.75 : 3), top + AXIS - 6, view.scale < ENOUGH ? 1.5 : 6, 5);
  }
  pen.fillStyle = colors.accent;
  if (count && xOf(count - 1) >= GUTTER) pen.fillRect(xOf(count - 1) - 0.75, top + AXIS - 6, 1.5, 6);
}
// Draw a row of the axis: round numbers, as many as fit.
function drawNumbers(pen, top, name, first, end, eventOf, textOf, offset = 0) {
  pen.font = `11px ${view.font}`;
  pen.textBaseline = "middle";
  pen.textAlign = "left";
  pen.fillStyle = colors.faint;
  pen.fillText(name, 12, top + 8);
  pen.textAlign = "center";
  let each = 1;
  while (end - first > 0 && each * (xOf(eventOf(end - 1)) - xOf(eventOf(first))) / (end - first) < 64 && each < end - first) each *= String(each)[0] === "1" ? 5 : 2;
  for (let i = Math.ceil((first + offset) / each) * each - offset, last = -Infinity; i < end; i += each) {
    const x = xOf(eventOf(i));
    if (i < first || x < GUTTER || x - last < 48) continue;
    pen.fillRect(x - 0.5, top + AXIS_ROW - 2, 1, 3);
    pen.fillText(textOf(i), x, top + 8);
    last = x;
  }
}
// Draw the range that is measured.
function drawRange(pen, high) {
  if (!shown.range) return;
  const [from, to] = shown.range;
  pen.globalAlpha = 0.14;
  pen.fillStyle = colors.accent;
  pen.fillRect(xOf(from - 0.5), 0, (to - from) * view.scale, high);
  pen.globalAlpha = 1;
}
// Draw the tries of the chosen fire, along its agent's lane.
function drawChain(pen, event) {
  const chain = chainOf(event);
  if (!chain) return;
  const y = yOf(event.agent), last = chain.at(-1);
  pen.fillStyle = colors.stale;
  pen.fillRect(xOf(chain[0].number), y - 1.5, xOf(last.number) - xOf(chain[0].number), 3);
  for (const it of chain) pen.fillRect(xOf(it.number) - 1, y - view.lane / 2 + 1, 2, view.lane - 2);
}
function drawColumn(pen, number, high, alpha) {
  const wide = Math.max(view.scale, 3);
  pen.globalAlpha = alpha;
  pen.fillStyle = colors.wash;
  pen.fillRect(xOf(number) - wide / 2, AXIS - 4, wide, high);
  pen.globalAlpha = 1;
}
function drawMark(pen, kind, x, y, r) {
  pen.fillStyle = pen.strokeStyle = colors[kind];
  pen.beginPath();
  if (kind === "read") pen.arc(x, y, Math.max(1.6, r * 0.38), 0, 7);
  else if (kind === "fired") pen.roundRect(x - r, y - r, 2 * r, 2 * r, Math.min(4, r * 0.55));
  else if (kind === "stale") {
    pen.moveTo(x, y - r);
    pen.lineTo(x + r * 1.08, y + r * 0.9);
    pen.lineTo(x - r * 1.08, y + r * 0.9);
  } else if (kind === "full") {
    pen.lineWidth = Math.max(1.2, r * 0.3);
    return pen.strokeRect(x - r * 0.8, y - r * 0.8, r * 1.6, r * 1.6);
  } else {
    const d = r * 0.72;
    pen.lineWidth = Math.max(1.6, r * 0.5);
    pen.lineCap = "round";
    pen.moveTo(x - d, y - d);
    pen.lineTo(x + d, y + d);
    pen.moveTo(x + d, y - d);
    pen.lineTo(x - d, y + d);
    return pen.stroke();
  }
  pen.fill();
}
// Draw a fired move, with its number if it fits.
function drawMove(pen, event, x, y, r) {
  const text = String(event.move), half = Math.max(r, (text.length + 1) * 3.1);
  if (r < 6.5 || half * 2 > view.scale - 2) return drawMark(pen, "fired", x, y, r);
  pen.fillStyle = colors.fired;
  pen.beginPath();
  pen.roundRect(x - half, y - r, 2 * half, 2 * r, 4);
  pen.fill();
  pen.font = `600 10.5px ${view.font}`;
  pen.textAlign = "center";
  pen.fillStyle = colors["on-accent"];
  pen.fillText(text, x, y + 0.5);
}
function drawEvents(pen, from, to) {
  const r = radius(), { run, location } = shown;
  for (let number = from; number < to; number++) {
    const event = run.events[number], x = xOf(number), y = yOf(event.agent);
    pen.globalAlpha = isListed(number) ? 1 : DIM;
    if (event.kind === "fired") drawMove(pen, event, x, y, r);
    else drawMark(pen, event.kind, x, y, r);
    if (isBad(event)) ring(pen, x, y, r + 2.6, colors.wrong, 1.8);
    if (number === shown.count - 1) {
      pen.strokeStyle = colors.accent;
      pen.lineWidth = 2;
      pen.beginPath();
      pen.roundRect(x - r - 3.5, y - r - 3.5, 2 * r + 7, 2 * r + 7, 6);
      pen.stroke();
    }
  }
  pen.globalAlpha = 1;
  if (!location) return;
  pen.fillStyle = colors.place;
  for (let i = firstFrom(location.times, from); location.times[i] < to; i++) {
    pen.fillRect(xOf(location.times[i]) - r, yOf(location.writes[i].agent) + r + 1.5, 2 * r, 2);
  }
}
function ring(pen, x, y, r, color, wide) {
  pen.strokeStyle = color;
  pen.lineWidth = wide;
  pen.beginPath();
  pen.arc(x, y, r, 0, 7);
  pen.stroke();
}
// Draw the shares of what the events of each column did, lane by lane. Events that aren't listed are dim.
function drawDense(pen, from, to, room) {
  const { run } = shown, count = Math.ceil(room / COLUMN) + 1, all = new Columns(count * run.agents), listed = isFiltered() ? new Columns(count * run.agents) : all;
  const high = Math.max(2, view.lane - Math.min(6, view.lane / 4));
  // columns begin at a multiple of their width, so that they don't change when the view moves
  const shift = Math.floor(view.from * view.scale / COLUMN), distance = shift * COLUMN - view.from * view.scale;
  for (let number = from; number < to; number++) {
    const column = Math.floor((number + 0.5) * view.scale / COLUMN) - shift, event = run.events[number];
    if (column < 0 || column >= count) continue;
    all.put(event.agent * count + column, event);
    if (listed !== all && isListed(number)) listed.put(event.agent * count + column, event);
  }
  const wide = view.scale >= COLUMN ? COLUMN - 0.5 : COLUMN;
  for (let i = 0; i < count * run.agents; i++) drawShares(pen, all, listed, i, GUTTER + i % count * COLUMN + distance, yOf(Math.floor(i / count)) - high / 2, wide, high);
}
// Return the arcs of an event: from the last writes of what it read or depends on, from those that made it stale, and to what it
// made stale.
function arcsOf(event) {
  const { run } = shown, out = new Map(), put = (write, isStale) => write && out.set(write.event, [write, event, isStale]);
  const at = write => ({ ...write, number: write.event });
  for (const it of event.read ?? []) put(run.lastWrite(it, event.number), false);
  for (const { location, number } of event.named ?? []) {
    put(run.lastWrite(location, Math.min(run.eventsTo(number), event.number)), false);
    put(run.writesSince(location, number, event)?.first, true);
  }
  const grounds = [...out.values()].map(([write, to, isStale]) => [at(write), to, isStale]);
  return [...grounds.slice(0, MOST_ARCS), ...firesMadeStale(event).slice(0, MOST_ARCS).map(it => [event, it, true])];
}
function drawArc(pen, from, to, isStale) {
  const x1 = xOf(from.number), y1 = yOf(from.agent), x2 = xOf(to.number), y2 = yOf(to.agent);
  const bend = Math.max(10, Math.min(60, (x2 - x1) * 0.4)), lift = y1 === y2 ? -view.lane * 0.9 : 0;
  pen.strokeStyle = isStale ? colors.stale : colors.soft;
  pen.lineWidth = isStale ? 2 : 1.3;
  pen.setLineDash(isStale ? [5, 3] : []);
  pen.beginPath();
  pen.moveTo(x1, y1);
  pen.bezierCurveTo(x1 + bend, y1 + lift, x2 - bend, y2 + lift, x2, y2);
  pen.stroke();
  pen.setLineDash([]);
}
// Draw the visible stretches in which the condition holds. A stretch begins with the event that leads to it.
function drawHolds(pen, from, to, high) {
  const { holds } = shown, first = firstFrom(holds, from, it => it[1]), last = firstFrom(holds, to + 2, it => it[0]);
  const x = it => it ? xOf(it - 1) - (view.scale < ENOUGH ? 0 : radius()) : GUTTER;
  pen.globalAlpha = 0.13;
  drawStretches(pen, holds, x, AXIS - 2, high, first, last);
  pen.globalAlpha = 1;
  drawStretches(pen, holds, x, AXIS - 2, 3, first, last);
}
function drawMoment(pen, count, high) {
  pen.strokeStyle = colors.ink;
  pen.lineWidth = 1.5;
  pen.setLineDash([4, 4]);
  pen.beginPath();
  pen.moveTo(xOf(count - 0.5), AXIS - 4);
  pen.lineTo(xOf(count - 0.5), high);
  pen.stroke();
  pen.setLineDash([]);
}
