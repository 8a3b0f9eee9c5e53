// The complete run in a strip: the shares of its answers, where the chosen location is written, and where the condition holds.
import { isFiltered, isListed, listVersion } from "./filter.js";
import { $, runName } from "./nodes.js";
import { act, shown } from "./run.js";
import { clamp, colors, Columns, drawShares, GUTTER, prepared, seen, view, xOf } from "./sight.js";
import { cut, firstFrom, grouped } from "./terms.js";

export const STRIP = 28;
const STRIP_COLUMN = 3, MOST_WIDE = 9;
let cached = null; // the picture of the shares, until the run, the size, the list or the colors change
const stripX = (number, wide) => GUTTER + number / Math.max(1, shown.run.events.length) * (wide - GUTTER);

function paintShares(pen, wide) {
  const { run } = shown, room = wide - GUTTER, count = Math.max(1, Math.min(run.events.length, Math.floor(room / STRIP_COLUMN))), columns = new Columns(count), listed = isFiltered() ? new Columns(count) : columns, step = room / count;
  pen.font = `11.5px ${view.font}`;
  pen.textBaseline = "middle";
  pen.textAlign = "left";
  pen.fillStyle = colors.soft;
  pen.fillText(`whole ${runName()}`, 12, STRIP / 2);
  for (const event of run.events) {
    const column = Math.floor(event.number * count / run.events.length);
    columns.put(column, event);
    if (listed !== columns && isListed(event.number)) listed.put(column, event);
  }
  for (let i = 0; i < count; i++) drawShares(pen, columns, listed, i, GUTTER + i * step + (step > MOST_WIDE ? (step - MOST_WIDE) / 2 : 0), 5, Math.max(1, Math.min(MOST_WIDE, step - (step > 4 ? 1 : 0))), STRIP - 10);
}
function picture(wide) {
  const ratio = window.devicePixelRatio || 1, sign = `${wide} ${ratio} ${view.painted} ${listVersion()}`, { run } = shown;
  if (cached?.run === run && cached.sign === sign) return cached.canvas;
  const canvas = document.createElement("canvas"), pen = canvas.getContext("2d");
  [canvas.width, canvas.height] = [Math.round(wide * ratio), Math.round(STRIP * ratio)];
  pen.setTransform(ratio, 0, 0, ratio, 0, 0);
  paintShares(pen, wide);
  cached = { run, sign, canvas };
  return canvas;
}
export function drawStrip() {
  const [pen, wide] = prepared($("strip"), STRIP);
  if (!shown.run.events.length || wide <= GUTTER) return;
  pen.drawImage(picture(wide), 0, 0, wide, STRIP);
  paintPlaces(pen, wide);
}
// Draw the strip with a pen, of a picture that is retained.
export function paintStrip(pen, wide) {
  paintShares(pen, wide);
  paintPlaces(pen, wide);
}
// Draw what is in sight, where the condition holds and the location is written, the stored moment, and the chosen one.
function paintPlaces(pen, wide) {
  const { run, location, count, mark, holds } = shown, from = stripX(view.from, wide), to = stripX(Math.min(run.events.length, view.from + seen()), wide);
  pen.globalAlpha = 0.1;
  pen.fillStyle = colors.accent;
  pen.fillRect(from, 0, to - from, STRIP);
  pen.globalAlpha = 1;
  pen.strokeStyle = colors.accent;
  pen.lineWidth = 1;
  pen.beginPath();
  pen.roundRect(from + 0.5, 0.5, Math.max(2, to - from - 1), STRIP - 1, 5);
  pen.stroke();
  // a moment is behind the event that leads to it, so a stretch begins with its event
  drawStretches(pen, holds, it => stripX(Math.max(0, it - 1), wide), 0, 3);
  pen.fillStyle = colors.place;
  let last = -9;
  for (const number of location?.times ?? []) {
    const x = stripX(number, wide);
    if (x - last >= 1) pen.fillRect(last = x, STRIP - 4, 1.5, 3);
  }
  pen.fillStyle = colors.ink;
  if (mark !== null) for (let y = 0; y < STRIP; y += 5) pen.fillRect(stripX(mark - 0.5, wide) - 0.75, y, 1.5, 3);
  pen.fillStyle = colors.accent;
  if (count) pen.fillRect(stripX(count - 0.5, wide) - 1, 0, 2, STRIP);
}
// Draw the stretches in which the condition holds, as bars. Those that would overlap are one bar.
export function drawStretches(pen, stretches, xOfCount, top, high, first = 0, last = stretches.length) {
  pen.fillStyle = colors.holds;
  let from = null, to = null;
  for (let i = first; i < last; i++) {
    const left = xOfCount(stretches[i][0]), right = Math.max(left + 2, xOfCount(stretches[i][1]));
    if (from !== null && left <= to + 0.5) to = Math.max(to, right);
    else {
      if (from !== null) pen.fillRect(from, top, to - from, high);
      [from, to] = [left, right];
    }
  }
  if (from !== null) pen.fillRect(from, top, to - from, high);
}

function goAlong(pointer) {
  const box = $("strip").getBoundingClientRect(), part = (pointer.clientX - box.left - GUTTER) / (box.width - GUTTER), number = part * shown.run.events.length;
  act.choose(Math.ceil(number), { keepsView: true, isStep: pointer.type === "pointermove" });
  view.from = number - seen() / 2;
  clamp();
  act.draw();
}
$("strip").addEventListener("pointerdown", pointer => {
  $("strip").setPointerCapture(pointer.pointerId);
  goAlong(pointer);
});
$("strip").addEventListener("pointermove", pointer => {
  if ($("strip").hasPointerCapture(pointer.pointerId)) goAlong(pointer);
});

// ---- the numbers of a location or of an expression over time, as a line below the lanes

export const TRACK = 56;
const EDGE = 7;
let pointed = null; // the count of events below the pointer
const numberAt = count => shown.plot.series[firstFrom(shown.plot.series, count + 1, it => it[0]) - 1]?.[1] ?? null;
const yOfNumber = number => {
  const { least, most } = shown.plot;
  return most === least ? TRACK / 2 : TRACK - EDGE - (number - least) / (most - least) * (TRACK - 2 * EDGE);
};
const short = number => Math.abs(number) < 1e7 ? grouped(number) : number.toExponential(2);

export function showTrack() {
  $("track").hidden = !shown.plot || $("lanes-box").hidden;
}
export function drawTrack() {
  showTrack();
  if ($("track").hidden) return;
  paintTrack(...prepared($("track"), TRACK));
}
// Draw the line with a pen, of a canvas or of a picture that is retained.
export function paintTrack(pen, wide) {
  const from = Math.max(0, Math.floor(view.from)), to = Math.min(shown.run.events.length, Math.ceil(view.from + seen()) + 1);
  pen.save();
  pen.beginPath();
  pen.rect(GUTTER, 0, wide - GUTTER, TRACK);
  pen.clip();
  pen.globalAlpha = 0.22;
  drawStretches(pen, shown.holds, it => it ? xOf(it - 1) : GUTTER, 0, TRACK, firstFrom(shown.holds, from, it => it[1]), firstFrom(shown.holds, to + 2, it => it[0]));
  pen.globalAlpha = 1;
  drawZero(pen, wide);
  drawLine(pen, from, to, wide);
  pen.restore();
  drawScale(pen);
  drawValue(pen, wide);
}
function drawZero(pen, wide) {
  const { least, most } = shown.plot;
  pen.fillStyle = colors.line;
  if (least < 0 && most > 0) pen.fillRect(GUTTER, Math.round(yOfNumber(0)), wide - GUTTER, 1);
}
// Draw a step at each change. Of those that share a pixel, draw the smallest and the greatest.
function drawLine(pen, from, to, wide) {
  const { series } = shown.plot;
  pen.strokeStyle = pen.fillStyle = colors.accent;
  pen.lineWidth = 1.5;
  for (let i = Math.max(0, firstFrom(series, from, it => it[0]) - 1); i < series.length && series[i][0] <= to + 1; i++) {
    const [count, number] = series[i], x = count ? Math.max(GUTTER, xOf(count - 1)) : GUTTER, end = series[i + 1] ? xOf(series[i + 1][0] - 1) : wide;
    if (number === null) continue;
    const y = yOfNumber(number), next = series[i + 1]?.[1] ?? null;
    pen.fillRect(x, y - 0.75, Math.max(1, end - x), 1.5);
    if (next !== null) pen.fillRect(end - 0.5, Math.min(y, yOfNumber(next)), 1, Math.abs(y - yOfNumber(next)));
  }
}
function drawScale(pen) {
  const { least, most, text } = shown.plot;
  pen.font = `11px ${view.font}`;
  pen.textBaseline = "middle";
  pen.textAlign = "right";
  pen.fillStyle = colors.faint;
  pen.fillText(short(most), GUTTER - 6, EDGE);
  if (most !== least) pen.fillText(short(least), GUTTER - 6, TRACK - EDGE);
  pen.textAlign = "left";
  const label = text.length > 60 ? `${cut(text, 0, 60)}…` : text;
  pen.fillStyle = colors.raised;
  pen.fillRect(GUTTER + 3, TRACK - 2 * EDGE - 1, label.length * 6.4 + 6, 2 * EDGE);
  pen.fillStyle = colors.soft;
  pen.fillText(label, GUTTER + 6, TRACK - EDGE - 1);
}
// Draw the number below the pointer, or else at the chosen moment.
function drawValue(pen, wide) {
  const count = pointed ?? shown.count, number = numberAt(count), x = count ? xOf(count - 1) : GUTTER;
  if (x < GUTTER || x > wide) return;
  pen.fillStyle = pointed === null ? colors.accent : colors.soft;
  pen.fillRect(x - 0.5, 0, 1, TRACK);
  if (number === null) return;
  const y = yOfNumber(number), label = grouped(number), isLeft = x > wide - 90;
  pen.beginPath();
  pen.arc(x, y, 3, 0, 7);
  pen.fill();
  pen.textAlign = isLeft ? "right" : "left";
  pen.font = `600 11px ${view.font}`;
  pen.fillStyle = colors.ink;
  pen.fillText(label, x + (isLeft ? -7 : 7), Math.min(TRACK - EDGE, Math.max(EDGE + (y < TRACK / 2 ? 13 : 0), y)));
}

const countAt = pointer => Math.max(0, Math.min(shown.run.events.length, Math.floor(view.from + (pointer.clientX - $("track").getBoundingClientRect().left - GUTTER) / view.scale) + 1));
$("track").addEventListener("pointermove", pointer => {
  pointed = countAt(pointer);
  act.draw();
});
$("track").addEventListener("pointerleave", () => {
  pointed = null;
  act.draw();
});
$("track").addEventListener("click", pointer => act.choose(countAt(pointer), { keepsView: true }));
