// The pictures of time, as they are shown, as a file: a PNG or an SVG image.
import { paintLanes } from "./lanes.js";
import { $, make } from "./nodes.js";
import { act, shown } from "./run.js";
import { colors, lanesHigh, view } from "./sight.js";
import { paintStrip, paintTrack, STRIP, TRACK } from "./strip.js";

const GAP = 6, RATIO = 2;
// Return what is in sight: for each picture its position, its height, and the function that draws it with a pen.
function picturesOf(wide) {
  const all = [...$("lanes-box").hidden ? [] : [[lanesHigh(), pen => paintLanes(pen, wide, lanesHigh(), 0)]], ...$("track").hidden ? [] : [[TRACK, pen => paintTrack(pen, wide)]], [STRIP, pen => paintStrip(pen, wide)]];
  let top = 0;
  const pictures = all.map(([high, paint]) => ({ top: (top += high + GAP) - high - GAP, paint }));
  return { pictures, wide, high: top - GAP };
}
const picturesNow = () => picturesOf($("strip").clientWidth);
function save(blob, ending) {
  const link = make("a", { href: URL.createObjectURL(blob), download: `${shown.run.name.replace(/[^\w.-]+/g, "_")}.${ending}` });
  link.click();
  setTimeout(() => URL.revokeObjectURL(link.href), 10_000);
  act.speak(`Saved: ${link.download}`);
}
export function pngCanvas() {
  const { pictures, wide, high } = picturesNow(), canvas = make("canvas", { width: wide * RATIO, height: high * RATIO }), pen = canvas.getContext("2d");
  pen.scale(RATIO, RATIO);
  pen.fillStyle = colors.raised;
  pen.fillRect(0, 0, wide, high);
  for (const { top, paint } of pictures) {
    pen.save();
    pen.translate(0, top);
    paint(pen);
    pen.restore();
  }
  return canvas;
}
export function svgText() {
  const { pictures, wide, high } = picturesNow(), parts = pictures.map(({ top, paint }) => {
    const pen = new SvgPen(top);
    paint(pen);
    return pen.text();
  });
  return `<svg xmlns="http://www.w3.org/2000/svg" width="${wide}" height="${high}" viewBox="0 0 ${wide} ${high}" font-family="${view.font.replaceAll('"', "'")}"><rect width="${wide}" height="${high}" fill="${colors.raised}"/>${parts.join("")}</svg>\n`;
}

// A pen that turns the calls of a canvas into SVG.
const escapes = { "&": "&amp;", "<": "&lt;", ">": "&gt;", '"': "&quot;" };
const round = number => Math.round(number * 100) / 100;
class SvgPen {
  constructor(top = 0) {
    Object.assign(this, { top, out: [], path: "", clips: 0, open: [0], globalAlpha: 1, fillStyle: "#000", strokeStyle: "#000", lineWidth: 1, dash: [], font: "", textAlign: "left" });
  }
  text() {
    return `<g transform="translate(0 ${this.top})">${this.out.join("")}</g>`;
  }
  put(tag, properties, content = "") {
    const alpha = this.globalAlpha < 1 ? ` opacity="${this.globalAlpha}"` : "";
    this.out.push(`<${tag} ${properties}${alpha}${content ? `>${content}</${tag}>` : "/>"}`);
  }
  save() {
    this.open.push(0);
  }
  restore() {
    this.out.push("</g>".repeat(this.open.pop()));
  }
  clip() {
    const id = `clip${this.top}-${++SvgPen.clips}`;
    this.out.push(`<clipPath id="${id}"><path d="${this.path}"/></clipPath><g clip-path="url(#${id})">`);
    this.open[this.open.length - 1]++;
  }
  beginPath() {
    this.path = "";
  }
  moveTo(x, y) {
    this.path += `M${round(x)} ${round(y)}`;
  }
  lineTo(x, y) {
    this.path += `L${round(x)} ${round(y)}`;
  }
  bezierCurveTo(...numbers) {
    this.path += `C${numbers.map(round).join(" ")}`;
  }
  rect(x, y, wide, high) {
    this.path += `M${round(x)} ${round(y)}h${round(wide)}v${round(high)}h${round(-wide)}z`;
  }
  roundRect(x, y, wide, high, r) {
    const [w, h] = [round(wide - 2 * r), round(high - 2 * r)], arc = (a, b) => `a${round(r)} ${round(r)} 0 0 1 ${round(a)} ${round(b)}`;
    this.path += `M${round(x + r)} ${round(y)}h${w}${arc(r, r)}v${h}${arc(-r, r)}h${-w}${arc(-r, -r)}v${-h}${arc(r, -r)}z`;
  }
  arc(x, y, r) {
    this.path += `M${round(x - r)} ${round(y)}a${round(r)} ${round(r)} 0 1 0 ${round(2 * r)} 0a${round(r)} ${round(r)} 0 1 0 ${round(-2 * r)} 0z`;
  }
  setLineDash(dash) {
    this.dash = dash;
  }
  fill() {
    this.put("path", `d="${this.path}" fill="${this.fillStyle}"`);
  }
  stroke() {
    this.put("path", `d="${this.path}" fill="none" stroke="${this.strokeStyle}" stroke-width="${round(this.lineWidth)}" stroke-linecap="round"${this.dash.length ? ` stroke-dasharray="${this.dash.join(" ")}"` : ""}`);
  }
  fillRect(x, y, wide, high) {
    if (wide > 0 && high > 0) this.put("rect", `x="${round(x)}" y="${round(y)}" width="${round(wide)}" height="${round(high)}" fill="${this.fillStyle}"`);
  }
  strokeRect(x, y, wide, high) {
    this.put("rect", `x="${round(x)}" y="${round(y)}" width="${round(wide)}" height="${round(high)}" fill="none" stroke="${this.strokeStyle}" stroke-width="${round(this.lineWidth)}"`);
  }
  fillText(text, x, y) {
    const [, weight, size] = /^(\d{3} )?([\d.]+)px/.exec(this.font) ?? [], anchor = { center: "middle", right: "end" }[this.textAlign];
    this.put("text", `x="${round(x)}" y="${round(y)}" dy=".35em" font-size="${size}"${weight ? ` font-weight="${weight.trim()}"` : ""}${anchor ? ` text-anchor="${anchor}"` : ""} fill="${this.fillStyle}"`, text.replace(/[&<>"]/g, it => escapes[it]));
  }
}
SvgPen.clips = 0;

$("save-png").addEventListener("click", () => pngCanvas().toBlob(it => it ? save(it, "png") : act.speak("This picture is too large for this browser; save it as SVG")));
$("save-svg").addEventListener("click", () => save(new Blob([svgText()], { type: "image/svg+xml" }), "svg"));
