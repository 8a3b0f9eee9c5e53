// Nodes of the page for values, locations and changes. Whatever a trace contains is inserted as text, never as markup.
import { act, shown } from "./run.js";
import { itemsOf } from "./shape.js";
import { afterMoves, cut, elementText, grouped, isBag, isNumber, isSet, locationText, plural } from "./terms.js";

export const $ = id => document.getElementById(id);

// Return a node with these properties. Those that begin with `on` are event listeners.
export function make(tag, properties, ...children) {
  const node = document.createElement(tag);
  for (const name in properties) {
    const value = properties[name];
    if (value === undefined || value === null || value === false) continue;
    if (name.startsWith("on")) node.addEventListener(name.slice(2), value);
    else node.setAttribute(name, value === true ? "" : value);
  }
  node.append(...children.flat(3).filter(it => it !== null && it !== undefined && it !== false));
  return node;
}
export const span = (kind, ...children) => make("span", { class: kind || null }, ...children);
export function button(kind, title, act, ...children) {
  const press = event => {
    event.stopPropagation();
    act(event);
  };
  return make("button", { class: kind, type: "button", title, onclick: press }, ...children);
}

const SHAPES = {
  read: [["circle", { cx: 7, cy: 7, r: 2.8, class: "fill" }]],
  fired: [["rect", { x: 1.5, y: 1.5, width: 11, height: 11, rx: 3, class: "fill" }]],
  stale: [["path", { d: "M7 1.2 13 12.2H1z", class: "fill" }]],
  clash: [["path", { d: "M3 3l8 8M11 3l-8 8", class: "thick" }]],
  full: [["rect", { x: 2.2, y: 2.2, width: 9.6, height: 9.6, rx: 1, class: "line" }]],
};
const RING = ["circle", { cx: 7, cy: 7, r: 6.2, class: "ring" }];
function drawn(name, properties) {
  const node = document.createElementNS("http://www.w3.org/2000/svg", name);
  for (const key in properties) node.setAttribute(key, properties[key]);
  return node;
}
export function glyph(kind, isWrong = false) {
  const out = drawn("svg", { class: `glyph ${kind}`, viewBox: "0 0 14 14", "aria-hidden": "true" });
  out.append(...[...SHAPES[kind], ...(isWrong ? [RING] : [])].map(it => drawn(...it)));
  return out;
}

// Return a node for an element; of a long text or list it shows the beginning. `from` is the first letter of a text that matters.
const MOST_TEXT = 160, MOST_LIST = 40;
export function elementNode(x, from = 0, room = { left: MOST_LIST }) {
  if (x === null) return span("undef", "undef");
  if (isNumber(x)) return span("number", String(x));
  if (typeof x === "string" && x.length > MOST_TEXT) return longText(x, from < MOST_TEXT - 20 ? 0 : from - 20, MOST_TEXT);
  if (typeof x !== "object") return span(typeof x === "string" ? "text" : "word", elementText(x));
  return listNode(x.list, room);
}
function longText(text, start, most) {
  const piece = cut(text, start, start + most), left = text.length - piece.length;
  const rest = left ? moreNode("long", `${grouped(left)} more letters`, () => longText(text, 0, start + most + MORE)) : null;
  return span("long text", start ? "…" : "", elementText(piece), left ? [start + most < text.length ? "… " : " ", rest] : null);
}
// Return a node for a list with its inner lists. It shows as many elements as there is room for.
function listNode(list, room) {
  const items = [], most = room.left;
  for (const it of list) {
    if (room.left <= 0) break;
    room.left--;
    items.push(...items.length ? [span("mark", ", ")] : [], elementNode(it, 0, room));
  }
  const left = list.length - Math.ceil(items.length / 2);
  return span("long", span("mark", "["), items, left > 0 ? [" ", moreNode("long", `${grouped(left)} more`, () => listNode(list, { left: Math.max(0, most) + MORE }))] : null, span("mark", "]"));
}
export function locationNode(location) {
  return button("location", `All writes of ${location.label}`, () => act.chooseLocation(location), location.label);
}
export const itemNode = (kind, element, count) => [span(`item ${kind}`, span("", elementNode(element)), count), " "];
export const times = n => span("count", ` ×${n}`);
// A button for what is left out. A press replaces the node that contains it with one that shows more.
export const MORE = 2000;
export function moreNode(kind, text, more) {
  return button("item rest", "Show more", event => event.currentTarget.closest(`.${kind}`).replaceWith(more()), text);
}
// Return a tag that says what kind of set or bag it is, and how large.
export function sizeNode(isBags, size, all = 0) {
  return make("span", { class: "kind", title: `${isBags ? "bag" : "set"} of ${plural(size, "element")}${all ? `, ${grouped(all)} in all` : ""}` }, `${isBags ? "bag" : "set"} of ${grouped(size)}`);
}

// Return a node for a value. Of a set or a bag it shows at most `most` items.
export function valueNode(value, most = Infinity, from = 0) {
  const out = span("value");
  if (!isSet(value) && !isBag(value)) {
    out.append(elementNode(value, from));
    return out;
  }
  const items = itemsOf(value), left = items.length - most, isBags = isBag(value);
  out.append(sizeNode(isBags, items.length, isBags ? items.reduce((all, it) => all + it[1], 0) : 0), " ");
  if (!items.length) out.append(span("undef", "empty"));
  for (const [element, count] of left > 0 ? items.slice(0, most) : items) out.append(...itemNode("", element, isBags ? times(count) : null));
  if (left > 0) out.append(moreNode("value", `${grouped(left)} more`, () => valueNode(value, most + MORE)));
  return out;
}

// What a trace has: a run, or a window of a segment.
export const runName = () => shown.run.part === null ? "run" : "window";
// What is before the first event: the opening state of a segment, or the state that the events before a window leave.
export const beginningText = () => shown.run.from ? `Before event ${grouped(shown.run.from)}` : "Opening state";

// The link to a move.
export const moveLink = write => button("link", `Go to move ${write.move}`, () => act.choose(write.event + 1), `move ${write.move}`);
export const writerNodes = write => write ? [moveLink(write), ` by agent ${write.agent}`] : [beginningText().toLowerCase()];

export function answerText(answer) {
  if (answer === "full") return "full";
  if (answer.fired !== undefined) return `fired as move ${answer.fired}`;
  if (answer.stale) return `stale at ${locationText(answer.stale)}`;
  if (answer.clash) return `clash ${answer.clash[1]} at ${locationText(answer.clash[0])}`;
  return `read ${afterMoves(answer.number)}`;
}
