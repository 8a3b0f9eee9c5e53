// Elements, values and locations: their keys, their order, and how they are written for a person.

// Return the compact text of an element or a location, which is its key.
export function keyOf(x) {
  try {
    return JSON.stringify(x);
  } catch {
    return exactKey(x); // JSON.stringify refuses a BigInt
  }
}
function exactKey(x) {
  if (typeof x === "bigint") return String(x);
  if (Array.isArray(x)) return `[${x.map(exactKey).join(",")}]`;
  if (x && typeof x === "object") return `{${Object.keys(x).map(k => `${JSON.stringify(k)}:${exactKey(x[k])}`).join(",")}}`;
  return JSON.stringify(x);
}

// The key of an element in a map: a number is its own.
export const itemKey = x => typeof x === "number" ? x : keyOf(x);
// Return whether two elements, values, locations or answers are equal.
export function isSame(a, b) {
  if (a === b) return true;
  if (typeof a !== "object" || typeof b !== "object" || !a || !b) return false;
  if (Array.isArray(a)) {
    if (!Array.isArray(b) || a.length !== b.length) return false;
    for (let i = 0; i < a.length; i++) if (!isSame(a[i], b[i])) return false;
    return true;
  }
  const keys = Object.keys(a);
  return keys.length === Object.keys(b).length && keys.every(it => Object.hasOwn(b, it) && isSame(a[it], b[it]));
}

export const isSet = v => v !== null && typeof v === "object" && "set" in v;
export const isBag = v => v !== null && typeof v === "object" && "bag" in v;
export const isList = v => v !== null && typeof v === "object" && "list" in v;
export const isNumber = v => typeof v === "number" || typeof v === "bigint";

// The order of elements: undef, false, true, numbers, texts, lists.
function rankOf(x) {
  if (typeof x === "boolean") return x ? 2 : 1;
  if (isNumber(x)) return 3;
  if (typeof x === "string") return 4;
  return x === null ? 0 : 5;
}
export function byElement(a, b) {
  const rank = rankOf(a), order = rank - rankOf(b);
  if (order || rank < 3) return order;
  if (rank === 3) return a < b ? -1 : a > b ? 1 : 0;
  return rank === 4 ? byText(a, b) : byItems(a.list, b.list, 0);
}
// Compare by the bytes in UTF-8, which is the order of code points: surrogates are above the rest of 16 bits.
function byText(a, b) {
  const least = Math.min(a.length, b.length);
  for (let i = 0; i < least; i++) {
    const x = a.charCodeAt(i), y = b.charCodeAt(i);
    if (x !== y) return lifted(x) - lifted(y);
  }
  return a.length - b.length;
}
const lifted = unit => unit < 0xd800 ? unit : unit < 0xe000 ? unit + 0x2000 : unit - 0x800;
function byItems(a, b, from) {
  if (a.length !== b.length) return a.length - b.length;
  for (let i = from; i < a.length; i++) {
    const order = byElement(a[i], b[i]);
    if (order) return order;
  }
  return 0;
}
export const byLocation = (a, b) => byText(a[0], b[0]) || byItems(a, b, 1);

// Characters that are invisible, look like a space, or change the direction of writing. They are written as JSON escapes them.
const INVISIBLE = /(?! )[\p{Cc}\p{Cf}\p{Cs}\p{Z}\p{Default_Ignorable_Code_Point}\u2800]/gu;
// Letters of scripts from right to left, with their digits and marks.
const FROM_RIGHT = /[\u0590-\u08ff\ufb1d-\ufdff\ufe70-\ufeff\u{10800}-\u{10fff}\u{1e800}-\u{1efff}]/u;
const escaped = it => Array.from({ length: it.length }, (_, i) => `\\u${it.charCodeAt(i).toString(16).padStart(4, "0")}`).join("");
// A text next to others: a first strong isolate keeps its direction inside.
const alone = text => FROM_RIGHT.test(text) ? `\u2068${text}\u2069` : text;
export const withoutIsolates = text => text.replace(/[\u2068\u2069]/g, "");
const PLAIN = /^[ -~]*$/;
function quoted(text) {
  const json = JSON.stringify(text);
  return PLAIN.test(json) ? json : alone(json.replace(INVISIBLE, escaped));
}
// A text from outside that is no value, such as a file's name.
export const plainText = text => alone(text.replace(INVISIBLE, escaped));
export function elementText(x) {
  if (x === null) return "undef";
  if (typeof x === "string") return quoted(x);
  if (typeof x === "object") return `[${x.list.map(elementText).join(", ")}]`;
  return String(x);
}
export const locationText = at => at.length > 1 ? `${at[0]}(${at.slice(1).map(elementText).join(", ")})` : at[0];
// Return a value in one line; of a long one only its size.
export function valueText(v, most = 40) {
  const items = isSet(v) ? v.set : isBag(v) ? v.bag : null;
  if (!items) return elementText(v);
  if (items.length > most) return `${isSet(v) ? "set" : "bag"} of ${plural(items.length, "element")}`;
  return `{${items.map(it => isSet(v) ? elementText(it) : `${elementText(it[0])} ×${it[1]}`).join(", ")}}`;
}
// Return a value in a few letters, for a row that shows several.
export function shortText(v) {
  const text = valueText(v, 3);
  return text.length > MOST_SHORT ? `${cut(text, 0, MOST_SHORT)}…` : text;
}
const MOST_SHORT = 24;
// Return a piece of a text that begins and ends with complete characters.
export function cut(text, from, to) {
  const isWithin = at => at > 0 && at < text.length && /[\udc00-\udfff]/.test(text[at]) && /[\ud800-\udbff]/.test(text[at - 1]);
  return text.slice(isWithin(from) ? from - 1 : from, isWithin(to) ? to - 1 : to);
}
// Return how many first letters two texts share.
export function sharedLength(a, b) {
  let i = 0;
  while (i < a.length && i < b.length && a[i] === b[i]) i++;
  return i;
}

// Return the word that is nearest to a text, if few of its letters differ.
export function nearestName(text, words) {
  const least = Math.max(2, Math.floor(text.length / 3)) + 1;
  return [...words].map(it => [editDistance(text.toLowerCase(), it.toLowerCase()), it]).filter(it => it[0] < least).sort((a, b) => a[0] - b[0])[0]?.[1] ?? null;
}
function editDistance(a, b) {
  let row = Array.from({ length: b.length + 1 }, (_, i) => i);
  for (let i = 1; i <= a.length; i++) {
    const next = [i];
    for (let j = 1; j <= b.length; j++) next.push(Math.min(row[j] + 1, next[j - 1] + 1, row[j - 1] + (a[i - 1] === b[j - 1] ? 0 : 1)));
    row = next;
  }
  return row[b.length];
}

export const grouped = n => n.toLocaleString("en");
export const plural = (n, one, many = `${one}s`) => `${grouped(n)} ${n === 1 ? one : many}`;
// After how many moves something was read.
export const afterMoves = n => n ? `after ${plural(n, "move")}` : "in the opening state";

// Return the index of the first item of an ascending list that isn't below the limit.
export function firstFrom(list, limit, of = it => it) {
  let low = 0, high = list.length;
  while (low < high) {
    const middle = (low + high) >> 1;
    if (of(list[middle]) < limit) low = middle + 1;
    else high = middle;
  }
  return low;
}
