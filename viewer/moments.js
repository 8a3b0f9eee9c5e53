// When a condition holds in a run, at which locations it starts to hold, and the values of an expression.
import { ANY, comparisonsOf, isAny, operandsOf } from "./condition.js";
import { Content } from "./shape.js";
import { isNumber, isSame, keyOf } from "./terms.js";

const COMPARED = {
  "<": (a, b) => a < b, "<=": (a, b) => a <= b, ">": (a, b) => a > b, ">=": (a, b) => a >= b,
};

// Return the locations of the run that a pattern matches. `here` is the chosen one.
export function placesOf(run, pattern, here) {
  if (!pattern) return here ? [here] : [];
  if (!pattern.includes(ANY)) return [run.locations.get(keyOf(pattern))].filter(Boolean);
  return run.sorted.filter(({ at }) => at.length === pattern.length && pattern.every((it, i) => it === ANY || isSame(it, at[i])));
}
// Whether a condition is a single comparison at locations, which starts to hold at each of them separately.
export const isByPlace = ({ order, left }) => !!order && !left.total && !("value" in left);

// Follows the state of some locations along the run.
class Follower {
  constructor(run, operands, here) {
    this.run = run;
    this.contents = new Map();
    this.operands = new Map(operands.map(it => [it, new Operand(it, "value" in it ? [] : placesOf(run, it.pattern, here), this.contents)]));
    for (const { places } of this.operands.values()) for (const it of places) if (!this.contents.has(it)) this.contents.set(it, new Content(it.opening));
    for (const it of this.operands.values()) it.begin();
  }
  // Call back for the opening state, and then for each event that writes one of the locations, with these writes.
  walk(visit) {
    visit(0, []);
    const places = [...this.contents.keys()], writes = places.length === 1 ? places[0].writes : places.flatMap(it => it.writes).sort((a, b) => a.event - b.event);
    for (let i = 0; i < writes.length;) {
      const from = i, { event } = writes[i];
      while (i < writes.length && writes[i].event === event) this.follow(writes[i++]);
      visit(event + 1, writes.slice(from, i));
    }
  }
  follow(write) {
    const content = this.contents.get(write.location);
    if (write.items) content.follow(write.items);
    else this.contents.set(write.location, new Content(write.value));
    for (const it of this.operands.values()) if (it.of.has(write.location)) it.change(write.location);
  }
}

// An operand along the run: the content of one location, or a number that is computed from several.
class Operand {
  constructor(expression, places, contents) {
    Object.assign(this, { expression, places, contents, of: new Set(places), numbers: new Map(), nonEmpty: new Set(), sum: 0n, end: null });
  }
  begin() {
    if (this.expression.total) for (const it of this.places) this.change(it);
  }
  change(place) {
    if (!this.expression.total) return;
    const { value, kind } = this.contents.get(place), old = this.numbers.get(place) ?? null, now = kind === "element" && isNumber(value) ? BigInt(value) : null;
    if (kind !== "element" || value !== null) this.nonEmpty.add(place);
    else this.nonEmpty.delete(place);
    this.sum += (now ?? 0n) - (old ?? 0n);
    if (now === null) this.numbers.delete(place);
    else this.numbers.set(place, now);
    if (old !== null && old === this.end) this.end = null; // computed when it is needed
    else if (now !== null && this.end !== null && this.isBeyond(now, this.end)) this.end = now;
  }
  isBeyond(a, b) {
    return this.expression.total === "min" ? a < b : a > b;
  }
  // Return a number, or null if there is none.
  total() {
    const { total } = this.expression;
    if (total === "sum") return plainNumber(this.sum);
    if (total === "count") return this.nonEmpty.size;
    if (!this.numbers.size) return null;
    if (this.end === null) for (const it of this.numbers.values()) if (this.end === null || this.isBeyond(it, this.end)) this.end = it;
    return plainNumber(this.end);
  }
  // Return the present number of the operand, at `place` or else at its first location; null if there is none.
  numberAt(place) {
    const { expression } = this;
    if ("value" in expression) return isNumber(expression.value) ? expression.value : null;
    if (expression.total) return this.total();
    const content = this.contents.get(place ?? this.places[0]);
    if (!content) return null;
    if (expression.part === "size") return content.items?.size ?? null;
    if (expression.part === "count") return content.kind === "bag" ? content.countOf(expression.element) : null;
    return content.kind === "element" && isNumber(content.value) ? content.value : null;
  }
  contentAt(place) {
    return this.contents.get(place ?? this.places[0]) ?? null;
  }
  get isContent() {
    return !this.expression.total && !this.expression.part && !("value" in this.expression);
  }
}
const plainNumber = big => big >= -9007199254740991n && big <= 9007199254740991n ? Number(big) : big;

// Return whether a comparison holds now at `place`, one of the locations of its left side, or else at the first of these.
function holdsAt({ left, order, right }, operands, place, changed) {
  const a = operands.get(left), b = operands.get(right);
  if (order === "changes") return changed.some(it => it.location === (place ?? a.places[0]) && isChange(it));
  if (order === "has" || order === "lacks") {
    const content = a.contentAt(place);
    return !!content?.items && (content.countOf(right.value) > 0) === (order === "has");
  }
  if (order === "=" || order === "!=") return isEqual(a, b, place) === (order === "=");
  const [x, y] = [a.numberAt(place), b.numberAt()];
  return x !== null && y !== null && COMPARED[order](x, y);
}
const isChange = write => write.items ? write.items.length > 0 : !isSame(write.old, write.value);
function isEqual(a, b, place) {
  if (!a.isContent) return b.isContent ? isNumberIn(b.contentAt(), a.numberAt(place)) : "value" in a.expression ? isSame(a.expression.value, b.expression.value) : isSame(a.numberAt(place), b.numberAt());
  const content = a.contentAt(place);
  if (!content) return false;
  return "value" in b.expression ? content.equals(b.expression.value) : b.isContent ? !!b.contentAt() && content.equals(b.contentAt().whole()) : isNumberIn(content, b.numberAt());
}
const isNumberIn = (content, number) => number !== null && content?.kind === "element" && content.value === number;

// Return whether a condition holds now. `many` has for each comparison over many locations where it holds.
function holds(condition, operands, many, changed) {
  if (condition.or) return condition.or.some(it => holds(it, operands, many, changed));
  if (condition.and) return condition.and.every(it => holds(it, operands, many, changed));
  if (condition.not) return !holds(condition.not, operands, many, changed);
  return many.has(condition) ? many.get(condition).size > 0 : holdsAt(condition, operands, null, changed);
}

// Return the stretches in which the condition holds, as pairs of counts of events, from the first count on and before the second.
// Also return the moments at which it starts to hold, each with its location; a condition on many locations has moments of each.
export function momentsOf(run, condition, here) {
  const follower = new Follower(run, operandsOf(condition), here), { operands } = follower, stretches = [], onsets = [];
  const all = comparisonsOf(condition), many = new Map(all.filter(it => isAny(it.left) || (it === condition && isByPlace(it))).map(it => [it, new Set()])), hasChange = all.some(it => it.order === "changes");
  const isOwn = isByPlace(condition);
  let since = -1;
  const settle = (count, isHeld) => {
    if (isHeld && since < 0) since = count;
    else if (!isHeld && since >= 0) {
      stretches.push([since, count]);
      since = -1;
    }
  };
  let last = -1;
  follower.walk((count, writes) => {
    if (hasChange && last >= 0 && last + 1 < count) {
      for (const [it, places] of many) if (it.order === "changes") places.clear();
      settle(last + 1, holds(condition, operands, many, []));
    }
    const before = since;
    for (const [it, places] of many) renewMany(it, places, operands, count, writes, isOwn ? onsets : null);
    settle(count, holds(condition, operands, many, writes));
    if (!isOwn && since === count && since !== before) onsets.push({ count, place: writes[0]?.location ?? null });
    last = count;
  });
  if (since >= 0 && hasChange && last + 1 <= run.events.length) {
    for (const [it, places] of many) if (it.order === "changes") places.clear();
    settle(last + 1, holds(condition, operands, many, []));
  }
  if (since >= 0) stretches.push([since, run.events.length + 1]);
  return { stretches, onsets };
}
// Find again at which of many locations a comparison holds: those that were written, or all if its right side has changed.
function renewMany(comparison, places, operands, count, writes, onsets) {
  const left = operands.get(comparison.left), right = operands.get(comparison.right), isFresh = count === 0 || comparison.order === "changes" || writes.some(it => right?.of.has(it.location));
  if (comparison.order === "changes") places.clear();
  const written = isFresh && comparison.order !== "changes" ? left.places : writes.map(it => it.location).filter(it => left.of.has(it));
  for (const place of written) {
    const isHeld = holdsAt(comparison, operands, place, writes);
    if (isHeld && !places.has(place)) onsets?.push({ count, place });
    if (isHeld) places.add(place);
    else places.delete(place);
  }
}

// Return the values of an operand along the run: pairs of a count of events and the number from there on, null if there is none.
export function seriesOf(run, operand, here) {
  const follower = new Follower(run, [operand], here), it = follower.operands.get(operand), out = [];
  follower.walk(count => {
    const number = it.numberAt();
    if (!out.length || out.at(-1)[1] !== number) out.push([count, number === null ? null : Number(number)]);
  });
  return out;
}
// The operand that the picture of a condition shows: the first one that is a single number.
export const plotted = condition => operandsOf(condition).find(it => !isAny(it) && !("value" in it)) ?? null;
// Return the smallest and the greatest number of an operand, over all its locations; null if it has none.
export function rangeOf(run, operand, here) {
  const numbers = isAny(operand) && !operand.part ? placesOf(run, operand.pattern, here).flatMap(it => [it.opening, ...it.writes.map(at => at.items ? null : at.value)]).filter(isNumber)
    : isAny(operand) ? [] : seriesOf(run, operand, here).map(it => it[1]).filter(it => it !== null);
  return numbers.length ? numbers.reduce(([least, most], it) => [it < least ? it : least, it > most ? it : most], [numbers[0], numbers[0]]) : null;
}
