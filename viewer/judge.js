// The answers of a sequential storage to each call of a trace. A trace is redundant, and the page trusts nothing that it can
// check.
import { byLocation, isBag, isNumber, isSame, isSet, itemKey, keyOf } from "./terms.js";

export const MOST_COUNT = 2 ** 32 - 1;
const LEAST_SUM = -(2n ** 63n), MOST_SUM = 2n ** 63n - 1n, SAFE = BigInt(Number.MAX_SAFE_INTEGER);
const FAMILY = { add: ofSet, remove: ofSet, bagadd: ofBag, bagremove: ofBag, inc: ofNumber };

// Compute what a fire makes of each location that it writes: the cause of a clash, or whether a change is the one that the
// instructions make. Null if the answer doesn't depend on that.
export const effectsFor = (event, run) => event.fire && (event.kind === "fired" || !isStaleRight(event, run)) ? effectsOf(event) : null;
// Return what doesn't match in an event, before its updates are applied: null, or the answer of a storage.
export function doubtOf(event, effects, run) {
  const answer = event.right ?? event.reply, right = event.read ? rightRead(event, answer) : rightFire(event, effects, answer, run);
  if (right !== null) return { right };
  return event.isWrong && isRepeated(event) ? { isRepeated: true } : null;
}
// Return whether the answer that is called right equals the given one, also at one of the positions that it lists as different.
function isRepeated({ read, reply, right }) {
  if (!read) return isSame(right, reply);
  return right.number === reply.number && !right.differs.length || right.differs.some(i => isSame(right.values[i], reply.values[i]));
}
// Return whether the applied updates are those of the instructions.
export function isDone({ writes }, effects) {
  if (effects.isClash) return writes.length === 0;
  return writes.length === effects.size && writes.every(write => effects.has(write.location) && effects.get(write.location).fits(write));
}

// Return null if the answer is right, else the right answer.
function rightRead(event, answer) {
  if (answer.number === event.before && event.read.every((it, i) => it.content.equals(answer.values[i]))) return null;
  return { number: event.before, values: event.read.map(it => it.content.whole()) };
}
function rightFire(event, effects, answer, run) {
  const stale = knownStale(event);
  if (answer.stale && isStaleRight(event, run)) return null;
  if (stale) return { stale: stale.at };
  const clash = effects?.isClash ? clashOf(effects) : null;
  if (clash) return answer.clash && isSame(answer.clash, clash) ? null : { clash };
  if (answer === "full" && run.ends.has(event.before)) return null;
  if (event.before >= run.capacity) return answer === "full" ? null : "full";
  return answer.fired === event.before + 1 ? null : { fired: event.before + 1 };
}
const leastOf = places => places.reduce((least, it) => least && byLocation(least.at, it.at) <= 0 ? least : it, null);
const lastMove = location => location.writes.at(-1)?.move ?? 0;
const knownStale = event => leastOf(event.named.filter(it => lastMove(it.location) > it.number).map(it => it.location));
// Return whether the location in a stale answer is the smallest that a move has written since. Moves before a window are unknown,
// so what was read before it may be stale.
function isStaleRight(event, run) {
  const at = (event.right ?? event.reply).stale;
  if (!at) return false;
  const key = keyOf(at), known = knownStale(event), isUnknown = event.named.some(it => it.location.key === key && it.number < run.movesBefore);
  return known?.key === key || (isUnknown && (!known || byLocation(at, known.at) < 0));
}
function clashOf(effects) {
  const at = leastOf([...effects].filter(it => typeof it[1] === "string").map(it => it[0]));
  return [at.at, effects.get(at)];
}

function effectsOf(event) {
  const { fire, targets } = event, effects = new Map();
  let isTwice = false;
  for (let i = 0; i < fire.length; i++) {
    if (effects.has(targets[i])) isTwice = true;
    effects.set(targets[i], isTwice ? null : [fire[i]]);
  }
  if (isTwice) gather(event, effects);
  for (const [location, group] of effects) {
    const effect = effectOf(location.content, group);
    effects.set(location, effect);
    if (typeof effect === "string") effects.isClash = true;
  }
  return effects;
}
// Collect all instructions of each location, if a location has several.
function gather({ fire, targets }, effects) {
  for (const location of effects.keys()) effects.set(location, []);
  fire.forEach((it, i) => effects.get(targets[i]).push(it));
}

// Compute the effect of a location's instructions on its content: the cause of a clash, or a test of whether a write matches.
function effectOf(content, group) {
  if (group.length === 1 && group[0][0] === "put") return new Put(group[0][2]);
  const puts = group.filter(it => it[0] === "put"), partials = puts.length ? group.filter(it => it[0] !== "put") : group;
  if (puts.some(it => !isSame(it[2], puts[0][2]))) return "Two";
  if (!partials.length) return new Put(puts[0][2]);
  const family = FAMILY[partials[0][0]];
  return partials.some(it => FAMILY[it[0]] !== family) ? "Mixed" : family(content, partials, puts[0]);
}
class Put {
  constructor(value) {
    this.value = value;
  }
  fits({ location }) {
    return location.content.equals(this.value);
  }
}
// The counts of elements by their keys, each before and after, and how many of them change.
class Counts {
  constructor(counts) {
    this.counts = counts;
    this.changed = 0;
    for (const it of counts.values()) if (it.was !== it.now) this.changed++;
  }
  fits({ location, items }) {
    if (items?.length !== this.changed) return false;
    for (const [key, it] of this.counts) if ((location.content.items.get(key)?.[1] ?? 0) !== it.now) return false;
    return true;
  }
}
function ofSet(content, partials, put) {
  if (put ? !isSet(put[2]) : content.kind !== "set") return "Kind";
  const counts = new Map(), members = put ? new Set(put[2].set.map(itemKey)) : content.items;
  for (const [word, , element] of partials) {
    const key = itemKey(element), now = word === "add" ? 1 : 0, it = counts.get(key);
    if (it && it.now !== now) return "Both";
    if (!it) counts.set(key, { was: members.has(key) ? 1 : 0, now });
  }
  const effect = new Counts(counts);
  return !put ? effect : effect.changed ? "Against" : new Put(put[2]);
}
function ofBag(content, partials, put) {
  if (put ? !isBag(put[2]) : content.kind !== "bag") return "Kind";
  if (put) return "Against";
  const counts = new Map();
  for (const [word, , element, amount] of partials) {
    const key = itemKey(element), was = content.items.get(key)?.[1] ?? 0, it = counts.get(key) ?? { was, now: was, removed: 0 };
    if (word === "bagremove") it.removed += amount;
    it.now += word === "bagadd" ? amount : -amount;
    counts.set(key, it);
  }
  let isLarge = false;
  for (const it of counts.values()) {
    if (it.removed > it.was) return "Short";
    isLarge ||= it.now > MOST_COUNT;
  }
  return isLarge ? "Large" : new Counts(counts);
}
function ofNumber(content, partials, put) {
  const base = put ? put[2] : content.value;
  if (!isNumber(base)) return "Kind";
  if (put) return "Against";
  const sum = partials.reduce((all, it) => all + BigInt(it[2]), BigInt(base));
  return sum < LEAST_SUM || sum > MOST_SUM ? "Large" : new Put(sum >= -SAFE && sum <= SAFE ? Number(sum) : sum);
}
