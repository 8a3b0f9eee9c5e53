// The forms of a trace's lines, after the page on formats, and in words why a line doesn't have its form.
import { Fault } from "./exact.js";
import { byElement, byLocation, isBag, isSame, isSet, itemKey, shortText } from "./terms.js";

const NAME = /^[A-Za-z_][A-Za-z0-9_]{0,63}$/;
const MOST = { agents: 256, capacity: 2 ** 20, number: 2 ** 32 - 1, reads: 256, fire: 4096, arguments: 8, items: 4096, depth: 8 };
const LEAST_NUMBER = -(2n ** 63n), MOST_NUMBER = 2n ** 63n - 1n;
const CAUSES = ["Two", "Mixed", "Kind", "Both", "Against", "Short", "Large"];
// How many members an instruction has, and what checks the third.
const INSTRUCTIONS = { put: [3, checkValue], add: [3, checkElement], remove: [3, checkElement], bagadd: [4, checkElement], bagremove: [4, checkElement], inc: [3, checkNumber] };

function need(holds, what) {
  if (!holds) throw new Fault(what);
}
const isObject = x => x !== null && typeof x === "object" && !Array.isArray(x);
const isWithin = (x, least, most) => typeof x === "number" && x >= least && x <= most;
const isOnly = (x, key) => isObject(x) && key in x && Object.keys(x).length === 1;

export function checkHeader(header) {
  need(isObject(header), "This is no trace: its first line is no header.");
  need(!("version" in header), "This is a journal, not its trace. ./view < JOURNAL shows it, and ./asm_driver trace < JOURNAL makes the trace.");
  need(!(Array.isArray(header.agents) && "init" in header), "This is a script, not the trace of its run. ./asm_driver run --journal < SCRIPT plays it, and ./view shows the journal.");
  need("trace" in header, "This is no trace: its first line is no header.");
  need(header.trace === 1 || header.trace === 2, "This page reads traces of the versions 1 and 2, and this is one of another version.");
  members(header, ["agents", "capacity", "events", "init", "trace", ...header.trace === 2 ? ["from", "moves", "part"] : []], "the header");
  need(isWithin(header.agents, 0, MOST.agents), "`agents` isn't a whole number from 0 to 256");
  need(isWithin(header.capacity, 1, MOST.capacity), "`capacity` isn't a whole number from 1 to 1,048,576");
  need(isWithin(header.events, 0, MOST.number), "`events` isn't a whole number from 0 to 4,294,967,295");
  listOf(header.init, Infinity, checkPair, "`init`");
  ascending(header.init.map(it => it[0]), byLocation, "the locations of `init`");
  if (header.trace === 2) checkWindow(header);
}
// Check the numbers of a window of a segment: the segment's number, how many events precede it, and how many moves these fired.
function checkWindow({ from, moves, part, events }) {
  need(isWithin(part, 0, MOST.number), "`part` isn't a whole number from 0 to 4,294,967,295");
  need(isWithin(from, 0, MOST.number - events), "`from` and `events` aren't whole numbers whose sum is at most 4,294,967,295");
  need(isWithin(moves, 0, from), "`moves` isn't a whole number up to `from`");
}

const EVENT = ["agent", "call", "event", "reply"], MEMBERS = [EVENT, [...EVENT, "right"], [...EVENT, "updates"], [...EVENT, "right", "updates"]];
export function checkEvent(line, number, agents) {
  need(isObject(line), "it is no event");
  if (line.event !== number) throw new Fault(`its \`event\` isn't ${number}`);
  if (!isWithin(line.agent, 0, agents - 1)) throw new Fault(`its \`agent\` isn't one of the ${agents} of the header, which are counted from 0`);
  checkCall(line.call);
  checkReply(line.call, line.reply, "`reply`");
  if ("right" in line) checkRight(line);
  const isFired = isObject(line.reply) && "fired" in line.reply;
  need(isFired === "updates" in line, isFired ? "it is fired and has no `updates`" : "it isn't fired and has `updates`");
  if (isFired) {
    listOf(line.updates, MOST.fire, checkChange, "`updates`");
    if (line.updates.length > 1) ascending(line.updates.map(it => it[0]), byLocation, "the locations of `updates`");
  }
  members(line, MEMBERS[("right" in line ? 1 : 0) + (isFired ? 2 : 0)], "it");
}

function members(object, names, what) {
  for (const name of names) if (!(name in object)) throw new Fault(`${what} has no \`${name}\``);
  for (const name in object) if (!names.includes(name)) throw new Fault(`${what} has a further member ${shortText(name)}`);
}
function listOf(list, most, check, what) {
  if (!Array.isArray(list)) throw new Fault(`${what} is no list`);
  if (list.length > most) throw new Fault(`${what} has more than ${most} items`);
  list.forEach(check);
}
function ascending(list, by, what) {
  for (let i = 1; i < list.length; i++) if (by(list[i - 1], list[i]) >= 0) throw new Fault(`${what} aren't in ascending order`);
}
const firstOf = it => it[0];

function checkCall(call) {
  need(isObject(call), "its `call` is no call");
  if ("read" in call) {
    members(call, ["read"], "its read");
    return listOf(call.read, MOST.reads, checkLocation, "`read`");
  }
  members(call, ["fire", "reads"], "its `call`");
  listOf(call.fire, MOST.fire, checkInstruction, "`fire`");
  listOf(call.reads, MOST.reads, named => {
    need(Array.isArray(named) && named.length === 2, "one of its `reads` is no location with a number");
    checkLocation(named[0]);
    need(isWithin(named[1], 0, MOST.number), "one of its `reads` has no number");
  }, "`reads`");
}
// Check the right answer to a read: it has the positions of the values that differ, and no values.
function checkRight({ call, right }) {
  if (!("read" in call)) return checkReply(call, right, "`right`");
  need(isObject(right), "`right` isn't one of a read");
  members(right, ["differs", "number"], "`right`");
  need(isWithin(right.number, 0, MOST.number), "`right` has no number");
  listOf(right.differs, MOST.reads, it => need(isWithin(it, 0, call.read.length - 1), "`right` has a position that the read hasn't"), "the positions of `right`");
  need(right.differs.every((it, i, all) => i === 0 || all[i - 1] < it), "the positions of `right` don't ascend");
}
function checkReply(call, reply, what) {
  if ("read" in call) {
    need(isObject(reply) && "number" in reply && "values" in reply, `${what} isn't one of a read`);
    members(reply, ["number", "values"], what);
    need(isWithin(reply.number, 0, MOST.number), "a read is answered without a number");
    listOf(reply.values, MOST.reads, checkValue, `the values of ${what}`);
    if (reply.values.length === call.read.length) return;
    throw new Fault(`${what} has ${reply.values.length} values for ${call.read.length} locations`);
  }
  if (reply === "full") return;
  if (isOnly(reply, "fired")) return need(isWithin(reply.fired, 0, MOST.number), `${what} has no number`);
  if (isOnly(reply, "stale")) return checkLocation(reply.stale);
  need(isOnly(reply, "clash") && Array.isArray(reply.clash) && reply.clash.length === 2, `${what} isn't one of a fire`);
  checkLocation(reply.clash[0]);
  need(CAUSES.includes(reply.clash[1]), `${what} has no cause of a clash`);
}
function checkInstruction(it) {
  need(Array.isArray(it) && typeof it[0] === "string" && Object.hasOwn(INSTRUCTIONS, it[0]), "an instruction begins with none of put, add, remove, bagadd, bagremove and inc");
  const [count, check] = INSTRUCTIONS[it[0]];
  if (it.length !== count) throw new Fault(`an instruction \`${it[0]}\` has ${it.length} members and not ${count}`);
  checkLocation(it[1]);
  check(it[2]);
  if (count === 4) checkCount(it[3], 1);
}
function checkChange(change) {
  need(Array.isArray(change) && (change.length === 2 || change.length === 3), "one of its `updates` is no change");
  const [at, difference] = change;
  checkLocation(at);
  if (change.length === 3) return change.slice(1).forEach(checkValue);
  need(isObject(difference), "one of its `updates` is no change");
  if ("counts" in difference) {
    members(difference, ["counts"], "a change");
    listOf(difference.counts, Infinity, it => {
      need(Array.isArray(it) && it.length === 3, "one of its `counts` isn't an element with two counts");
      checkElement(it[0]);
      checkCount(it[1], 0);
      checkCount(it[2], 0);
    }, "`counts`");
    return difference.counts.length > 1 ? ascending(difference.counts.map(firstOf), byElement, "the elements of `counts`") : undefined;
  }
  members(difference, ["added", "removed"], "a change");
  checkElements(difference.added, "`added`");
  checkElements(difference.removed, "`removed`");
}

function checkPair(pair) {
  need(Array.isArray(pair) && pair.length === 2, "one of its pairs isn't a location with its value");
  checkLocation(pair[0]);
  checkValue(pair[1]);
}
function checkLocation(at) {
  need(Array.isArray(at) && typeof at[0] === "string" && NAME.test(at[0]), "a location has no name of 1 to 64 letters, digits or _, the first no digit");
  need(at.length <= 1 + MOST.arguments, "a location has more than 8 arguments");
  for (let i = 1; i < at.length; i++) checkElement(at[i]);
}
function checkValue(value) {
  if (isOnly(value, "set")) return checkElements(value.set, "a set");
  if (!isOnly(value, "bag")) return checkElement(value);
  listOf(value.bag, Infinity, it => {
    need(Array.isArray(it) && it.length === 2, "a bag has an item that isn't an element with its count");
    checkElement(it[0]);
    checkCount(it[1], 1);
  }, "a bag");
  ascending(value.bag.map(it => it[0]), byElement, "the elements of a bag");
}
function checkElements(list, what) {
  listOf(list, Infinity, checkOne, what);
  if (list.length > 1) ascending(list, byElement, `the elements of ${what}`);
}
const checkOne = it => checkElement(it);
function checkElement(x, depth = 0) {
  if (x === null || typeof x === "boolean" || typeof x === "string") return;
  if (!isObject(x)) return checkNumber(x);
  need(isOnly(x, "list"), "an object is in the place of an element");
  need(depth < MOST.depth, "a list is nested deeper than 8");
  listOf(x.list, MOST.items, it => checkElement(it, depth + 1), "a list");
}
function checkNumber(x) {
  need(typeof x === "number" || (typeof x === "bigint" && x >= LEAST_NUMBER && x <= MOST_NUMBER), "what has to be a number isn't one, or is outside the range of 64 bits");
}
function checkCount(x, least) {
  need(isWithin(x, least, MOST.number), "a count is out of its range");
}

// ---- the contents of locations, and how sets and bags differ

export const formOf = value => isSet(value) ? "set" : isBag(value) ? "bag" : "element";
export const itemsOf = value => isSet(value) ? value.set.map(it => [it, 1]) : value.bag;

// The content of a location. A set or a bag is a map from keys to an element with its count.
export class Content {
  constructor(value) {
    this.kind = formOf(value);
    this.value = value;
    if (this.kind !== "element") this.items = new Map(itemsOf(value).map(it => [itemKey(it[0]), it]));
  }
  get size() {
    return this.items ? this.items.size : 1;
  }
  countOf(element) {
    return this.items.get(itemKey(element))?.[1] ?? 0;
  }
  put(element, count) {
    const key = itemKey(element);
    this.items.delete(key);
    if (count) this.items.set(key, [element, count]);
  }
  whole() {
    if (this.kind === "element") return this.value;
    const items = [...this.items.values()].sort((a, b) => byElement(a[0], b[0]));
    return this.kind === "set" ? { set: items.map(it => it[0]) } : { bag: items };
  }
  equals(value) {
    if (this.kind !== formOf(value)) return false;
    if (this.kind === "element") return isSame(this.value, value);
    const items = value.set ?? value.bag;
    if (items.length !== this.items.size) return false;
    return this.kind === "set" ? items.every(it => this.items.has(itemKey(it))) : items.every(([element, count]) => this.countOf(element) === count);
  }
  // Apply a change, each item of which is an element with its counts before and after.
  follow(items) {
    for (const [element, , now] of items) this.put(element, now);
  }
}

// Return what two sets or bags contain a different number of times, each with its count in both; null if they aren't two sets or
// two bags.
export function differingItems(a, b) {
  if (formOf(a) === "element" || formOf(a) !== formOf(b)) return null;
  const was = new Content(a), now = new Content(b), out = [];
  for (const [element, count] of itemsOf(a)) if (now.countOf(element) !== count) out.push([element, count, now.countOf(element)]);
  for (const [element, count] of itemsOf(b)) if (!was.countOf(element)) out.push([element, 0, count]);
  return out.sort((x, y) => byElement(x[0], y[0]));
}
