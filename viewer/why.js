// Why the updates of a location have no result, in words.
import { differingParts, ownPartNode } from "./change.js";
import { MOST_COUNT } from "./judge.js";
import { answerText, elementNode, glyph, itemNode, locationNode, make, span, times, valueNode } from "./nodes.js";
import { kindOf } from "./run.js";
import { differingItems } from "./shape.js";
import { afterMoves, byElement, isBag, isNumber, isSame, isSet, keyOf } from "./terms.js";

const REASONS = {
  Two: "two different regular values are put there",
  Mixed: "partial updates of two families meet there: of sets, of bags or of counters",
  Kind: "a partial update finds no value of its kind there: no set, no bag, or for inc no number",
  Both: "an element is both added to the set and removed from it",
  Against: "a regular value is put beside partial updates that don't agree with it",
  Short: "more of an element is removed than the bag has of it",
};
const TOO_LARGE = { count: "the new count is above 4,294,967,295", number: "the new number is outside the range of 64 bits" };

// Return the cause in words, and if possible what it is about: nodes and texts.
export function clashNodes(cause, instructions, old) {
  const explain = { Two: explainTwo, Both: explainBoth, Against: explainAgainst, Short: explainCounts, Large: isNumber(old) ? explainNumber : explainCounts }[cause];
  const details = explain?.(new Group(instructions), old) ?? [];
  const reason = cause === "Large" ? TOO_LARGE[isNumber(old) ? "number" : "count"] : REASONS[cause];
  return [` ${reason}.`, ...(details.length ? [" ", ...details] : [])];
}

// The instructions of one location.
class Group {
  constructor(instructions) {
    this.put = distinct(instructions.filter(it => it[0] === "put").map(it => it[2]));
    this.added = distinct(elements(instructions, "add"));
    this.removed = distinct(elements(instructions, "remove"));
    this.bags = instructions.filter(it => it[0].startsWith("bag"));
    this.increments = elements(instructions, "inc");
  }
}
const elements = (instructions, word) => instructions.filter(it => it[0] === word).map(it => it[2]);
const distinct = list => [...new Map(list.map(it => [keyOf(it), it])).values()];
const without = (list, others) => {
  const keys = new Set(others.map(keyOf));
  return list.filter(it => !keys.has(keyOf(it)));
};

const explainTwo = group => ["They are ", ...group.put.slice(0, 3).flatMap((it, i) => [i ? " and " : "", valueNode(it, 6)]), "."];
function explainBoth(group) {
  const once = without(group.added, group.removed), both = without(group.added, once);
  return both.length ? ["It is ", elementNode(both.sort(byElement)[0]), "."] : [];
}
function explainAgainst(group) {
  const [value] = group.put;
  if (isBag(value)) return ["A bag that is put agrees with no partial update."];
  if (!isSet(value)) return ["A number that is put agrees with no increment."];
  const lacking = without(group.added, value.set), contained = without(group.removed, without(group.removed, value.set));
  if (lacking.length) return ["The set that is put lacks ", elementNode(lacking[0]), ", which is added."];
  return contained.length ? ["The set that is put has ", elementNode(contained[0]), ", which is removed."] : [];
}
// Return the first element of which the bag has too few for what is removed, or would get too many.
function explainCounts(group, old) {
  if (!isBag(old)) return [];
  const counts = new Map();
  for (const [word, , element, amount] of group.bags) {
    const it = counts.get(keyOf(element)) ?? { element, added: 0, removed: 0 };
    it[word === "bagadd" ? "added" : "removed"] += amount;
    counts.set(keyOf(element), it);
  }
  const amounts = new Map(old.bag.map(it => [keyOf(it[0]), it[1]])), had = element => amounts.get(keyOf(element)) ?? 0;
  for (const { element, added, removed } of [...counts.values()].sort((a, b) => byElement(a.element, b.element))) {
    const count = had(element), now = count - removed + added;
    if (removed > count) return [`${removed} of `, elementNode(element), ` are removed, and the bag has ${count || "none"}.`];
    if (now > MOST_COUNT) return ["Of ", elementNode(element), ` it would have ${now}.`];
  }
  return [];
}
function explainNumber(group, old) {
  const sum = group.increments.reduce((all, it) => all + BigInt(it), BigInt(old));
  return [`It would be ${sum}.`];
}

// ---- a wrong answer beside the right one, and how they differ

const MOST_DIFFERING = 12, MOST_PLACES = 8;

export function wrongNote(event) {
  const after = event.kind === "fired" ? "The state is as if the move had been fired, as the journal says."
    : event.right.fired !== undefined ? "The journal doesn't say that the move was fired, so it changes nothing here." : null;
  return make("div", { class: "note wrong" },
    make("p", {}, make("b", {}, "This answer is wrong."), " A storage of one thread gives another one here."),
    make("div", { class: "sides" }, side("recorded", "In the journal", event, event.reply, event.right), side("right", "Right answer", event, event.right, event.reply)),
    after ? make("p", {}, after) : null);
}
function side(kind, title, event, answer, other) {
  const head = make("h3", {}, title);
  if (!event.read) return make("div", { class: `side ${kind}` }, head, glyph(kindOf(answer)), ` ${answerText(answer)}`);
  const places = event.read.map((_, i) => i).filter(i => !isSame(answer.values[i], other.values[i])), left = places.length - MOST_PLACES;
  return make("div", { class: `side ${kind}` }, head,
    answer.number === other.number ? null : make("p", {}, glyph("read"), ` read ${afterMoves(answer.number)}`),
    places.slice(0, MOST_PLACES).map(i => make("p", {}, locationNode(event.read[i]), " ", differenceNode(answer.values[i], other.values[i]))),
    left > 0 ? make("p", { class: "soft" }, `and at ${left} more locations`) : null);
}
// Return a note on what in the event doesn't match the rest of the trace, whatever the trace says about it.
export function doubtNote(event) {
  const { right, isRepeated } = event.doubt;
  const why = isRepeated ? "The trace calls this answer wrong, and gives the same one as the right one."
    : right === undefined ? "The changes that the trace has here aren't those of the instructions." : null;
  return make("div", { class: "note wrong" },
    make("p", {}, make("b", {}, "This event doesn't agree with the trace that it is in."), " The trace is made up or damaged, so nothing behind this event can be relied on."),
    why ? make("p", {}, why) : make("div", { class: "sides" }, side("recorded", "In the trace", event, event.right ?? event.reply, right), side("right", "By its own state", event, right, event.right ?? event.reply)));
}
// Whether the right value of the location with this index differs from the journal's.
export const isOther = (event, i) => event.isWrong && !isSame(event.reply.values[i], event.right.values[i]);

// Return a node for what the first of two values has and the second hasn't: items of sets and bags, else the value.
export function differenceNode(value, other) {
  const items = differingItems(other, value);
  const lists = differingParts(other, value);
  if (lists) return ownPartNode(lists);
  if (!items) return valueNode(value, MOST_DIFFERING);
  const out = span("value"), isBags = isBag(value), here = items.filter(it => it[2]), lacking = items.filter(it => !it[2]);
  const addItems = (word, kind, list, at) => {
    if (!list.length) return;
    const nodes = list.slice(0, MOST_DIFFERING).flatMap(it => itemNode(kind, it[0], isBags ? times(it[at]) : null)), left = list.length - MOST_DIFFERING;
    out.append(`${out.hasChildNodes() ? ", " : ""}${word} `, ...nodes.slice(0, -1), left > 0 ? ` and ${left} more` : "");
  };
  addItems("has", "here", here, 2);
  addItems("lacks", "lacking", lacking, 1);
  return out;
}
