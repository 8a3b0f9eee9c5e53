// The chosen event: the call and its answer, what changed, what it depended on, which events it is related to, and why a move
// didn't fire.
import { chainOf, chainText, firesMadeStale, nearFire, ownRead, ownReads, retryOf, staledBy, tryBefore } from "./chains.js";
import { changeNode } from "./change.js";
import { answerText, button, elementNode, glyph, locationNode, make, moveLink, runName, span, valueNode, writerNodes } from "./nodes.js";
import { act, kindOf, shown } from "./run.js";
import { afterMoves, grouped, keyOf, plural } from "./terms.js";
import { differenceNode, clashNodes, doubtNote, isOther, wrongNote } from "./why.js";

const MOST_ITEMS = 24, MOST_ROWS = 300, MOST_STALED = 12, MOST_PRINTED = 8;

export function eventNode(event) {
  const answer = event.isWrong ? event.right : event.reply;
  const tag = event.kind === "fired" ? `move ${event.move}` : event.kind;
  return make("div", { class: "detail" },
    make("h2", { class: "title" }, glyph(event.kind), `Event ${event.ordinal}`, span(`tag ${event.kind}`, tag),
      make("small", {}, `agent ${event.agent}, ${event.before ? afterMoves(event.before) : "before any move"}`)),
    event.doubt ? doubtNote(event) : null,
    event.isWrong ? wrongNote(event) : null,
    whyNote(event, answer),
    chain(event),
    event.writes ? changes(event) : null,
    event.read ? readings(event) : [grounds(event), instructions(event, answer)]);
}

export const block = (title, ...children) => make("section", { class: "block" }, make("h3", {}, title), ...children);
const printedLeft = count => count > MOST_PRINTED ? make("p", { class: "soft printed" }, `and ${grouped(count - MOST_PRINTED)} more`) : null;
function table(name, heads, rows) {
  const shownRows = rows.slice(0, MOST_ROWS).map((cells, n) => make("tr", { class: n < MOST_PRINTED ? null : "far" }, cells.map((it, i) => make("td", { class: i ? null : "at" }, it))));
  return [
    make("table", { "aria-label": name }, make("thead", {}, make("tr", {}, heads.map(it => make("th", { scope: "col" }, it)))), make("tbody", {}, shownRows)),
    rows.length > MOST_ROWS ? make("p", { class: "soft far" }, `and ${grouped(rows.length - MOST_ROWS)} more`) : null,
    printedLeft(rows.length),
  ];
}
export const eventLink = (event, ...text) => button("link", `Go to event ${event.ordinal}`, () => act.choose(event.number + 1), ...text.length ? text : [`event ${event.ordinal}`]);

// Return a note that says why a move isn't fired, from the right answer.
function whyNote(event, answer) {
  const kind = kindOf(answer);
  if (kind === "full") return note(kind, make("p", {}, make("b", {}, "Full: "), `as many moves were fired as the capacity, ${grouped(shown.run.capacity)}.`));
  if (kind === "stale") return note(kind, ...whyStale(event, shown.run.location(answer.stale)));
  if (kind === "clash") return note(kind, ...whyClash(event, shown.run.location(answer.clash[0]), answer.clash[1]));
  return null;
}
const note = (kind, ...children) => make("div", { class: `note ${kind}` }, ...children);
// Return what the fire declares at that number: a read of the agent's own, or one that the run doesn't have.
function seenNodes(event, named) {
  const read = ownRead(ownReads(event), named);
  return read ? [" was read ", afterMoves(named.number), ", in ", eventLink(read), "."] : [` is named as it was ${afterMoves(named.number)}; the ${runName()} has no read of it by agent ${event.agent}.`];
}
function whyStale(event, location) {
  const named = event.named.filter(it => it.location === location).sort((a, b) => a.number - b.number)[0], write = staledBy(event);
  if (!write) return [make("p", {}, make("b", {}, "Stale at "), locationNode(location), ".")];
  const more = shown.run.writesSince(location, named.number, event).count - 1;
  return [
    make("p", {}, make("b", {}, "Stale: "), locationNode(location), ...seenNodes(event, named), " Since then ", moveLink(write), ` by agent ${write.agent} has written it${more ? `, and ${plural(more, "later move")}` : ""}.`),
    make("p", {}, `What move ${write.move} did: `, changeNode(write, 6)),
  ];
}
function whyClash(event, location, cause) {
  const { run } = shown, old = run.valueAt(location, event.number), instructed = event.fire.filter((_, i) => event.targets[i] === location);
  return [
    make("p", {}, make("b", {}, `Clash, ${cause}: `), "at ", locationNode(location), clashNodes(cause, instructed, old)),
    make("p", {}, "Before the move it held ", valueNode(old, 12), " ", span("whole", "(", writerNodes(run.lastWrite(location, event.number)), ").")),
  ];
}

// Return the tries of a fire, and what its move made stale.
function chain(event) {
  const before = tryBefore(event), next = retryOf(event), later = event.kind === "stale" && !next ? nearFire(event, 1) : null, staled = firesMadeStale(event), left = staled.length - MOST_STALED;
  const outcome = it => it.kind === "fired" ? `fired as move ${it.move}` : answerText(it.reply);
  const tries = chainOf(event);
  const lines = [
    tries ? chainText(tries, event, it => eventLink(it)) : null,
    before ? ["Tries ", eventLink(before), ` again, which was ${answerText(before.reply)}.`] : null,
    next ? ["Tried again in ", eventLink(next), `: ${outcome(next)}.`] : later ? ["Not tried again: the agent's next fire, ", eventLink(later), ", writes elsewhere."] : event.kind === "stale" ? "Not tried again: the agent fires no more." : null,
    staled.length ? [`Made ${plural(staled.length, "fire")} stale: `, staled.slice(0, MOST_STALED).flatMap((it, i) => [i ? ", " : "", eventLink(it), ` of agent ${it.agent}`]), left > 0 ? `, and ${grouped(left)} more` : "", "."] : null,
  ].filter(Boolean);
  return lines.length ? block("Tries and conflicts", lines.map(it => make("p", {}, it))) : null;
}

function changes(event) {
  if (!event.writes.length) return block("What it changed", make("p", { class: "soft" }, event.fire.length ? "Nothing: the move clashes." : "Nothing: the move has no instruction."));
  return block("What it changed", table("What it changed", ["Location", "Old → new"], event.writes.map(it => [locationNode(it.location), changeNode(it, MOST_ITEMS)])));
}

function readings(event) {
  if (!event.read.length) return block("What was read", make("p", { class: "soft" }, "No location."));
  const { run } = shown, value = (answer, i) => valueNode(answer.values[i], MOST_ITEMS);
  const heads = event.isWrong ? ["Location", "In the journal", "Right", "Last written by"] : ["Location", "Value", "Last written by"];
  return block("What was read", table("What was read", heads, event.read.map((location, i) => [
    locationNode(location),
    ...(isOther(event, i) ? [span("recorded", differenceNode(event.reply.values[i], event.right.values[i])), differenceNode(event.right.values[i], event.reply.values[i])]
      : event.isWrong ? [value(event.reply, i), "the same"] : [value(event.reply, i)]),
    writerNodes(run.lastWrite(location, event.number)),
  ])));
}

// Return the value that the step's read returned for the location, if the run has that read.
const readValue = (read, location) => read?.reply.values[read.read.indexOf(location)] ?? null;
const readNode = (read, location) => read && valueNode(readValue(read, location), 8);
// Return whether a read at that number may be before the window, which the page doesn't know.
const mayBeBefore = number => shown.run.from > 0 && number <= shown.run.movesBefore;
// Return what a fire declares, each with its value at the declared number, the agent's own read, and the move that has written it
// since.
function grounds(event) {
  const { run } = shown, reads = ownReads(event);
  if (!event.named.length) return block("What it depends on", make("p", { class: "soft" }, "Nothing: the move names no read."));
  return block("What it depends on", table("What it depends on", ["Location", "As of", "Value read", "Since then"], event.named.map(it => {
    const { location, number } = it, since = run.writesSince(location, number, event), isThere = number <= event.before && run.isKnownAfter(number), read = ownRead(reads, it);
    const isUnput = isThere && !location.isPutIn(run.eventsTo(number));
    return [
      locationNode(location),
      [number && isThere ? button("link", `Go to move ${number}`, () => act.choose(run.eventsTo(number)), `move ${number}`) : number ? `move ${number}, ${number <= event.before ? "before the window" : "which is still to come"}` : "opening state",
        make("div", { class: "faint" }, ...read ? ["read in ", eventLink(read)] : [mayBeBefore(number) ? "not read in the window" : "not read"])],
      (!isUnput || readValue(read, location) ? readNode(read, location) : null) ?? (isUnput ? span("unput", "nothing yet put") : isThere ? valueNode(run.valueAt(location, run.eventsTo(number)), 8) : "unknown"),
      since ? span("since", moveLink(since.first), " wrote it") : run.isKnownAfter(number) ? "not written" : "unknown",
    ];
  })));
}

function instructions(event, answer) {
  const at = answer.clash ? keyOf(answer.clash[0]) : null;
  if (!event.fire.length) return block("Instructions", make("p", { class: "soft" }, "None."));
  const rows = event.fire.slice(0, MOST_ROWS).map(([word, , content, amount], i) => make("li", { class: `${event.targets[i].key === at ? "here" : ""} ${i < MOST_PRINTED ? "" : "far"}` },
    span("verb", word), " ", locationNode(event.targets[i]), " ",
    word === "put" ? valueNode(content, MOST_ITEMS) : span("value", elementNode(content), amount === undefined ? null : span("count", ` ×${amount}`))));
  const left = event.fire.length - rows.length;
  return block("Instructions", make("ol", { class: "instructions" }, rows), left > 0 ? make("p", { class: "soft far" }, `and ${grouped(left)} more`) : null, printedLeft(event.fire.length));
}

export const faultText = event => `${event.isWrong ? ". The answer is wrong" : ""}${event.doubt ? ". It doesn't agree with the trace" : ""}`;
// Return the event in one line, for tooltips of the list and the lanes, and for screen readers.
export function eventText(event) {
  const names = list => list.length ? list.slice(0, 6).map(it => it.label).join(", ") + (list.length > 6 ? ", …" : "") : "nothing";
  const what = {
    read: () => `read ${names(event.read)}`,
    fired: () => `fired move ${event.move}, writing ${names(event.writes.map(it => it.location))}`,
    stale: () => answerText(event.reply),
    clash: () => answerText(event.reply),
    full: () => "found the storage full",
  }[event.kind]();
  return `Event ${event.ordinal}, agent ${event.agent}: ${what}${faultText(event)}`;
}
