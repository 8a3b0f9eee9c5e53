// Which events are listed: by kind, agent, location, cause and words.
import { unputIn } from "./chains.js";
import { answerText } from "./nodes.js";
import { isBad, shown } from "./run.js";
import { elementText, firstFrom, keyOf, valueText, withoutIsolates } from "./terms.js";

// `unput` are the fired moves that depend on a location into which nothing was put yet.
export const LABELS = { all: "All events", fired: "Moves", read: "Reads", stale: "Stale fires", clash: "Clashes", full: "Full", wrong: "Wrong answers", doubt: "Events that don't agree with the trace", unput: "Moves that depend on what was not yet put" };
const NONE = { kind: "all", agent: "all", place: null, cause: null, text: "" };
export const filter = { ...NONE };
let listed = null, mask = null, version = 0; // the numbers of the listed events, and for each event whether it is listed; null if all are
let texts = null, textsOf = null; // the searched text of each event, and the location that it is for
const CAUSE = /^(Two|Mixed|Kind|Both|Against|Short|Large)$/;

// A search term. Each must occur: a number as a whole one, a quoted text as a phrase, and `agent 3`, `event 3` and `move 3` as
// properties of the event.
const TERM = /"([^"]*)"?|(agent|event|move)\s+(\d+)(?!\S)|(\S+)/g;
const MARKS = /[.*+?^${}()|[\]\\]/g;
const wholly = text => new RegExp(`(?<![\\p{L}\\p{N}_${/^-?\d/.test(text) ? "-" : ""}])${text.replace(MARKS, "\\$&")}(?![\\p{L}\\p{N}_])`, "u");
export function termsOf(text, isOfEvents = false) {
  const out = [];
  for (const [all, phrase, name, number, word] of withoutIsolates(text).toLowerCase().matchAll(TERM)) {
    if (name && isOfEvents) out.push({ name, number: +number });
    else if (name) out.push({ word: name }, { pattern: wholly(number) });
    else if (phrase !== undefined) out.push(phrase ? { pattern: wholly(phrase) } : { word: all });
    else out.push(/^-?\d+$/.test(word) ? { pattern: wholly(word) } : { word });
  }
  return out;
}
const OF_EVENT = { agent: it => it.agent, event: it => it.ordinal, move: it => it.move };
const isMet = (term, text, event) => term.name ? OF_EVENT[term.name](event) === term.number : term.pattern ? term.pattern.test(text) : text.includes(term.word);
export const hasAll = (text, terms, event = null) => terms.every(it => isMet(it, text, event));
export const isFiltered = () => listed !== null;
export const listLength = () => listed ? listed.length : shown.run.events.length;
export const listItem = i => listed ? listed[i] : i;
// The index in the list of the event, or of the next one that is listed.
export const listIndex = number => listed ? firstFrom(listed, number) : number;
export const isListed = number => number >= 0 && (!mask || mask[number] === 1);
export const listVersion = () => version;
// Return the nearest listed event in an ascending list after this one, or before it; null if there is none.
export function nextOf(list, number, by) {
  for (let i = by > 0 ? firstFrom(list, number + 1) : firstFrom(list, number) - 1; list[i] !== undefined; i += by) if (isListed(list[i])) return list[i];
  return null;
}
export const nextListed = (number, by) => by > 0 ? listItem(listIndex(number + 1)) ?? null : listItem(listIndex(number) - 1) ?? null;

// Filter the list as `asked` says, and by nothing else. What makes no sense in the run is left out.
export function setFilter(asked) {
  const { run } = shown, merged = { ...NONE, ...asked };
  filter.kind = Object.hasOwn(LABELS, merged.kind) ? merged.kind : "all";
  filter.agent = /^\d+$/.test(merged.agent) && +merged.agent < run.agents ? String(+merged.agent) : "all";
  filter.place = merged.place && run.locations.has(merged.place) ? merged.place : null;
  filter.cause = CAUSE.test(merged.cause ?? "") ? merged.cause : null;
  filter.text = merged.text ?? "";
  listEvents();
}
// Forget the texts of the previous run.
export function forgetTexts() {
  texts = textsOf = null;
}
// Return the events of a kind in ascending order, or null for all.
export function ofKind(kind) {
  const { run } = shown;
  if (kind === "all") return null;
  if (kind === "wrong") return run.wrong;
  if (kind === "doubt") return run.doubted;
  if (kind === "bad") return run.bad ??= run.events.filter(isBad).map(it => it.number);
  if (kind === "unput") return run.unput ??= run.byKind.fired.filter(it => unputIn(run.events[it]).length);
  return run.byKind[kind];
}
function listEvents() {
  const { run } = shown, { kind, agent, cause } = filter, terms = termsOf(filter.text, true), place = run.locations.get(filter.place);
  let list = ofKind(kind);
  const keep = test => {
    list = list ? list.filter(it => test(run.events[it])) : run.events.filter(test).map(it => it.number);
  };
  if (agent !== "all") list = list ? list.filter(it => run.events[it].agent === +agent) : run.byAgent[+agent];
  if (cause) keep(it => (it.right ?? it.reply).clash?.[1] === cause);
  if (place) keep(it => isAbout(it, place));
  if (terms.length) {
    if (!texts || textsOf !== place) [texts, textsOf] = [new Array(run.events.length), place];
    keep(it => hasAll(texts[it.number] ??= searchText(it, place), terms, it));
  }
  listed = list;
  version++;
  mask = list && new Uint8Array(run.events.length);
  for (const it of list ?? []) mask[it] = 1;
}
// Return whether the event is about the location. If its kind names a location, only that one counts.
function isAbout(event, place) {
  const answer = event.right ?? event.reply;
  if (filter.kind === "stale" || filter.kind === "clash") return keyOf(answer.stale ?? answer.clash?.[0] ?? null) === place.key;
  return filter.kind === "unput" ? unputIn(event).includes(place) : shown.run.howTouched(event, place) !== null;
}
// Return the call, the answer and the changes in lower case; for one location, only its values.
function searchText(event, place) {
  const parts = place ? [] : [event.kind, `agent ${event.agent}`], isOf = it => !place || it === place;
  const add = (location, ...values) => isOf(location) && parts.push(...place ? [] : [location.label], ...values);
  if (!place && event.move) parts.push("move");
  if (!place && event.isWrong) parts.push("wrong");
  if (!place && event.doubt) parts.push("doubtful");
  if (!place && (event.reply.clash || event.reply.stale)) parts.push(answerText(event.reply));
  for (const it of event.named ?? []) add(it.location);
  event.read?.forEach((it, i) => add(it, valueText(event.reply.values[i])));
  event.fire?.forEach((it, i) => add(event.targets[i], it[0], it[0] === "put" ? valueText(it[2]) : elementText(it[2])));
  for (const it of event.writes ?? []) if (!it.items && isOf(it.location)) parts.push(valueText(it.value));
  return withoutIsolates(parts.join(" ")).toLowerCase();
}
