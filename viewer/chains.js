// How the calls of a run are related: the read that a fire depends on, its tries, and what a move made stale.
import { shown } from "./run.js";
import { firstFrom, grouped } from "./terms.js";

// Return the agent's own reads that the fire declares, keyed by location and number: for each, the last read before the fire.
export function ownReads(event) {
  const { run } = shown, out = new Map(), wanted = new Map();
  for (const { location, number } of event.named ?? []) wanted.set(`${number} ${location.key}`, { location, number });
  const list = run.byAgent[event.agent], left = new Set(wanted.keys());
  for (let i = indexOf(event) - 1; i >= 0 && left.size; i--) {
    const it = run.events[list[i]];
    if (!it.read) continue;
    for (const location of it.read) {
      const key = `${it.reply.number} ${location.key}`;
      if (left.delete(key)) out.set(key, it);
    }
  }
  return out;
}
export const ownRead = (reads, { location, number }) => reads.get(`${number} ${location.key}`) ?? null;

// The index of the event among those of its agent.
const indexOf = event => firstFrom(shown.run.byAgent[event.agent], event.number);
// Return the agent's next fire after this event, or its last one before it.
export function nearFire(event, by) {
  const { run } = shown, list = run.byAgent[event.agent];
  for (let i = indexOf(event) + by; list[i] !== undefined; i += by) if (run.events[list[i]].fire) return run.events[list[i]];
  return null;
}
const answerOf = event => event.right ?? event.reply;
export const isStale = event => event.kind === "stale";
function writesSame(a, b) {
  const keys = new Set(a.targets);
  return keys.size === new Set(b.targets).size && b.targets.every(it => keys.has(it));
}
// Return the fire with which the agent retried a stale one: its next fire, if that writes the same locations.
export function retryOf(event) {
  if (!isStale(event)) return null;
  const next = nearFire(event, 1);
  return next && writesSame(event, next) ? next : null;
}
// Return the stale fire that this one retries.
export function tryBefore(event) {
  const before = event.fire ? nearFire(event, -1) : null;
  return before && isStale(before) && writesSame(before, event) ? before : null;
}

// Return the tries of each fire that was retried, in order, by the number of each of them, and the longest of these chains.
export function chainsOf(run) {
  if (run.chains) return run.chains;
  const of = new Map();
  let longest = null;
  for (const list of run.byAgent) {
    let before = null;
    for (const number of list) {
      const event = run.events[number];
      if (!event.fire) continue;
      if (before && isStale(before) && writesSame(before, event)) {
        const chain = of.get(before.number) ?? [before];
        chain.push(event);
        of.set(before.number, chain).set(number, chain);
        if (!longest || chain.length > longest.length) longest = chain;
      }
      before = event;
    }
  }
  return run.chains = { of, longest };
}
export const chainOf = event => chainsOf(shown.run).of.get(event.number) ?? null;
// Return in words which try of which chain the event is: nodes and texts. `link` makes those that lead to an event.
export function chainText(chain, event, link) {
  const last = chain.at(-1), end = last.kind === "fired" ? ["fired in ", link(last)] : last.kind === "stale" ? ["never fired: last tried in ", link(last)] : ["ended in ", link(last), `, ${last.kind}`];
  return [`Try ${grouped(chain.indexOf(event) + 1)} of ${grouped(chain.length)}: first `, link(chain[0]), ", ", ...end, "."];
}

// Return the write that made a stale fire stale: the first one since the fire's read of the location in the answer.
export function staledBy(event) {
  const at = answerOf(event).stale;
  if (!at) return null;
  const { run } = shown, location = run.location(at), numbers = event.named.filter(it => it.location === location).map(it => it.number);
  return numbers.length ? run.writesSince(location, Math.min(...numbers), event)?.first ?? null : null;
}
// Return the fires that the event's move made stale.
export function firesMadeStale(event) {
  const { run } = shown;
  if (!run.staled) {
    run.staled = new Map();
    for (const it of run.events) {
      const write = answerOf(it).stale ? staledBy(it) : null;
      if (write && run.staled.has(write.event)) run.staled.get(write.event).push(it);
      else if (write) run.staled.set(write.event, [it]);
    }
  }
  return run.staled.get(event.number) ?? [];
}

// Return the locations that a fired move depends on, and into which nothing was put up to the declared number.
export function unputIn(event) {
  if (shown.run.from || event.kind !== "fired" || !event.named.length) return []; // writes before a window are unknown
  const isUnput = ({ location, number }) => !location.isPutIn(shown.run.eventsTo(Math.min(number, event.before)));
  return [...new Set(event.named.filter(isUnput).map(it => it.location))];
}
