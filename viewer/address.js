// The page's address, which names what is shown. Each jump adds an entry to the browser's history.
import { filter } from "./filter.js";
import { shown } from "./run.js";
import { conditionText } from "./watch.js";

const STEP_DELAY = 200, TOGETHER = 100; // milliseconds
// Return what the address names, by its keys there.
export function addressed(run) {
  const keys = new URLSearchParams(location.hash.slice(1)), number = name => keys.has(name) ? Number.parseInt(keys.get(name), 10) - run.from : NaN;
  return {
    count: number("event") + 1 || 0, mark: Number.isNaN(number("from")) ? null : number("from") + 1, at: keys.get("at"), condition: keys.get("if") ?? "",
    filter: { kind: keys.get("kind") ?? "all", agent: keys.get("agent") ?? "all", place: keys.get("of"), cause: keys.get("cause"), text: keys.get("find") ?? "" },
  };
}
function addressText() {
  const out = [`event=${shown.run.from + shown.count - 1}`], put = (name, value, usual = "") => value && value !== usual && out.push(`${name}=${encodeURIComponent(value)}`);
  put("at", shown.location?.key);
  if (shown.mark !== null) put("from", String(shown.run.from + shown.mark - 1));
  put("kind", filter.kind, "all");
  put("agent", filter.agent, "all");
  put("of", filter.place);
  put("cause", filter.cause);
  put("find", filter.text);
  put("if", conditionText());
  return `#${out.join("&")}`;
}

let shownAddress = "", due = 0, since = -Infinity;
function write(way) {
  clearTimeout(due);
  due = 0;
  const now = addressText();
  if (now === shownAddress) return;
  shownAddress = now;
  try {
    history[way](null, "", now);
  } catch {
    // some browsers store no address for a file
  }
}
// Call this before a change of what is shown: the present history entry takes the steps since the last jump.
export function beforeChange() {
  if (due) write("replaceState");
}
// Call this after what is shown has changed, by a jump or by a step. Jumps in quick succession count as one.
export function changed(isJump, isNow = false) {
  if (isJump && performance.now() - since > TOGETHER) write("pushState");
  else if (isJump || isNow) write("replaceState");
  else {
    clearTimeout(due);
    due = setTimeout(() => shown.run && write("replaceState"), STEP_DELAY);
  }
  if (isJump) since = performance.now();
}
// If something else changes the address, such as the Back button, follow it.
export function onAddress(follow) {
  addEventListener("hashchange", () => {
    if (!shown.run || location.hash === shownAddress) return;
    clearTimeout(due);
    due = 0;
    shownAddress = location.hash;
    follow(addressed(shown.run));
  });
}
