// Copying: a link to what is shown, a value, a state.
import { $ } from "./nodes.js";
import { act, shown } from "./run.js";
import { keyOf } from "./terms.js";

async function copy(what, text) {
  act.speak(await written(text) ? `Copied: ${what}` : "This browser lets nothing be copied here");
}
async function written(text) {
  try {
    await navigator.clipboard.writeText(text);
    return true;
  } catch {
    return writtenOld(text); // a page in a file may have no clipboard of its own
  }
}
function writtenOld(text) {
  const { activeElement } = document, field = document.createElement("textarea");
  field.value = text;
  document.body.append(field);
  field.select();
  const isCopied = document.execCommand("copy");
  field.remove();
  activeElement?.focus();
  return isCopied;
}

// Return the address of what is shown now.
function linkTo() {
  act.changed(false, true);
  return location.href;
}
// The value of the chosen location, as scripts and journals write it.
const valueOf = place => keyOf(shown.run.valueAt(place, shown.count));
// Return the state as the `init` of a script: its pairs in ascending order, one per line.
function initOf() {
  const { run, count } = shown, pairs = run.sorted.map(it => [it.at, run.valueAt(it, count)]).filter(it => it[1] !== null);
  return `[${pairs.map(it => `\n  ${keyOf(it)}`).join(",")}${pairs.length ? "\n" : ""}]`;
}
$("link").addEventListener("click", () => copy("a link to what is shown", linkTo()));
$("writes-copy").addEventListener("click", () => shown.location && copy(`the value of ${shown.location.label}`, valueOf(shown.location)));
$("state-copy").addEventListener("click", () => copy("the state, as the init of a script", initOf()));
