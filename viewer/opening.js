// Opening a trace: by the page itself, by a chosen file, or by a dropped one.
import { Fault } from "./exact.js";
import { $ } from "./nodes.js";
import { play } from "./play.js";
import { act, readRun } from "./run.js";
import { plainText } from "./terms.js";

let opening = 0;
// Read a trace and show its run. Until it is read, and if it is refused, the previous run stays on the page.
export async function openTrace(source, fileName, by = "", ends = [], where = "") {
  const turn = ++opening, name = plainText(fileName);
  play(false);
  $("fault").hidden = true;
  $("busy").hidden = $("busy-here").hidden = false;
  $("busy").value = $("busy-here").value = 0;
  $("hint").textContent = `Reading ${name} …`;
  try {
    const run = await readRun(source, part => {
      $("busy").value = $("busy-here").value = part;
    }, ends);
    if (turn === opening) act.showRun(Object.assign(run, { name, by, where }));
  } catch (fault) {
    if (turn === opening) refuse(fault instanceof Fault ? fault.message : `It could not be read: ${plainText(fault.message)}`, name);
  } finally {
    if (turn === opening) $("busy").hidden = $("busy-here").hidden = true;
  }
}
function refuse(text, name) {
  $("fault").hidden = $("refused").hidden = false;
  $("fault").textContent = text;
  $("refused-reason").textContent = `${name} isn't shown. ${text}`;
  $("hint").textContent = `${name} isn't shown. Drop another file here, or choose one.`;
}
$("refused-close").addEventListener("click", () => {
  $("refused").hidden = true;
});

const openFile = file => file && openTrace(file, file.name);
for (const id of ["open", "open-big"]) $(id).addEventListener("click", () => $("file").click());
$("file").addEventListener("change", () => {
  openFile($("file").files[0]);
  $("file").value = "";
});
addEventListener("dragover", event => {
  event.preventDefault();
  document.body.classList.add("over");
});
addEventListener("dragleave", event => {
  if (!event.relatedTarget) document.body.classList.remove("over");
});
addEventListener("drop", event => {
  event.preventDefault();
  document.body.classList.remove("over");
  openFile(event.dataTransfer.files[0]);
});
