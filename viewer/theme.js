// Light or dark: the system's choice, until the person chooses.
import { $ } from "./nodes.js";
import { act } from "./run.js";
import { readColors } from "./sight.js";

const system = matchMedia("(prefers-color-scheme: dark)");
let theme = null;
try {
  theme = localStorage.getItem("folugben-theme");
} catch {
  // some browsers store nothing for a file
}
export function paint() {
  document.documentElement.dataset.theme = theme ?? (system.matches ? "dark" : "light");
  readColors();
  act.draw();
}
system.addEventListener("change", paint);
$("theme").addEventListener("click", () => {
  theme = document.documentElement.dataset.theme === "dark" ? "light" : "dark";
  try {
    localStorage.setItem("folugben-theme", theme);
  } catch {
    // as above
  }
  paint();
});
