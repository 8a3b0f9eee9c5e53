// Playing: one step after another, at a chosen speed.
import { $ } from "./nodes.js";

let playing = 0;
export const isPlaying = () => playing !== 0;
// `step` advances by one event, and returns whether there was one.
export function play(isOn, step = () => false) {
  clearInterval(playing);
  playing = 0;
  if (isOn) playing = setInterval(() => step() || play(false), 1000 / +$("speed").value);
  $("play").setAttribute("aria-label", isOn ? "Pause" : "Play");
  $("play").classList.toggle("playing", isOn);
}
