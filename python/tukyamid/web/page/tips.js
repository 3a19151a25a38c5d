// What a picture shows, explained beside it: a tap, the mouse or the focus shows a tip, with a sentence for each word
// of the web of trust. A picture has no room for buttons, so all of them share one tip.

import { fill, make } from "./dom.js";
import { whenChanged } from "./state.js";
import { MEANINGS, termsIn } from "./terms.js";
import { allWords } from "./words.js";

const LEAVING = 250;  // So that the mouse can move from a picture onto the tip.
const GAP = 6;
const tip = make("div", {
  id: "picture-tip", role: "tooltip", class: "tip", hidden: true, onmouseenter: () => clearTimeout(timer),
  onmouseleave: leave, onfocusout: (event) => { if (!tip.contains(event.relatedTarget)) hide(); } });
let timer = 0;
let about = null;

document.body.append(tip);

/** Has an element of a picture explained: by the lines that `said` returns, and the words in them and in `more`. One
 * that leads nowhere by itself is explained by a tap too, and the Enter key goes on to the tip. */
export function explain(element, said, more = []) {
  const open = () => show(element, said(), more);
  element.addEventListener("mouseenter", open);
  element.addEventListener("mouseleave", leave);
  element.addEventListener("focus", open);
  element.addEventListener("blur", (event) => { if (!tip.contains(event.relatedTarget)) leave(); });
  if (element.tagName !== "a") {
    element.addEventListener("click", open);
    element.addEventListener("keydown", (event) => {
      if (event.key !== "Enter" && event.key !== " ") return;
      event.preventDefault();
      open();
      tip.querySelector("a").focus();
    });
  }
  return element;
}

function show(element, lines, more) {
  clearTimeout(timer);
  about?.removeAttribute("aria-describedby");
  about = element;
  element.setAttribute("aria-describedby", tip.id);
  const terms = [...new Set([...termsIn(...lines), ...more])];
  fill(tip, lines.map((line) => make("p", {}, line)), make("dl", {}, terms.flatMap((term) => [
    make("dt", {}, term), make("dd", {}, MEANINGS[term])])), make("p", {}, allWords()));
  tip.hidden = false;
  place(element.getBoundingClientRect());
}

/** Below what it is about, or above it where there is more room; never out of the window. */
function place(box) {
  const { width, height } = tip.getBoundingClientRect();
  const room = document.documentElement;
  const below = box.bottom + GAP + height <= room.clientHeight || box.top < room.clientHeight - box.bottom;
  const left = Math.max(GAP, Math.min(box.left, room.clientWidth - width - GAP));
  const top = below ? box.bottom + GAP : box.top - GAP - height;
  tip.style.left = `${left + window.scrollX}px`;
  tip.style.top = `${top + window.scrollY}px`;
}

function leave() {
  clearTimeout(timer);
  timer = setTimeout(() => { if (!tip.contains(document.activeElement)) hide(); }, LEAVING);
}

function hide() {
  clearTimeout(timer);
  tip.hidden = true;
  about?.removeAttribute("aria-describedby");
  about = null;
}

document.addEventListener("keydown", (event) => {
  if (event.key !== "Escape" || tip.hidden) return;
  if (tip.contains(document.activeElement)) about?.focus();
  hide();
});
window.addEventListener("popstate", hide);
whenChanged(hide);
