// The words of the web of trust, explained where they occur: a tap, the mouse or the focus shows a sentence.

import { byId, curly, fill, make } from "./dom.js";
import { addressOf } from "./state.js";
import { MEANINGS, parts } from "./terms.js";

let shown = null;

/** A word with its sentence, which is shown beside it on demand. */
export function word(term, text = term) {
  const tip = make("span", { role: "tooltip", class: "tip", hidden: true }, MEANINGS[term], " ", allWords());
  const button = make("button", {
    type: "button", class: "word", "aria-expanded": "false", "aria-label": `${text}: what is that?`,
    onclick: () => show(box), onfocus: () => show(box) }, text);
  const box = make("span", {
    class: "word-box", onmouseenter: () => show(box), onmouseleave: () => hide(box),
    onfocusout: (event) => { if (!box.contains(event.relatedTarget)) hide(box); } }, button, tip);
  return box;
}

/** A text without names as nodes, in which each term is explained at its first occurrence. */
export const explained = (text) => parts(curly(text)).filter((part) => part.text).map((part) =>
  (part.term ? word(part.term, part.text) : part.text));

/** Where all words are. */
export const allWords = () => make("a", { href: addressOf({ view: "words" }) }, "All words");

function show(box) {
  if (shown && shown !== box) hide(shown);
  shown = box;
  box.lastElementChild.hidden = false;
  box.firstElementChild.setAttribute("aria-expanded", "true");
  const over = box.lastElementChild.getBoundingClientRect().right - document.documentElement.clientWidth + 8;
  box.lastElementChild.style.left = over > 0 ? `${-over}px` : "0";
}

function hide(box) {
  if (box.contains(document.activeElement) && box.matches(":hover")) return;
  box.lastElementChild.hidden = true;
  box.lastElementChild.style.left = "0";
  box.firstElementChild.setAttribute("aria-expanded", "false");
}

document.addEventListener("keydown", (event) => {
  if (event.key !== "Escape" || !shown) return;
  shown.lastElementChild.hidden = true;
  shown.firstElementChild.setAttribute("aria-expanded", "false");
});

/** All words, with their sentences. */
export function showWords() {
  fill(byId("glossary"), Object.keys(MEANINGS).sort().flatMap((term) => [
    make("dt", {}, term), make("dd", {}, MEANINGS[term])]));
}
