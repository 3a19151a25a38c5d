// Makes elements. Texts of others come in as text nodes alone, so no name is ever markup.

/** An element with attributes, and with texts and elements inside. Attributes that begin with `on` are listeners. */
export function make(tag, attributes = {}, ...inside) {
  const made = document.createElement(tag);
  set(made, attributes);
  made.append(...inside.flat().filter((one) => one !== null && one !== undefined && one !== false));
  return made;
}

/** An element of SVG. */
export function draw(tag, attributes = {}, ...inside) {
  const made = document.createElementNS("http://www.w3.org/2000/svg", tag);
  set(made, attributes);
  made.append(...inside);
  return made;
}

function set(made, attributes) {
  for (const [name, value] of Object.entries(attributes)) {
    if (name.startsWith("on")) made.addEventListener(name.slice(2), value);
    else if (value === true) made.setAttribute(name, "");
    else if (value !== false && value !== null && value !== undefined) made.setAttribute(name, String(value));
  }
}

/** Puts these in the place of all that an element has. */
export function fill(element, ...inside) {
  element.replaceChildren(...inside.flat().filter((one) => one !== null && one !== undefined && one !== false));
}

/** Puts these in the place of all that an element has, and leaves the focus where it was: on what has the same name
 * now, or else on the section's title. */
export function refill(element, ...inside) {
  const had = element.contains(document.activeElement) ? document.activeElement : null;
  fill(element, ...inside);
  if (!had) return;
  const names = ["id", "aria-label"].filter((one) => had.hasAttribute(one));
  const next = [...element.querySelectorAll("button, input, summary")].find((one) => one.checkVisibility()
    && names.some((word) => one.getAttribute(word) === had.getAttribute(word)));
  (next ?? element.closest("section")?.querySelector("h2"))?.focus();
}

export const byId = (id) => document.getElementById(id);

/** A name of others: it may be written from right to left, and mustn't change the direction of its neighbours. */
export const name = (text) => make("bdi", { class: "name" }, text);

/** A user ID without its address where there is little room. One that is nothing but an address stays as it is. */
export const withoutAddress = (text) => text.replace(/ <[^<>]*>$/, "").trim() || text.trim();

/** A fingerprint, short where there is little room; the whole of it is its title. */
export const short = (fpr) => make("code", { title: fpr }, `${fpr.slice(0, 8)}…${fpr.slice(-8)}`);

export const day = (seconds) =>
  seconds === null || seconds === undefined ? "an unknown time" : new Date(seconds * 1000).toISOString().slice(0, 10);

export const moment = (seconds) => `${new Date(seconds * 1000).toISOString().slice(0, 19).replace("T", " ")} UTC`;

/** Words of the server's with the page's apostrophe. */
export const curly = (text) => text.replaceAll("'", "’");

export const count = (number, noun) => `${number.toLocaleString("en")} ${noun}${number === 1 ? "" : "s"}`;

/** As much of a text as this many characters have room for. */
export const cut = (text, most) => ([...text].length <= most ? text : `${[...text].slice(0, most - 1).join("")}…`);

const measure = document.createElement("canvas").getContext("2d");

/** The width of a text in the page's font at a size and weight. */
export function widthOf(text, size, weight = 400) {
  measure.font = `${weight} ${size}px ${getComputedStyle(document.body).fontFamily}`;
  return measure.measureText(text).width;
}

/** As much of a text as a width has room for. */
export function fitted(text, width, size, weight = 400) {
  const letters = [...cut(text, 200)];
  if (widthOf(letters.join(""), size, weight) <= width) return letters.join("");
  let [fits, most] = [0, letters.length];
  while (fits < most) {
    const middle = Math.ceil((fits + most) / 2);
    if (measure.measureText(`${letters.slice(0, middle).join("")}…`).width <= width) fits = middle;
    else most = middle - 1;
  }
  return `${letters.slice(0, fits).join("")}…`;
}

const WORDS = ["no", "one", "two", "three", "four", "five", "six", "seven", "eight", "nine"];
export const inWords = (number, noun) =>
  number < WORDS.length ? `${WORDS[number]} ${noun}${number === 1 ? "" : "s"}` : count(number, noun);

/** Offers a text as a file. */
export const save = (fileName, type, text) => offer(fileName, new Blob([text], { type }));

/** Offers a blob as a file. */
export function offer(fileName, blob) {
  const address = URL.createObjectURL(blob);
  const link = make("a", { href: address, download: fileName });
  link.click();
  setTimeout(() => URL.revokeObjectURL(address), 10000);
}
