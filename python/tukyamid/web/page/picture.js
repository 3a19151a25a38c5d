// The paths drawn from the roots down to the target: a row for each distance from it, a line for each certification.

import { HEIGHT, layOut } from "./layout.js";
import { cut, day, draw, fill, fitted, widthOf, withoutAddress } from "./dom.js";
import { fold } from "./folding.js";
import { scopeText } from "./scopes.js";
import { addressOfKey, nameOf, state } from "./state.js";
import { explain } from "./tips.js";
import { frame } from "./zoom.js";

const LINE = 15;
const MOST_CHARACTERS = 30;

/** Draws the paths; equal steps of many are folded unless `all` of them are wanted. */
export function showPicture(element, reply, all = false) {
  element.hidden = !reply.paths.length;
  fill(element);
  if (!reply.paths.length) return;
  const { paths, folds } = all ? { paths: reply.paths, folds: new Map() } : fold(reply.paths);
  const unfold = () => { showPicture(element, reply, true); element.querySelector(".area").focus(); };
  const room = element.getBoundingClientRect().width;
  const { area, fit } = frame(element, drawn(reply, paths, folds, unfold, room), "The paths, drawn", "paths");
  if (area.scrollWidth > 2 * area.clientWidth) fit();
  area.scrollLeft = (area.scrollWidth - area.clientWidth) / 2;  // The target is in the middle.
}

/** Lights up the certifications of a path, or none. */
export function light(place) {
  for (const edge of document.querySelectorAll("#picture .edge")) {
    edge.classList.toggle("lit", edge.dataset.paths.split(" ").includes(String(place)));
  }
}

function drawn(reply, shown, folds, unfold, room) {
  const network = layOut(shown, room);
  const paths = reply.paths.length === 1 ? "One path" : `${reply.paths.length} paths`;
  const svg = draw("svg", {
    viewBox: `0 0 ${network.width} ${network.height}`, width: network.width, height: network.height, role: "group",
    "aria-label": `${paths}, drawn. The list of the paths says the same.`, class: "network",
  });
  svg.append(draw("defs", {}, draw("marker", {
    id: "tip", viewBox: "0 0 8 8", refX: 7, refY: 4, markerWidth: 7, markerHeight: 7, orient: "auto",
  }, draw("path", { d: "M0 0 8 4 0 8z", class: "tip" }))));
  svg.append(...network.edges.map(lineOf), ...network.keys.map((key) => (folds.has(key.fpr)
    ? foldOf(key, folds.get(key.fpr), network.box, unfold) : boxOf(key, reply, network))));
  svg.append(...network.edges.map(labelOf));
  return svg;
}

function lineOf(edge) {
  const ways = edge.points.slice(1).map(([x1, y1], at) => {
    const [x0, y0] = edge.points[at];
    return `C${x0} ${(y0 + y1) / 2} ${x1} ${(y0 + y1) / 2} ${x1} ${y1}`;
  });
  return draw("g", { class: `edge${edge.step.supposed ? " supposed" : ""}`, "data-paths": edge.paths.join(" ") },
    draw("title", {}, `${nameOf(edge.step.issuer)} certified ${edge.step.user_id}`),
    draw("path", { d: `M${edge.points[0].join(" ")}${ways.join("")}`, "marker-end": "url(#tip)" }));
}

/** What the certification says, beside its line. A tip says it in sentences, with the words explained. */
function labelOf(edge) {
  const { step, amounts } = edge;
  const whole = amounts.reduce((sum, one) => sum + one, 0);
  if (step.folded) {
    return explain(labelAt(edge.label, [`${amounts.length} certifications`, `together ${whole}`]), () => [
      `${amounts.length} arrows in one: certifications of many keys, on whose paths the amount is ${whole} together.`]);
  }
  const said = [`amount ${amounts.join(" + ")} of ${step.amount}`, `depth ${step.depth}, made ${day(step.made)}`];
  if (step.ends !== null) said.push(`ends ${day(step.ends)}`);
  if (step.scopes.length) said.push(cut(`for ${scopeText(step)}`, MOST_CHARACTERS));
  return explain(labelAt(edge.label, said), () => sentencesOf(step, whole), step.scopes.length ? ["scope"] : []);
}

/** What an arrow says, in sentences. */
function sentencesOf(step, used) {
  const [issuer, target] = [step.issuer, step.target].map(nameOf);
  const lines = [`The arrow is a certification: ${issuer} vouches for ${step.user_id}.`,
    used < step.amount ? `Its amount is ${step.amount}. These paths use ${used} of it.`
      : `Its amount is ${step.amount}, and all of it is used.`];
  const whom = step.scopes.length ? scopeText(step) : "everyone";
  lines.push(step.depth === 0 ? "Its depth is 0: it vouches for this name alone."
    : `Its depth is ${step.depth}: it makes ${target} an introducer for ${whom}.`);
  return lines;
}

function labelAt([x, y], said) {
  const top = y - ((said.length - 1) * LINE) / 2 + 4;
  const width = Math.max(...said.map((text, at) => widthOf(text, at ? 11.5 : 13)));
  return draw("g", { class: "label", role: "button", tabindex: "0", "aria-label": said.join(", ") },
  draw("rect", { x: x - width / 2, y: top - LINE + 3, width, height: said.length * LINE }),
  ...said.map((text, at) => draw("text", {
    x, y: top + at * LINE, "text-anchor": "middle", class: at ? "small" : "main" }, text)));
}

/** Keys that are drawn as one, until one asks for each. */
function foldOf(key, keys, width, unfold) {
  const box = draw("g", {
    class: "key fold", role: "button", tabindex: "0", "aria-label": `${keys.length} keys side by side: show each`,
    transform: `translate(${key.x - width / 2} ${key.y})`, onclick: unfold,
    onkeydown: (event) => { if (event.key === "Enter" || event.key === " ") { event.preventDefault(); unfold(); } } },
  draw("rect", { width, height: HEIGHT, rx: 10 }),
  draw("text", { x: width / 2, y: 24, class: "main", "text-anchor": "middle" }, `${keys.length} keys`),
  draw("text", { x: width / 2, y: 43, class: "small", "text-anchor": "middle" }, "▸ show each"));
  return box;
}

function boxOf(key, reply, { target, box: width }) {
  const root = state.roots.find((one) => one.fingerprint === key.fpr);
  const sort = key.fpr === target ? (reply.reached ? "target yes" : "target part") : root ? "root" : "";
  const digits = width < 160 ? 6 : 8;
  const below = root ? `root, amount ${root.amount}` : `${key.fpr.slice(0, digits)}…${key.fpr.slice(-digits)}`;
  return draw("a", {
    href: addressOfKey(key.fpr), class: `key ${sort}`, "aria-label": `${nameOf(key.fpr)}, ${below}`,
    transform: `translate(${key.x - width / 2} ${key.y})` },
    draw("title", {}, `${nameOf(key.fpr)} ${key.fpr}`),
    draw("rect", { width, height: HEIGHT, rx: 10 }),
    draw("text", { x: width / 2, y: 24, class: "main", "text-anchor": "middle" },
      fitted(withoutAddress(nameOf(key.fpr)), width - 16, 13, 650)),
    draw("text", { x: width / 2, y: 43, class: "small", "text-anchor": "middle" }, cut(below, 28)));
}
