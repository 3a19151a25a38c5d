// A key's times on a line: created, certified, revoked, ends.

import { call } from "./asking.js";
import { count, day, draw, fill, make, name } from "./dom.js";
import { change, state } from "./state.js";

const SIGNS = { begins: "▲", ends: "▼", revoked: "✕" };
const DAY = 86400;
const ROOM = 1000;

export async function showLife(element, asked) {
  fill(element, make("p", { class: "soft" }, "…"));
  try {
    const reply = await call("life", asked);
    if (reply === null) return;
    fill(element, reply.moments.length ? [lineOf(reply.moments), listOf(reply)] : make("p", {}, "Nothing is dated."));
  } catch (failure) {
    fill(element, make("p", { class: "warn" }, `The times couldn’t be loaded: ${failure.message}.`));
  }
}

function lineOf(moments) {
  const times = [...moments.map((one) => one.time), state.time];
  const [first, last] = [Math.min(...times) - 20 * DAY, Math.max(...times) + 20 * DAY];
  const at = (time) => Math.round((ROOM * (time - first)) / (last - first));
  const marks = new Set();
  const svg = draw("svg", {
    viewBox: `0 0 ${ROOM} 40`, class: "life", preserveAspectRatio: "none", "aria-hidden": "true" },
  draw("line", { x1: 0, x2: ROOM, y1: 20, y2: 20, class: "axis" }));
  for (const one of moments) {
    const mark = `${at(one.time)} ${one.sort}`;
    if (marks.has(mark)) continue;
    marks.add(mark);
    const [top, end] = one.sort === "begins" ? [6, 20] : [20, 34];
    svg.append(draw("line", { x1: at(one.time), x2: at(one.time), y1: top, y2: end, class: `mark ${one.sort}` }));
  }
  svg.append(draw("line", { x1: at(state.time), x2: at(state.time), y1: 0, y2: 40, class: "mark now" }));
  return make("div", {}, svg, make("div", { class: "range soft small" }, make("span", {}, day(first)),
    make("span", {}, day(last))));
}

function listOf(reply) {
  return make("details", { open: reply.moments.length <= 8 }, make("summary", {}, count(reply.count, "moment")),
    make("ol", { class: "moments" }, reply.moments.map((one) => make("li", {},
      make("button", { type: "button", class: "link", title: "Look as of this day",
        onclick: () => change({ time: one.time }) }, day(one.time)), " ",
      make("span", { class: one.sort, "aria-hidden": "true" }, SIGNS[one.sort]), " ", name(one.what)))));
}
