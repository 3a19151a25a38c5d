// Time: a slider with the moments on it at which something begins, ends or is revoked. Moving it asks again.

import { call } from "./asking.js";
import { byId, count, curly, day, draw, fill, make, moment, name } from "./dom.js";
import { change, learn, nameOf, state, subject } from "./state.js";

const DAY = 86400;
const SIGNS = { begins: "▲", ends: "▼", revoked: "✕" };
let moments = [];
let total = 0;
let drawnFor = "";
let compared = null;
let timer = 0;
let begun = null;

/** Draws the slider for the question, once its moments are known. */
export async function showTime() {
  const asked = subject({ without: [], time: state.now });
  const id = JSON.stringify(asked);
  if (id === drawnFor) {
    place();
    return;
  }
  drawnFor = id;
  moments = [];
  total = 0;
  compared = null;
  build();
  try {
    const reply = await call("moments", asked);
    if (reply === null || id !== drawnFor) return;
    moments = reply.moments;
    total = reply.count;
    build();
  } catch (failure) {
    fill(byId("time"), make("p", { class: "warn" }, `The marks couldn’t be loaded: ${failure.message}.`));
  }
}

/** Whether the time that the page began with is the present. */
const isPresent = () => Math.abs(Date.now() / 1000 - state.now) < DAY;

function span() {
  const times = [state.now, state.time, ...moments.map((one) => one.time)];
  const first = Math.max(0, Math.min(...times));
  const last = Math.min(2 ** 32 - 1, Math.max(...times));
  const room = Math.max(30 * DAY, Math.round((last - first) * 0.03));
  return [Math.max(0, first - room), Math.min(2 ** 32 - 1, last + room)];
}

function build() {
  const [first, last] = span();
  const slider = make("input", {
    type: "range", id: "slider", min: first, max: last, value: state.time, "aria-label": "As of",
    step: Math.max(1, Math.min(DAY, Math.floor((last - first) / 20))),
    oninput: (event) => moved(Number(event.target.value)), onchange: () => { begun = null; },
  });
  fill(byId("time"),
    make("p", { class: "as-of" }, "As of ", make("output", { id: "as-of", for: "slider" })),
    make("div", { class: "slider" }, slider, ticks(first, last)),
    make("div", { class: "row" },
      make("button", { type: "button", id: "earlier", "aria-label": "Previous moment", onclick: () => jump(-1) },
        "◀ Previous"),
      make("button", { type: "button", id: "later", "aria-label": "Next moment", onclick: () => jump(1) }, "Next ▶"),
      make("button", { type: "button", id: "now", onclick: () => choose(state.now) },
        isPresent() ? "Now" : `Back to ${day(state.now)}`),
      make("label", { class: "inline" }, "Day ", make("input", {
        type: "date", id: "day", onchange: (event) => picked(event.target.value) }))),
    make("div", { id: "changes", role: "status" }),
    make("details", { id: "moments" }, make("summary", {}, count(total || moments.length, "moment")),
      make("ol", { class: "moments" }, moments.map(momentOf))));
  place();
}

function momentOf(one) {
  const go = make("button", { type: "button", class: "link", onclick: () => choose(one.time) }, day(one.time));
  const sign = make("span", { class: one.sort, "aria-hidden": "true" }, SIGNS[one.sort]);
  return make("li", {}, go, " ", sign, " ", name(one.what));
}

/** The moments as marks below the slider; moments that would lie on one another are one mark. */
function ticks(first, last) {
  const svg = draw("svg", {
    viewBox: "0 0 1000 46", class: "ticks", "aria-hidden": "true", preserveAspectRatio: "none" });
  const at = (time) => (1000 * (time - first)) / (last - first || 1);
  const seen = new Set();
  for (const one of moments) {
    const x = Math.round(at(one.time) / 2) * 2;
    if (seen.has(`${x} ${one.sort}`)) continue;
    seen.add(`${x} ${one.sort}`);
    svg.append(draw("line", { x1: x, x2: x, y1: 2, y2: one.sort === "begins" ? 12 : 18, class: one.sort }));
  }
  svg.append(draw("line", { x1: at(state.now), x2: at(state.now), y1: 0, y2: 22, class: "now" }));
  return make("div", {}, svg, make("div", { class: "years", "aria-hidden": "true" }, years(first, last)));
}

function years(first, last) {
  const scale = window.d3?.time?.scale?.().domain([new Date(first * 1000), new Date(last * 1000)]);
  const found = scale ? scale.ticks(5) : [new Date(first * 1000), new Date(last * 1000)];
  const written = (date) => date.toISOString().slice(0, last - first > 3 * 365 * DAY ? 4 : 7);
  const apart = found.filter((date, at) => !at || written(date) !== written(found[at - 1]));
  return apart.map((date) => {
    const label = make("span", {}, written(date));
    label.style.left = `${(100 * (date / 1000 - first)) / (last - first || 1)}%`;
    return label;
  });
}

function place() {
  const slider = byId("slider");
  if (!slider) return;
  slider.value = state.time;
  slider.setAttribute("aria-valuetext", moment(state.time));
  fill(byId("as-of"), state.time === state.now && isPresent() ? `now, ${day(state.time)}` : moment(state.time));
  byId("day").value = day(state.time);
}

/** While the slider is dragged, what changed is compared with where it came from, and no step is noted. */
function moved(time) {
  const since = (begun ??= state.time);
  clearTimeout(timer);
  fill(byId("as-of"), moment(time));
  timer = setTimeout(() => choose(time, since, false), 90);
}

function choose(time, since = state.time, note = true) {
  if (time === state.time) return;
  change({ time }, note);
  place();
  if (time !== since) compare(since);
}

function picked(text) {
  const time = Date.parse(`${text}T00:00:00Z`) / 1000;
  if (Number.isFinite(time) && time >= 0 && time < 2 ** 32) choose(time);
}

function jump(direction) {
  const times = [...new Set(moments.map((one) => one.time))];
  const next = direction > 0 ? times.find((time) => time > state.time) : times.findLast((time) => time < state.time);
  if (next !== undefined) choose(next);
}

/** Lists what is otherwise than it was where the slider came from. */
async function compare(since) {
  compared = since;
  try {
    const reply = await call("changes", subject({ since }), "changes");
    if (reply === null || compared !== since) return;
    learn(reply.names);
    showChanges(reply);
  } catch (failure) {
    fill(byId("changes"), make("p", { class: "warn" }, `The changes couldn’t be loaded: ${failure.message}.`));
  }
}

function showChanges(reply) {
  const between = moments.filter((one) => one.time > Math.min(reply.since, state.time)
    && one.time <= Math.max(reply.since, state.time));
  const items = [];
  if (reply.word_before !== reply.word_after) {
    items.push(make("li", {}, curly(`Before: ${reply.meaning_before}. After: ${reply.meaning_after}.`)));
  }
  items.push(...reply.items.map((one) => make("li", {}, "The certification by ", name(nameOf(one.issuer ?? "nobody")),
    curly(` before: ${one.before}. After: ${one.after}.`))));
  const left = reply.count - reply.items.length;
  fill(byId("changes"),
    make("h3", {}, `From ${day(reply.since)} to ${day(state.time)}: amount ${reply.before} → ${reply.after}`),
    make("ul", {}, items.length ? items : make("li", {}, "Nothing changed in this answer."),
      left > 0 && make("li", {}, `And ${count(left, "certification")} more.`)),
    between.length > 0 && make("h3", {}, "In between"),
    make("ul", { class: "plain" }, between.slice(0, 30).map(momentOf)));
}
