// What is fragile: what rests on a single key or certification, what ends soon, and what would make it safe.

import { byId, count, day, fill, make, name } from "./dom.js";
import { tableOf } from "./overview.js";
import { change, standpoint, state } from "./state.js";
import { waitFor } from "./waiting.js";

let days = 180;
let shownFor = "";

/** Shows the form; what was looked for from another standpoint is taken away. */
export function showFragile() {
  if (shownFor !== JSON.stringify(standpoint())) {
    shownFor = "";
    fill(byId("fragile-tables"));
    fill(byId("fragile-state"));
  }
  if (byId("fragile-form").childElementCount) return;
  fill(byId("fragile-form"),
    make("label", { class: "inline" }, "What ends within", make("input", { type: "number", id: "fragile-days",
      class: "amount", min: 1, max: 3650, value: days, oninput: (event) => { days = Number(event.target.value); } }),
    "days"),
    make("button", { type: "button", id: "look", onclick: look }, "Look for what is fragile"));
}

async function look() {
  const asked = standpoint();
  const id = JSON.stringify(asked);
  shownFor = id;
  fill(byId("fragile-tables"));
  try {
    const reply = await waitFor("fragile", { ...asked, days }, byId("fragile-state"),
      () => state.view === "plans" && shownFor === id);
    if (reply !== null) show(reply);
  } catch (failure) {
    fill(byId("fragile-state"));
    fill(byId("fragile-tables"), make("p", { class: "warn", role: "alert" }, `Nothing was found out: `
      + `${failure.message}.`));
  }
}

function show(reply) {
  fill(byId("fragile-state"), `${count(reply.reached, "binding")} ${reply.reached === 1 ? "is" : "are"} `
    + `authenticated, as of ${day(reply.time)}.`);
  fill(byId("fragile-tables"), reply.tables.map((table) => tableOf({ ...table, cells: {
    "safer with": (row, cell) => saferOf(table.safer?.[table.rows.indexOf(row)], cell) } })));
}

/** What would make it safe, and a button that shows this: the carrier is left out, and the certification supposed. */
function saferOf(safer, said) {
  if (!safer) return said ? name(said) : "—";
  const { suppose, without, binding } = safer;
  return make("span", {}, name(said), " ", make("button", { type: "button", class: "small",
    "aria-label": `Suppose it: ${said}`, onclick: () => change({ view: "ask", suppose: [suppose],
      without: without.map((one) => ({ ...one, name: one.key ?? "a certification" })), binding }) }, "Suppose it"));
}
