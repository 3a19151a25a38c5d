// The overview: tables with charts, and as CSV and JSON.

import { call } from "./asking.js";
import { byId, count, day, fill, make, name, save, short } from "./dom.js";
import { keyLink } from "./links.js";
import { addressOf, addressOfKey, standpoint, state } from "./state.js";

const PAUSE = 100;
const SHOWN = 50;
let shownFor = "";
let latest = null;

export async function showOverview() {
  const asked = standpoint();
  const id = JSON.stringify(asked);
  if (id === shownFor && byId("tables").dataset.done) return;
  if (id !== shownFor) fill(byId("tables"));
  shownFor = id;
  delete byId("tables").dataset.done;
  while (state.view === "overview" && id === shownFor) {
    try {
      const reply = await call("overview", asked);
      if (reply === null) return;
      if (reply.tables?.length) show(reply);
      if (reply.tables && !reply.progress) return;
      showProgress(reply.progress);
    } catch (failure) {
      fill(byId("overview-state"));
      fill(byId("tables"), make("p", { class: "warn", role: "alert" }, `No overview was made: ${failure.message}.`));
      return;
    }
    await new Promise((done) => setTimeout(done, PAUSE));
  }
}

function showProgress(text) {
  fill(byId("overview-state"), make("span", { class: "wheel", "aria-hidden": "true" }), " ", `${text}…`);
}

function show(reply) {
  const box = byId("tables");
  latest = reply;
  if (!byId("all-tables")) fill(box, ...aboutOf(reply), make("div", { id: "all-tables" }));
  let place = byId("all-tables").firstElementChild;
  for (const table of reply.tables) {
    if (place?.dataset.name !== table.name) {
      byId("all-tables").insertBefore(tableOf(table), place);
    } else {
      if (place.dataset.rows !== String(table.count)) {  // It has grown meanwhile.
        place.replaceWith(tableOf(table));
        place = byId(`table-${table.name}`).closest("section");
      }
      place = place.nextElementSibling;
    }
  }
  if (reply.progress) return;
  box.dataset.done = "yes";
  fill(byId("overview-state"));
}

/** What the overview is about, and what can be done with all of it. */
function aboutOf(reply) {
  return [
    make("p", {}, `${count(reply.keys, "key")}, as of ${day(reply.time)}, from `,
      state.roots.length ? "" : "no root",
      state.roots.flatMap((root, place) => [place ? ", " : "", name(state.names.get(root.fingerprint)
        || root.fingerprint), ` (${root.amount})`]), "."),
    make("div", { class: "row" },
      make("button", { type: "button", id: "json", onclick: () => save("overview.json", "application/json",
        `${JSON.stringify(latest, null, 1)}\n`) }, "All as JSON"),
      make("button", { type: "button", onclick: again }, "Refresh"),
      make("a", { href: addressOf({ view: "plans" }), id: "to-fragile" }, "What is fragile"))];
}

function again() {
  shownFor = "";
  showOverview();
}

/** A table. Its `cells` make the cells of some columns, by the column's name. */
export function tableOf(table) {
  const title = `table-${table.name}`;
  const rest = table.count - table.rows.length;
  return make("section", {
    class: "card", "aria-labelledby": title, "data-name": table.name, "data-rows": table.count },
    make("h2", { id: title }, table.title), make("p", { class: "soft" }, table.about),
    chartOf(table),
    table.rows.length ? rowsOf(table, title) : make("p", {}, "None."),
    rest > 0 && make("p", { class: "soft" }, `And ${count(rest, "row")} more, which aren’t listed.`),
    table.rows.length > 0 && make("button", {
      type: "button", class: "small", "aria-label": `${table.title} as CSV`,
      onclick: () => save(`${table.name}.csv`, "text/csv", asCsv(table)) }, "CSV"));
}

/** The rows, some at a time. On narrow screens each is a card, so the roles are said: the style sheet hides them. */
function rowsOf(table, title) {
  const body = make("tbody", { role: "rowgroup" });
  const more = make("button", { type: "button", class: "small more", onclick: () => show(body.childElementCount) });
  const show = (from) => {
    body.append(...table.rows.slice(from, from + SHOWN).map((row) => make("tr", { role: "row" },
      row.map((cell, at) => cellOf(table, row, at, cell)))));
    const left = table.rows.length - body.childElementCount;
    if (!left) more.remove();
    fill(more, `Show more (${count(left, "row")} left)`);
  };
  const heads = table.columns.map((one, at) => make("th", { scope: "col", role: "columnheader",
    class: table.rows.every((row) => typeof row[at] === "number") && "number" }, one));
  const box = make("div", {},
    make("div", { class: "scroll", tabindex: "0", role: "region", "aria-labelledby": title },
      make("table", { role: "table" }, make("thead", { role: "rowgroup" }, make("tr", { role: "row" }, heads)), body)),
    more);
  show(0);
  return box;
}

/** A cell. The key, and the name that is its, lead to the key's place. */
function cellOf(table, row, at, cell) {
  const about = { role: "cell", "data-label": table.columns[at] };
  const made = table.cells?.[table.columns[at]];
  if (made) return make("td", about, made(row, cell));
  if (typeof cell === "number") return make("td", { ...about, class: "number" }, cell.toLocaleString("en"));
  const key = row[table.columns.indexOf("key")];
  if (table.columns[at] === "key") return make("td", about, make("a", { href: addressOfKey(cell) }, short(cell)));
  if (key && cell && table.columns[at].endsWith("user ID")) return make("td", about, keyLink(key, cell));
  return make("td", about, name(cell));
}

/** Bars for the first numbers of a table; the table says the same. */
function chartOf(table) {
  const column = { bindings: 2, introducers: 3, hashes: 1, islands: 0 }[table.name];
  const rows = table.rows.slice(0, 8).filter((row) => row[column] > 0);
  if (column === undefined || !rows.length) return null;
  const most = Math.max(...rows.map((row) => row[column]));
  const scale = window.d3?.scale?.linear?.().domain([0, most]).range([0, 100]) ?? ((value) => (100 * value) / most);
  return make("div", { class: "chart", "aria-hidden": "true" }, rows.map((row) => {
    const bar = make("span", { class: `level ${table.name === "bindings" ? row[0] : ""}` });
    bar.style.width = `${scale(row[column])}%`;
    const label = table.name === "islands" ? row[1] : row[0];
    return make("div", { class: "bar-row" }, make("span", { class: "bar-name" }, name(label)),
      make("span", { class: "bar-room" }, bar), make("span", { class: "bar-value" }, row[column].toLocaleString("en")));
  }));
}

/** A table for spreadsheets. They run what begins like a formula, and names are of others' making: such a cell gets an
 * apostrophe before it. */
export function asCsv(table) {
  const field = (cell) => {
    const text = typeof cell === "string" && /^[=+\-@\t\r]/.test(cell) ? `'${cell}` : String(cell);
    return `"${text.replaceAll('"', '""')}"`;
  };
  return [table.columns, ...table.rows].map((row) => row.map(field).join(",")).join("\r\n") + "\r\n";
}
