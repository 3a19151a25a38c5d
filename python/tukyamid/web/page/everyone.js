// What is otherwise on the page that `tukyamid web --public` serves to everyone: it is asked by addresses that caches
// know, nothing is added, and the operator has named whose roots one may look from.

import { byId, fill, make } from "./dom.js";
import { change, isPublic, setOf, state } from "./state.js";

/** Whose the roots are. */
export const your = isPublic ? "the" : "your";

const OWN = "";

/** Where a question is asked for. */
export const addressOfCall = (what, asked) =>
  (what === "begin" ? "call/begin" : `call/${what}?${new URLSearchParams({ q: JSON.stringify(asked) })}`);

/** From where one looks: a choice among the named sets, and roots of one's own. */
export function choiceOfSets() {
  if (!state.sets.length) return [];
  const chosen = setOf(state.roots)?.name ?? OWN;
  const options = [...state.sets.map((set) => [set.name, set.name]), [OWN, "roots of your own"]];
  const onchange = (event) => choose(event.target);
  const select = make("select", { id: "set", "aria-label": "From whose roots", onchange },
    options.map(([name, text]) => make("option", { value: name, selected: name === chosen }, text)));
  return [select, ": "];
}

function choose(select) {
  const set = state.sets.find((one) => one.name === select.value);
  change(set ? { roots: set.roots } : { roots: [], view: "start" });
  byId("set").focus();
}

/** Says so if the address names a set that isn't here. */
export function noteUnknownSet() {
  const name = new URLSearchParams(location.hash.split("?")[1] ?? "").get("set");
  if (!isPublic || name === null || state.sets.some((one) => one.name === name)) return;
  fill(byId("notes"), ...byId("notes").childNodes, make("p", { class: "note", role: "status" },
    `There is no set of roots “${name}” here. This is seen from ${setOf(state.roots)?.name ?? "no roots"}.`));
}
