// The plan of a meeting: who comes, who should certify whom, and the sheets to print.

import { byId, count, fill, make, name, save } from "./dom.js";
import { keyLink } from "./links.js";
import { attachSearch } from "./search.js";
import { addressOf, learn, nameOf, standpoint, state } from "./state.js";
import { waitFor } from "./waiting.js";

let asking = 0;

/** Shows the form once; what was typed into it stays. */
export function showMeeting() {
  if (byId("meeting-form").childElementCount) return;
  const who = make("textarea", { id: "comers", rows: 6, spellcheck: "false", "aria-describedby": "comers-how" });
  const search = make("input", { type: "search", id: "comer", role: "combobox", "aria-expanded": "false",
    "aria-controls": "comer-found", "aria-autocomplete": "list", autocomplete: "off",
    placeholder: "Add somebody: name or fingerprint", "aria-label": "Add somebody who comes" });
  const list = make("ul", { id: "comer-found", role: "listbox", "aria-label": "Keys found", hidden: true });
  const said = make("p", { class: "soft", role: "status" });
  attachSearch(search, list, said, (one) => {
    search.value = "";
    fill(said, `${one.user_id} comes.`);
    who.value = `${who.value.trimEnd()}\n${one.fingerprint}  # ${one.user_id}\n`.trimStart();
  });
  const depth = make("input", { type: "number", id: "meeting-depth", class: "amount", min: 0, max: 255, value: 0 });
  fill(byId("meeting-form"),
    make("label", { class: "block", for: "comers" }, "Who comes"),
    make("p", { id: "comers-how", class: "soft" }, "A fingerprint on each line; what follows # is a remark."),
    who, make("div", { class: "combo" }, search, list, said),
    make("div", { class: "row" }, make("label", { class: "inline" }, "Depth of what they certify", depth),
      make("button", { type: "button", id: "meet", onclick: () => meet(who, depth) }, "Plan the meeting")));
}

/** The fingerprints of a text: one on each line, in any of the ways in which people write them. */
export const fingerprintsOf = (text) => text.split("\n").map((line) => line.split("#")[0].trim()).filter(Boolean)
  .map((line) => (/^(0x)?[\s0-9a-f]+$/i.test(line) ? line.replace(/^0x|\s/gi, "") : line.split(/\s/)[0]).toLowerCase());

async function meet(who, depth) {
  const round = (asking += 1);
  fill(byId("meeting"));
  try {
    const reply = await waitFor("meeting", { ...standpoint(), who: fingerprintsOf(who.value),
      depth: Number(depth.value) }, byId("meeting-state"), () => state.view === "plans" && round === asking);
    if (reply !== null) show(reply);
  } catch (failure) {
    fill(byId("meeting-state"));
    fill(byId("meeting"), make("p", { class: "warn", role: "alert" }, `There is no plan: ${failure.message}.`));
  }
}

function show(reply) {
  learn(reply.names);
  fill(byId("meeting-state"), `${count(reply.steps.length, "certification")}: ${reply.before} `
    + `of the user IDs that count are authenticated now, ${reply.after} then.`);
  fill(byId("meeting"), reply.note && make("p", { class: "soft" }, reply.note),
    reply.missing.map((fpr) => make("p", { class: "note" }, `This key isn’t in the keyring: ${fpr}`)),
    reply.steps.length > 0 && make("button", { type: "button", id: "sheets",
      onclick: () => save("meeting.html", "text/html", reply.sheet) }, "Sheets to print"),
    reply.comers.map((fpr) => personOf(reply, fpr)));
}

/** What one person does: whom they certify, after comparing the fingerprints. */
function personOf(reply, fpr) {
  const own = reply.steps.map((step, at) => [at + 1, step]).filter(([, step]) => step.issuer === fpr);
  if (!own.length) return null;
  const id = `person-${fpr}`;
  return make("section", { "aria-labelledby": id, class: "person" },
    make("h3", { id }, name(nameOf(fpr)), " certifies, after comparing"),
    make("ol", {}, own.map(([number, step]) => make("li", { value: number }, keyLink(step.target), make("br"),
      make("code", {}, grouped(step.target)), make("br"),
      make("span", { class: "soft" }, `${count(step.gain, "user ID")} more, ${step.total} in all`), " ",
      make("a", { class: "suppose", href: supposed(step), "aria-label": `Suppose it: ${step.said}` }, "Suppose it")))));
}

/** The answer for the certified key, with the step supposed. */
function supposed(step) {
  const certifications = step.user_ids.map((spelled) => ({ kind: "certifies", issuer: step.issuer,
    target: step.target, user_id_spelled: spelled, depth: step.depth, amount: step.amount, scopes: [] }));
  return addressOf({ view: "ask", binding: { fingerprint: step.target, spelled: step.user_ids[0], user_id: "" },
    without: [], suppose: certifications });
}

/** A fingerprint as people compare it. */
const grouped = (fpr) => fpr.toUpperCase().match(/.{1,4}/g).join(" ");
