// How to begin: an empty keyring gets one, and without a root one is chosen.

import { call } from "./asking.js";
import { byId, count, fill, make, name, short } from "./dom.js";
import { attachSearch } from "./search.js";
import { change, isPublic, learn, state } from "./state.js";
import { word } from "./words.js";

let held = null;
let again = () => {};

/** What the service holds, and what is called once that has changed. */
export function whatIsHeld(certificates, changed) {
  held = certificates;
  again = changed;
}

/** The steps that are left to take. */
export function beginning() {
  if (held === null || (held > 0 && state.roots.length)) return [];
  const box = make("section", { class: "card", "aria-labelledby": "begin-title" },
    make("h2", { id: "begin-title", tabindex: "-1" }, held ? "One step before you can look" : "Two steps to begin"),
    make("div", { id: "begin-steps" }, make("p", { class: "soft" }, "…")),
    make("p", { id: "begin-state", role: "status" }));
  offer();
  return [box];
}

async function offer() {
  const found = await (isPublic ? { roots: [], may_add: false }
    : call("offered", { time: state.time }).catch((failure) => ({ failure })));
  const steps = byId("begin-steps");
  if (found === null || !steps) return;
  if (found.failure) {
    fill(steps, make("p", { class: "warn" }, `${found.failure.message}.`));
    return;
  }
  learn(Object.fromEntries(found.roots.map((one) => [one.fingerprint, one.name])));
  fill(steps, held ? [] : keyringStep(found), rootStep(found));
}

function keyringStep(found) {
  if (!found.may_add) {
    return make("p", {}, isPublic ? "This keyring is empty so far."
      : "The keyring that you named is empty. Start again with another one.");
  }
  const path = make("input", {
    type: "text", id: "keyring-path", autocomplete: "off", spellcheck: "false", placeholder: "/home/you/keyring.pgp" });
  return [
    make("h3", {}, "1. Add a keyring"),
    make("p", {}, "It is read and verified on this machine, and again whenever it changes."),
    found.gpg && make("p", {}, make("button", { type: "button", id: "add-gpg", onclick: () => add("gpg") },
      "Add gpg’s keyring"), " ", make("code", { class: "soft" }, found.home)),
    make("form", { class: "row", onsubmit: (event) => { event.preventDefault(); add(path.value.trim()); } },
      make("label", { for: "keyring-path" }, "A file or a certificate directory"), path,
      make("button", { type: "submit", id: "add-file" }, "Add"))];
}

function rootStep(found) {
  const number = held ? "" : "2. ";
  const title = make("h3", {}, `${number}Choose a root`);
  const about = make("p", {}, "A ", word("root"), " is a key that you trust yourself, usually your own.");
  if (!held) return [title, about, make("p", { class: "soft" }, "As soon as there is a keyring.")];
  const input = make("input", {
    type: "search", id: "first-root", role: "combobox", "aria-expanded": "false", "aria-controls": "first-root-found",
    "aria-autocomplete": "list", autocomplete: "off" });
  const list = make("ul", { id: "first-root-found", role: "listbox", "aria-label": "Keys found", hidden: true });
  const said = make("p", { class: "soft", role: "status" });
  attachSearch(input, list, said, (one) => choose(one.fingerprint, 120, one.user_id));
  return [title, about,
    found.roots.length > 0 && make("p", {}, "gpg trusts these keys as yours:"),
    make("ul", { class: "plain" }, found.roots.map((one) => make("li", {}, make("button", {
      type: "button", class: "offered", onclick: () => choose(one.fingerprint, one.amount, one.name),
    }, name(one.name || one.fingerprint), " ", short(one.fingerprint))))),
    make("label", { for: "first-root" }, "Find a key by its name, address or fingerprint"),
    make("div", { class: "combo" }, input, list, said)];
}

function choose(fingerprint, amount, called) {
  learn({ [fingerprint]: called });
  const root = { fingerprint, amount, name: called };
  if (!isPublic) state.firstRoots = [root];
  change({ roots: [root] });
  if (isPublic) return;  // It is in the address.
  fill(byId("notes"), make("p", { class: "note", role: "status" },
    "This root holds for this page. To keep it: ", make("code", {}, `tukyamid root add ${fingerprint}`)));
}

async function add(path) {
  const said = byId("begin-state");
  if (!path) return;
  fill(said, make("span", { class: "wheel", "aria-hidden": "true" }), " Reading and verifying the keyring…");
  try {
    const added = await call("add", { name: path });
    if (added === null) return;
    fill(said, `${count(added.certificates, "certificate")} read.`);
    await again();
  } catch (failure) {
    fill(said, make("span", { class: "warn" }, `It wasn’t added: ${failure.message}.`));
  }
}
