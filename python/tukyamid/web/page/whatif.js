// What if: other roots and amounts, and keys or certifications that are left out. None of it is stored.

import { supposedList } from "./enough.js";
import { byId, make, name, refill, short } from "./dom.js";
import { attachSearch } from "./search.js";
import { supposingForm } from "./supposing.js";
import { change, nameOf, state } from "./state.js";

/** Leaves out a key or a certification. */
export function leaveOut(one) {
  const id = one.key ?? one.signature;
  if (!state.without.some((other) => (other.key ?? other.signature) === id)) {
    change({ without: [...state.without, one] });
  }
}

/** Shows the roots and what is left out, with the answer beside the present one. */
export function showWhatIf(reply, present) {
  refill(byId("if"),
    make("h3", {}, "Roots and their amounts"),
    make("ul", { class: "roots plain" }, state.roots.map(rootOf)),
    !state.roots.length && make("p", { class: "warn" }, "No root yet, so nothing is authenticated. Add your own key."),
    adder(),
    isOtherwise() && make("button", {
      type: "button", id: "reset",
      onclick: () => change({ roots: state.firstRoots, without: [], suppose: [], wanted: 120 }),
    }, "Reset"),
    make("label", { class: "block", for: "wanted" }, "Wanted amount"),
    make("input", {
      type: "number", id: "wanted", min: 1, max: 100000, value: state.wanted,
      onchange: (event) => setWanted(event.target) }),
    make("h3", {}, "Left out"),
    state.without.length ? make("ul", { class: "plain" }, state.without.map(leftOut))
      : make("p", { class: "soft" }, `Nothing.${reply.paths.length
        ? " The list of the paths has a button for each certification." : ""}`),
    triedOf(reply),
    supposedList(reply),
    supposingForm(),
    make("p", { id: "if-answer", role: "status", class: "beside" }, ...beside(reply, present)));
}

/** A button for each key that a path goes through: what if it weren't there? */
function triedOf(reply) {
  const keys = [...new Set(reply.paths.flatMap((path) => path.steps.map((step) => step.issuer)))];
  return keys.length > 0 && make("div", { class: "row" }, keys.map((key) => make("button", {
    type: "button", class: "small", onclick: () => leaveOut({ key, name: nameOf(key) }),
  }, "without ", name(nameOf(key)))));
}

/** "Without Bob, 60; at present 120". */
function beside(reply, present) {
  if (!state.without.length || !present) return [];
  const last = state.without.length - 1;
  const names = state.without.flatMap((one, place) => [
    !place ? "" : place === last ? " and " : ", ", name(calledOf(one))]);
  return ["Without ", ...names, ", ", make("strong", {}, String(reply.amount)), ". With everything, ",
    make("strong", {}, String(present.amount)), "."];
}

const isOtherwise = () => state.without.length + state.suppose.length > 0 || state.wanted !== 120
  || JSON.stringify(state.roots.map(({ fingerprint, amount }) => [fingerprint, amount]))
  !== JSON.stringify(state.firstRoots.map(({ fingerprint, amount }) => [fingerprint, amount]));

function rootOf(root) {
  const id = `amount-${root.fingerprint}`;
  const said = nameOf(root.fingerprint);
  return make("li", {},
    make("label", { for: id }, name(said), " ", short(root.fingerprint)),
    make("input", {
      type: "number", id, min: 1, max: 255, value: root.amount, class: "amount", "aria-label": `Amount of ${said}`,
      onchange: (event) => setAmount(root, event.target) }),
    make("button", {
      type: "button", class: "small", "aria-label": `Remove the root ${said}`,
      onclick: () => change({ roots: state.roots.filter((one) => one !== root) }) }, "remove"));
}

function setAmount(root, input) {
  const amount = Math.round(Number(input.value));
  if (!(amount >= 1 && amount <= 255)) {
    input.value = root.amount;
    return;
  }
  change({ roots: state.roots.map((one) => (one === root ? { ...one, amount } : one)) });
}

function setWanted(input) {
  const wanted = Math.round(Number(input.value));
  if (wanted >= 1 && wanted <= 100000) change({ wanted });
  else input.value = state.wanted;
}

function adder() {
  const input = make("input", {
    type: "search", id: "new-root", role: "combobox", "aria-expanded": "false", "aria-controls": "new-root-found",
    "aria-autocomplete": "list", autocomplete: "off", placeholder: "Add a root: name or fingerprint",
    "aria-label": "Add a root" });
  const list = make("ul", { id: "new-root-found", role: "listbox", "aria-label": "Keys found", hidden: true });
  const said = make("p", { class: "soft", role: "status" });
  attachSearch(input, list, said, (one) => {
    state.names.set(one.fingerprint, one.user_id);
    if (!state.roots.some((root) => root.fingerprint === one.fingerprint)) {
      change({ roots: [...state.roots, { fingerprint: one.fingerprint, amount: 120, name: one.user_id }] });
    }
  });
  return make("div", { class: "combo" }, input, list, said);
}

/** What to call a key or a certification; an address has its key alone. */
const calledOf = (one) => (one.key ? nameOf(one.key) : one.name);

function leftOut(one) {
  return make("li", {}, name(calledOf(one)), " ", make("button", {
    type: "button", class: "small", "aria-label": `Include ${calledOf(one)} again`,
    onclick: () => change({ without: state.without.filter((other) => other !== one) }) }, "include"));
}
