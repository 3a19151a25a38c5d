// A certification that nobody has made, put together by hand: who certifies which user ID, and how far it goes.

import { make, name } from "./dom.js";
import { attachSearch } from "./search.js";
import { change, nameOf, state } from "./state.js";

const draft = { issuer: null, target: null, depth: 0, amount: 120, scope: "" };

/** The form, with what was put in before. */
export function supposingForm() {
  const said = make("p", { class: "warn", role: "alert", id: "suppose-fault" });
  const scope = make("div", { hidden: !draft.depth },
    make("label", { class: "block", for: "suppose-scope" }, "Only for user IDs that match (a regular expression)"),
    make("input", { type: "text", id: "suppose-scope", value: draft.scope, spellcheck: "false", maxlength: 1024,
      placeholder: "<[^>]+[@.]example\\.org>$", oninput: (event) => { draft.scope = event.target.value; } }));
  return make("form", { id: "suppose-form", "aria-label": "Suppose a certification",
    onsubmit: (event) => { event.preventDefault(); suppose(said); } },
    make("h3", {}, "Suppose a certification"),
    chooser("issuer", "Who certifies", draft.issuer, (one) => { draft.issuer = one; }),
    chooser("target", "Which user ID", draft.target ?? state.binding, (one) => { draft.target = one; }),
    make("div", { class: "row" },
      number("depth", "Depth", 0, (value) => { scope.hidden = !value; }), number("amount", "Amount", 1)),
    scope, make("button", { type: "submit", id: "suppose-it" }, "Suppose it"), said);
}

/** A search for one key or user ID, with what is chosen so far below it. */
function chooser(field, label, chosen, keep) {
  const id = `suppose-${field}`;
  const input = make("input", { type: "search", id, role: "combobox", "aria-expanded": "false",
    "aria-controls": `${id}-found`, "aria-autocomplete": "list", autocomplete: "off", spellcheck: "false",
    "aria-describedby": `${id}-chosen`, placeholder: "Name, address or fingerprint" });
  const list = make("ul", { id: `${id}-found`, role: "listbox", "aria-label": "User IDs found", hidden: true });
  const found = make("p", { class: "soft", role: "status" });
  const shown = make("p", { id: `${id}-chosen` }, chosen ? name(chosen.user_id || nameOf(chosen.fingerprint)) : "");
  attachSearch(input, list, found, (one) => {
    keep(one);
    input.value = "";
    found.replaceChildren();
    shown.replaceChildren(name(one.user_id));
  });
  return make("div", { class: "combo" }, make("label", { class: "block", for: id }, label), input, list, found, shown);
}

function number(field, label, least, changed = () => {}) {
  return make("label", { class: "inline" }, label, make("input", { type: "number", id: `suppose-${field}`,
    class: "amount", min: least, max: 255, value: draft[field], required: true,
    oninput: (event) => { draft[field] = Number(event.target.value); changed(draft[field]); } }));
}

function suppose(said) {
  const target = draft.target ?? state.binding;
  if (!draft.issuer) {
    said.textContent = "Choose who certifies.";
    document.getElementById("suppose-issuer").focus();
    return;
  }
  if (draft.issuer.fingerprint === target.fingerprint) {
    said.textContent = "A key can’t vouch for itself: choose another one.";
    document.getElementById("suppose-issuer").focus();
    return;
  }
  const { depth, amount } = draft;
  const made = { kind: "certifies", issuer: draft.issuer.fingerprint, target: target.fingerprint,
    user_id_spelled: target.spelled, depth, amount, scopes: depth && draft.scope ? [draft.scope] : [] };
  Object.assign(draft, { issuer: null, target: null, depth: 0, amount: 120, scope: "" });
  change({ suppose: [...state.suppose, made] });
  document.getElementById("answer-title").focus();
}
