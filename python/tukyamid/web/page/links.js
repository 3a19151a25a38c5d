// Names that lead to their own places. They are links of the browser's, so that going back, copying an address and
// opening one beside the page work as everywhere.

import { make, name, short } from "./dom.js";
import { addressOfBinding, addressOfKey, nameOf } from "./state.js";

/** A key by its name, which leads to the key's place. Without one it is called by its fingerprint. */
export function keyLink(fpr, text = nameOf(fpr), attributes = {}) {
  const inside = text === fpr ? short(fpr) : name(text);
  return make("a", { href: addressOfKey(fpr), class: "to-key", ...attributes }, inside);
}

/** A user ID of a key, which leads to its answer. */
export const bindingLink = (fpr, spelled, user) =>
  make("a", { href: addressOfBinding(fpr, spelled, user), class: "to-answer" }, name(user || "(an empty user ID)"));

/** A key, or what a signature names as its issuer if the keyring doesn't have that. */
export function issuerLink(key, known) {
  return known ? keyLink(key) : make("span", {}, key ? short(key) : "an unknown key",
    make("span", { class: "soft" }, " (not in this keyring)"));
}
