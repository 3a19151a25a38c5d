// Proof for others: the answer as a file that another engine checks.

import { call } from "./asking.js";
import { byId, fill, make, save } from "./dom.js";
import { state, subject } from "./state.js";

export function showProof(reply) {
  const about = reply.reached
    ? "The answer with its paths, and the certificates that it rests on."
    : "The claim that no further path is left, and the certificates that it rests on.";
  fill(byId("proof"),
    make("p", {}, about, " Anyone with Tukyamid can check the file with ", make("code", {}, "tukyamid check FILE"),
      ". It verifies all signatures itself."),
    state.suppose.length
      ? make("p", { class: "soft" }, "A proof is about certificates that exist: suppose nothing first.")
      : state.without.length
      ? make("p", { class: "soft" }, "A proof is about the whole keyring: include what is left out first.")
      : make("button", { type: "button", id: "save-proof", onclick: write }, "Save the proof"),
    make("p", { id: "proof-state", role: "status", class: "soft" }));
}

async function write() {
  const said = byId("proof-state");
  fill(said, "Making the file…");
  try {
    const reply = await call("proof", subject());
    if (reply === null) return;
    const fileName = `proof-${reply.fingerprint.slice(0, 16)}.json`;
    save(fileName, "application/json", `${JSON.stringify(reply, null, 1)}\n`);
    fill(said, `Saved as ${fileName}: ${reply.claim === "answer" ? "an answer" : "a claim of absence"}, with ` +
      `${reply.certificates.length} certificates inside.`);
  } catch (failure) {
    fill(said, `No proof was made: ${failure.message}.`);
  }
}
