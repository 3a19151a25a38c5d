// Calls of this page's own server. A later call of a kind takes the place of one that is under way. What fails on the
// way is said and tried again, so that no question is lost.

import { byId, fill, make } from "./dom.js";
import { addressOfCall } from "./everyone.js";
import { isPublic } from "./state.js";

const LATE = 4000;
const PATIENCE = 30000;  // Twice as long at each further try.
const MOST_PATIENCE = 480000;
const MAY_TAKE_LONG = new Set(["add", "plan", "gone", "reach", "proof"]);
const PAUSES = [300, 1000, 2000, 4000];  // Before each further try; the last one again and again.
const FOREIGN = "what answers at this page’s address isn’t the command that opened it: close this page";
const TRIES_OF_SERVICE = 3;
const MAY_PASS = new Set([429, 502]);
const SERVER = isPublic ? "this page’s server" : "the command tukyamid web";
const WAITING = "This takes longer than usual. Still waiting for the answer…";
const LOST = `The connection to ${SERVER} is lost. Trying again; your question stays in the address.`
  + (isPublic ? "" : " If you ended the command, start it again.");
// A secret of this page and its server, for when the server has ended and another user's program listens at its port.
const SECRET = document.querySelector("meta[name=seal]")?.content ?? "";
const underWay = new Map();
const troubles = new Map();

/** The reply to a call, or null if a later one of its kind took its place. A failure is an Error with its reason. */
export async function call(what, asked = {}, sort = what) {
  underWay.get(sort)?.abort();
  const control = new AbortController();
  underWay.set(sort, control);
  try {
    for (let tries = 1; ; tries += 1) {
      const patience = MAY_TAKE_LONG.has(what) ? 0 : Math.min(PATIENCE * 2 ** (tries - 1), MOST_PATIENCE);
      const reply = await once(what, asked, control, patience);
      if (reply.value) return reply.value;
      // Without an answer nobody knows whether it was done, so what changes something isn't tried again.
      if (what === "add" || (!reply.lost && (!MAY_PASS.has(reply.status) || tries >= TRIES_OF_SERVICE))) {
        throw Object.assign(new Error(reply.error), { status: reply.status });
      }
      report(control, reply.lost ?? `Trying again: ${reply.error}.`);
      await pause(PAUSES[Math.min(tries, PAUSES.length) - 1], control.signal);
    }
  } catch (failure) {
    if (control.signal.aborted) return null;
    throw failure;
  } finally {
    report(control, null);
    if (underWay.get(sort) === control) underWay.delete(sort);
  }
}

/** One try: its value, or why there is none; `lost` is what to say if no answer comes, at all or within the patience.
 * A patience of 0 waits for ever. */
async function once(what, asked, control, patience) {
  const { signal } = control;
  const own = new AbortController();
  const giveUp = () => own.abort();
  signal.addEventListener("abort", giveUp);
  const over = patience ? setTimeout(giveUp, patience) : 0;
  const late = setTimeout(() => troubles.has(control) || report(control, WAITING), LATE);
  try {
    const nonce = SECRET && crypto.randomUUID();
    const reply = await (isPublic ? fetch(addressOfCall(what, asked), { signal: own.signal }) : fetch(`call/${what}`, {
      method: "POST", headers: { "Content-Type": "application/json", "Tukyamid-Nonce": nonce },
      body: JSON.stringify(asked), signal: own.signal }));
    const text = await reply.text();
    const seal = reply.headers.get("Tukyamid-Seal") ?? "";
    if (SECRET && !await isSealed(`${nonce}\n${text}`, seal)) return { error: FOREIGN, status: 403 };
    const value = read(text) ?? { error: `the server answered with status ${reply.status}` };
    return value.error ? { error: value.error, status: reply.status } : { value };
  } catch (failure) {
    if (signal.aborted || !(failure instanceof TypeError || own.signal.aborted)) throw failure;
    const silent = `No answer has come for ${patience / 1000} seconds. Asking again; your question stays in the `
      + "address.";
    return { error: `${SERVER} can’t be reached`, lost: own.signal.aborted ? silent : LOST };
  } finally {
    signal.removeEventListener("abort", giveUp);
    clearTimeout(over);
    clearTimeout(late);
  }
}

/** Whether this page's own server has sealed a text. */
async function isSealed(text, seal) {
  const key = await crypto.subtle.importKey(
    "raw", octetsOf(SECRET), { name: "HMAC", hash: "SHA-256" }, false, ["verify"]);
  return crypto.subtle.verify("HMAC", key, octetsOf(seal), new TextEncoder().encode(text));
}

const octetsOf = (digits) => Uint8Array.from(digits.match(/../g) ?? [], (two) => parseInt(two, 16));

function read(text) {
  try { return JSON.parse(text); } catch { return null; }
}

const pause = (milliseconds, signal) => new Promise((done, fail) => {
  const timer = setTimeout(done, milliseconds);
  signal.addEventListener("abort", () => { clearTimeout(timer); fail(signal.reason); });
});

/** Says what a call waits for, as long as it does. */
function report(who, text) {
  if (text) troubles.set(who, text);
  else if (!troubles.delete(who)) return;
  fill(byId("trouble"), [...new Set(troubles.values())].map((one) => make("p", { class: "trouble" }, one)));
}
