// What the page asks about: kept in the address behind #, so that going back works and nothing is stored.

import { readable, spelled } from "./spelling.js";

/** Whether this is the page that `tukyamid web --public` serves to everyone. */
export const isPublic = document.documentElement.dataset.public === "yes";
export const VIEWS = ["start", "key", "ask", ...isPublic ? [] : ["overview", "plans"], "words"];

export const state = {
  view: "start", binding: null, wanted: 120, now: 0, time: 0, roots: [], firstRoots: [], sets: [], without: [],
  suppose: [], opened: [], names: new Map(),
};

const listeners = [];

/** Calls this whenever something that is asked about has changed. */
export const whenChanged = (listener) => listeners.push(listener);

/** Changes what is asked about. `note` says whether it becomes a step that one can go back. */
export function change(changed, note = true) {
  Object.assign(state, changed);
  const address = addressOf();
  if (note && address !== location.hash) history.pushState(null, "", address);
  else history.replaceState(null, "", address);
  for (const listener of listeners) listener(Object.keys(changed));
}

/** The question, as the server's calls have it. */
export const subject = (changed = {}) => ({
  fingerprint: state.binding?.fingerprint, user_id: state.binding?.spelled, wanted: state.wanted, ...standpoint(),
  without: state.without.map(({ key, signature }) => (key ? { key } : { signature })),
  ...state.suppose.length ? { suppose: state.suppose } : {}, ...changed,
});

export const standpoint = () => ({
  time: state.time, ...(setOf(state.roots) ? { set: setOf(state.roots).name }
    : { roots: state.roots.map(({ fingerprint, amount }) => ({ fingerprint, amount })) }),
});

/** The named set that these roots are. */
export const setOf = (roots) => state.sets.find((set) => rootsAsText(set.roots) === rootsAsText(roots));

/** The address of the page with something changed: where a link leads. */
export function addressOf(changed = {}) {
  const one = { ...state, ...changed };
  const words = new URLSearchParams();
  if (one.binding && !["start", "overview", "plans"].includes(one.view)) {
    words.set("key", one.binding.fingerprint);
    if (one.view === "ask") words.set("uid", readable(one.binding.spelled));
  }
  if (one.time !== one.now) words.set("time", one.time);
  if (one.wanted !== 120 && one.view === "ask") words.set("wanted", one.wanted);
  const roots = rootsAsText(one.roots);
  if (roots !== rootsAsText(one.firstRoots)) {
    const set = setOf(one.roots);
    words.set(...(set ? ["set", set.name] : ["roots", roots]));
  }
  if (one.without.length && one.view === "ask") {
    words.set("without", one.without.map((left) => left.key ?? left.signature).join(","));
  }
  if (one.suppose.length && one.view === "ask") words.set("suppose", JSON.stringify(one.suppose));
  if (one.opened.length && one.view === "start") words.set("open", one.opened.join(","));
  const text = words.toString();
  return `#${one.view}${text ? `?${text}` : ""}`;
}

/** The place of a key, and that of one of its user IDs. */
export const addressOfKey = (fingerprint) =>
  addressOf({ view: "key", binding: { fingerprint, spelled: "", user_id: "" }, without: [], suppose: [] });
export const addressOfBinding = (fingerprint, spelling, user) =>
  addressOf({ view: "ask", binding: { fingerprint, spelled: spelling, user_id: user }, without: [], suppose: [] });

const rootsAsText = (roots) => roots.map((one) => `${one.fingerprint}:${one.amount}`).join(",");

/** What an address says. */
export function read(hash) {
  const [view, text = ""] = hash.replace(/^#/, "").split("?");
  const words = new URLSearchParams(text);
  const number = (name, otherwise) => (/^\d{1,10}$/.test(words.get(name) ?? "") ? Number(words.get(name)) : otherwise);
  const list = (name) => (words.get(name) ?? "").split(",").filter(Boolean);
  const key = words.get("key");
  const user = spelled(words.get("uid") ?? "");
  const needsKey = view === "key" || view === "ask";
  return {
    view: VIEWS.includes(view) && (key || !needsKey) ? view : "start",
    binding: key ? { fingerprint: key, spelled: user, user_id: readable(user) } : null,
    time: number("time", state.now), wanted: number("wanted", 120),
    roots: words.has("roots") ? list("roots").map(readRoot)
      : state.sets.find((set) => set.name === words.get("set"))?.roots ?? state.firstRoots,
    without: list("without").map((one) => (one.length === 64 && state.names.get(one) === undefined
      ? { signature: one, name: "a certification" } : { key: one, name: state.names.get(one) ?? one })),
    suppose: readSupposed(words.get("suppose")), opened: list("open"),
  };
}

/** Certifications that are supposed; the server checks each of their fields. */
function readSupposed(text) {
  try {
    const found = JSON.parse(text ?? "[]");
    return Array.isArray(found) ? found.filter((one) => one && typeof one === "object").slice(0, 16) : [];
  } catch {
    return [];
  }
}

function readRoot(text) {
  const [fingerprint, amount] = text.split(":");
  return { fingerprint, amount: Number(amount) || 120, name: state.names.get(fingerprint) ?? "" };
}

/** Keeps names that answers bring. */
export function learn(names) {
  for (const [fpr, said] of Object.entries(names ?? {})) if (said) state.names.set(fpr, said);
}

export const nameOf = (fpr) => state.names.get(fpr) || fpr;
