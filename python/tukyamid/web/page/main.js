// Puts the page together: what is asked about changes, and all views follow.

import { call } from "./asking.js";
import { showAnswer, showOthers, showSteps } from "./answer.js";
import { whatIsHeld } from "./beginning.js";
import { byId, count, day, fill, make } from "./dom.js";
import { choiceOfSets, noteUnknownSet, your } from "./everyone.js";
import { showKey } from "./key.js";
import { keyLink } from "./links.js";
import { showMeeting } from "./meeting.js";
import { showNetwork } from "./network.js";
import { showOverview } from "./overview.js";
import { showPicture } from "./picture.js";
import { showEnough } from "./enough.js";
import { showFragile } from "./fragile.js";
import { showProof } from "./proof.js";
import { showReach } from "./reach.js";
import { prepareReload } from "./reloading.js";
import { attachMainSearch } from "./search.js";
import { addressOf, change, isPublic, learn, read, state, subject, VIEWS, whenChanged } from "./state.js";
import { showTime } from "./time.js";
import { leaveOut, showWhatIf } from "./whatif.js";
import { showWords, word } from "./words.js";

let shownPlace = "";
let hasBegun = false;

function begin() {
  byId("loading").hidden = !byId("loading").dataset.failed;
  attachMainSearch((one) => change({ binding: one, without: [], suppose: [], view: "ask" }));
  document.querySelector(".skip").addEventListener("click", (event) => {
    event.preventDefault();  // It leads within this place, and is no other one.
    byId("main").focus();
  });
  whenChanged(show);
  window.addEventListener("popstate", () => { Object.assign(state, read(location.hash)); show(); });
  start();
  prepareReload();
}

/** Shows the place that the address names, once there is a server that says what the page begins with. */
async function start() {
  if (!await load()) return;
  hasBegun = true;
  Object.assign(state, read(location.hash));
  show();
  noteUnknownSet();
  if (state.view === "start") byId("sought").focus();
}

/** Loads what the page begins with. Returns whether there is a server that says it. */
async function load() {
  try {
    const reply = await call("begin");
    const isFirst = !state.now;
    state.now = reply.time;
    if (isFirst) state.time = reply.time;
    state.sets = reply.sets ?? [];
    if (isFirst || !state.firstRoots.length) state.roots = state.firstRoots = reply.roots;
    const roots = [...reply.roots, ...state.sets.flatMap((set) => set.roots)];
    learn(Object.fromEntries(roots.map((root) => [root.fingerprint, root.name])));
    const [keys, names] = [Number(reply.certificates), Number(reply.user_ids)];
    whatIsHeld(keys, async () => { await load(); show(); });
    fill(byId("held"), `${count(keys, "certificate")}, ${count(names, "user ID")}`);
    fill(byId("notes"), notesOf(reply));
    return true;
  } catch (failure) {
    fill(byId("notes"), make("p", { class: "warn", role: "alert" }, `There is nothing to show: ${failure.message}. `,
      make("button", { type: "button", id: "start-again", onclick: start }, "Try again")));
    return false;
  }
}

function notesOf(reply) {
  const notes = reply.notes.map((note) => make("p", { class: "note" }, note));
  if (!window.d3 && !isPublic) {
    notes.push(make("p", { class: "note" }, "Scales need d3: apt-get install libjs-d3, and start again."));
  }
  return notes;
}

/** From where one looks, in a sentence. */
function standpointOf() {
  const roots = state.roots.flatMap((root, at) => [
    at ? ", " : "", keyLink(root.fingerprint), ` (amount ${root.amount})`]);
  return ["Seen from ", ...choiceOfSets(),
    ...(roots.length ? [`${your} `, word("root"), state.roots.length > 1 ? "s " : " ", ...roots]
      : ["no root yet"]), `, as of ${day(state.time)}.`];
}

function show() {
  if (!hasBegun) return;
  fill(byId("standpoint"), standpointOf());
  for (const view of VIEWS) {
    byId(view).hidden = state.view !== view;
    if (state.view === view) byId(`to-${view}`)?.setAttribute("aria-current", "page");
    else byId(`to-${view}`)?.removeAttribute("aria-current");
    byId(`to-${view}`)?.setAttribute("href", addressOf({ view }));
  }
  const about = state.binding && state.view === "ask" ? state.binding.user_id : "who vouches for whom";
  document.title = `Tukyamid: ${about}`;
  ({ start: showNetwork, key: showKey, ask, overview: showOverview, plans: showPlans,
    words: showWords })[state.view]();
  arrive();
}

function showPlans() {
  showMeeting();
  showFragile();
}

/** At another place the page is at its top, and the focus on the place's title, so that a screen reader says it. */
function arrive() {
  const place = `${state.view} ${state.binding?.fingerprint ?? ""} ${state.binding?.spelled ?? ""}`;
  if (shownPlace && place !== shownPlace) {
    window.scrollTo(0, 0);
    byId({ start: "start-title", key: "key-title", ask: "answer-title", overview: "overview-title",
      plans: "plans-title", words: "words-title" }[state.view]).focus({ preventScroll: true });
  }
  shownPlace = place;
}

/** Asks, and shows the answer. If something is left out, it asks for the present answer too. */
async function ask() {
  byId("subject").setAttribute("aria-busy", "true");
  try {
    const isOther = state.without.length || state.suppose.length;
    const both = [call("answer", subject()), isOther
      ? call("answer", subject({ without: [], suppose: [] }), "present") : null];
    const [reply, present] = await Promise.all(both);
    if (reply === null) return;
    learn(present?.names);
    showAnswer(byId("answer"), reply, state.binding, present);
    showPicture(byId("picture"), reply);
    byId("steps-box").hidden = !reply.paths.length;
    showSteps(byId("steps"), reply, leaveOut);
    showOthers(byId("others"), reply);
    showWhatIf(reply, present);
    showProof(reply);
    showReach(reply);
    showEnough(reply);
    showTime();
  } catch (failure) {
    fill(byId("answer"), make("p", { class: "warn" }, `There is no answer: ${failure.message}.`));
    for (const part of ["picture", "steps", "others", "if", "proof", "reach", "enough"]) fill(byId(part));
  } finally {
    byId("subject").removeAttribute("aria-busy");
  }
}

begin();
