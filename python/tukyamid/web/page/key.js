// A key's own place: whose it is, who vouches for it, whom it vouches for, and its times.

import { call } from "./asking.js";
import { byId, count, day, draw, fill, make, name } from "./dom.js";
import { your } from "./everyone.js";
import { offerGone } from "./gone.js";
import { bindingLink, issuerLink } from "./links.js";
import { showLife } from "./life.js";
import { introduction } from "./scopes.js";
import { addressOf, isPublic, learn, nameOf, standpoint, state } from "./state.js";
import { explained, word } from "./words.js";

const FIRST = 20;
const FIRST_OF_PHONE = 5;  // So that the second list isn’t far below.
const isNarrow = matchMedia("(max-width: 40rem)");
const MORE = 50;
let shownFor = "";

export async function showKey() {
  const asked = { fingerprint: state.binding.fingerprint, ...standpoint() };
  const id = JSON.stringify(asked);
  if (id === shownFor) return;
  byId("key").setAttribute("aria-busy", "true");
  try {
    const reply = await call("key", asked);
    if (reply === null || state.view !== "key") return;
    shownFor = id;
    learn({ [reply.fingerprint]: reply.name });
    document.title = `Tukyamid: ${reply.name || reply.fingerprint}`;
    show(reply);
    if (!reply.there) return;
    showVouched("by", byId("vouched-by"), asked);
    showVouched("for", byId("vouches-for"), asked);
    showLife(byId("life"), asked);
  } catch (failure) {
    shownFor = "";
    fill(byId("key-summary"), make("p", { class: "warn", role: "alert" }, `There is no answer: ${failure.message}.`));
  } finally {
    byId("key").removeAttribute("aria-busy");
  }
}

function show(reply) {
  fill(byId("key-title"), name(reply.name || reply.fingerprint));
  for (const part of document.querySelectorAll("#key .known")) part.hidden = !reply.there;
  fill(byId("key-summary"),
    make("p", { class: reply.word === "ok" ? "soft" : "warn" }, !reply.there ? "This key isn’t in the keyring."
      : reply.word === "ok" ? `Created ${day(reply.created)}, neither expired nor revoked.`
        : explained(`${reply.meaning}.`)),
    reply.root && make("p", {}, make("span", { class: "badge rooted" }, `${your} root`),
      isPublic ? " This is seen from this key, with " : " You trust this key yourself, with ", word("amount"),
      ` ${reply.root}.`),
    fingerprintOf(reply.fingerprint));
  if (!reply.there) return;
  fill(byId("key-user-ids"), make("p", { class: "soft" }, "Each ", word("user ID"), " is a claim. Somebody has to ",
    "vouch for it."), make("ul", { class: "user-ids" }, reply.user_ids.map((one) => userIdOf(reply, one))),
    reply.more_user_ids > 0 && make("p", { class: "soft" }, `And ${count(reply.more_user_ids, "user ID")} more.`));
  offerGone(byId("key-gone"), reply.fingerprint);
}

function userIdOf(reply, one) {
  const sort = one.reached ? "yes" : one.amount ? "part" : "no";
  const said = { yes: "✓ authenticated", part: "◐ partly authenticated", no: "✗ not authenticated" }[sort];
  const [how, short] = one.reached ? ["How", "How?"] : ["Why not, and what would help", "Why not? What would help?"];
  return make("li", { class: sort }, bindingLink(reply.fingerprint, one.spelled, one.user_id), " ",
    make("span", { class: "badge" }, said), " ", make("span", {}, `${one.amount} of ${one.wanted}`), " ",
    make("span", { class: "soft" }, one.word === "ok" ? "" : explained(`${one.meaning}. `)),
    make("a", { class: "why", href: addressOf({ view: "ask", binding: {
      fingerprint: reply.fingerprint, spelled: one.spelled, user_id: one.user_id }, without: [], suppose: [] }),
    "aria-label": `${how}: ${one.user_id}` }, short));
}

/** The digits in groups, and the code once it is opened. */
function fingerprintOf(fpr) {
  const code = make("div", { class: "code" });
  const box = make("details", { id: "qr-box" }, make("summary", {}, "QR code"), code);
  box.addEventListener("toggle", async () => {
    if (!box.open || code.childElementCount) return;
    const reply = await call("qr", { fingerprint: fpr }).catch((failure) => ({ failure }));
    if (reply === null) return;
    if (reply.failure || reply.missing) {
      fill(code, make("p", { class: "soft" }, reply.missing ? `For this install ${reply.missing}.`
        : `${reply.failure.message}.`));
      return;
    }
    fill(code, codeOf(reply), make("p", { class: "soft small" }, make("code", {}, reply.text)));
  });
  return make("div", {}, word("fingerprint", "Fingerprint"), make("p", { class: "digits" },
    make("code", { id: "digits" }, fpr.toUpperCase().match(/.{1,4}/g).join(" "))), box);
}

function codeOf({ rows, text }) {
  const path = rows.flatMap((row, y) => [...row].map((cell, x) => (cell === "1" ? `M${x} ${y}h1v1h-1z` : ""))).join("");
  return draw("svg", {
    viewBox: `0 0 ${rows.length} ${rows.length}`, class: "qr", role: "img", "aria-label": `QR code of ${text}` },
  draw("rect", { width: rows.length, height: rows.length, fill: "#fff" }), draw("path", { d: path, fill: "#000" }));
}

/** One of the two lists, some of it at a time. */
async function showVouched(side, element, asked) {
  const list = make("ul", { class: "vouched" });
  fill(element, make("p", { class: "soft", id: `${side}-worth` }), list);
  fill(byId(`${side}-count`), "…");
  await more(side, list, asked, 0, isNarrow.matches ? FIRST_OF_PHONE : FIRST);
}

async function more(side, list, asked, begin, most) {
  const waiting = make("li", { class: "soft waiting" }, "…");
  list.append(waiting);
  try {
    const reply = await call("vouched", { ...asked, side, begin, most }, `vouched ${side}`);
    waiting.remove();
    if (reply === null) return;
    learn(reply.names);
    fill(byId(`${side}-count`), reply.count.toLocaleString("en"));
    fill(byId(`${side}-worth`), ...worthOf(side, reply));
    list.append(...reply.items.map((item) => itemOf(side, item)));
    const left = reply.count - begin - reply.items.length;
    if (!reply.count) list.append(make("li", { class: "soft" }, "Nobody."));
    if (left > 0 && reply.items.length) list.append(furtherOf(side, list, asked, begin + reply.items.length, left));
  } catch (failure) {
    fill(waiting, make("span", { class: "warn" }, `This couldn’t be loaded: ${failure.message}.`));
  }
}

/** How many of them matter to an answer, and so come first. */
function worthOf(side, reply) {
  if (!reply.count) return [];
  const all = `${reply.ranked < reply.count ? "the first " : ""}${reply.ranked.toLocaleString("en")}`;
  const s = reply.worth > 1 ? "" : "s";
  const verb = side === "by" ? `add${s} to the ` : `get${s} an `;
  const first = !reply.worth || reply.count === 1 ? "." : s ? "; it comes first." : "; these come first.";
  const whole = reply.worth || reply.ranked < reply.count ? all : "them";
  return [`${reply.worth ? reply.worth.toLocaleString("en") : "None"} of ${whole} ${verb}`, word("amount"),
    `${side === "by" ? "" : " through this key"}${first}`];
}

function furtherOf(side, list, asked, begin, left) {
  const item = make("li", {}, make("button", {
    type: "button", onclick: () => { item.remove(); more(side, list, asked, begin, MORE); },
  }, `Show more (${count(left, "key")} left)`));
  return item;
}

function itemOf(side, item) {
  return make("li", {}, issuerLink(item.key, item.known), ...side === "for" ? [" ", reachedOf(item)] : [],
    make("ul", { class: "said" }, item.certifications.map((one) => make("li", {}, ...aboutCertification(side, one,
      nameOf(item.key))))));
}

/** How far the certified name is authenticated at all. */
function reachedOf(item) {
  const amount = Math.max(0, ...item.certifications.map((one) => one.reached));
  const sort = amount >= 120 ? "yes" : amount ? "part" : "no";
  const sign = { yes: "✓", part: "◐", no: "✗" }[sort];
  return make("span", { class: `soft small ${sort}` }, `${sign} ${amount} of 120`);
}

/** What a certification says in words: whose name, whether it counts, and what it lets its target do. */
function aboutCertification(side, one, called) {
  const [sort, sign] = one.word !== "edge" ? ["no", "✗ doesn’t count"]
    : one.worth ? ["yes", `✓ adds ${one.worth}`] : ["idle", "○ adds nothing"];
  const parts = [make("span", { class: sort }, make("span", { class: "badge" }, sign)), " "];
  if (!one.worth) parts.push(...explained(`${one.meaning.replace(/^counts(, but|:) /, "")}; `));
  if (one.user_id !== called || side === "by") parts.push("for ", name(one.user_id), ", ");
  const ends = one.ends === null ? "" : ` to ${day(one.ends)}`;
  parts.push(make("span", { class: "soft" }, `${day(one.made)}${ends}`));
  if (one.amount < 120) parts.push(", ", word("amount"), ` ${one.amount}`);
  if (one.depth) parts.push(make("br"), ...introduction(one));
  return parts;
}
