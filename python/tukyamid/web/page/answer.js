// The answer: a sentence, its measure, the paths as a list, and why every other certification doesn't count.

import { call } from "./asking.js";
import { byId, count, curly, day, fill, inWords, make, name, refill, short } from "./dom.js";
import { your } from "./everyone.js";
import { keyLink } from "./links.js";
import { light } from "./picture.js";
import { scopeText } from "./scopes.js";
import { learn, nameOf, state, subject } from "./state.js";
import { MEANINGS, termsIn } from "./terms.js";
import { explained, word } from "./words.js";

/** The sentence, as nodes: "120 of 120, by two paths from Alice". */
export function sentence(reply) {
  const said = [make("strong", { class: "sum" }, `${reply.amount} of ${reply.wanted}`)];
  if (!reply.paths.length) return [...said, ...why(reply)];
  const roots = [...new Set(reply.paths.map((path) => path.root))];
  said.push(`, by ${inWords(reply.paths.length, "path")} from `);
  roots.forEach((root, place) => {
    if (place) said.push(place === roots.length - 1 ? " and " : ", ");
    said.push(keyLink(root));
  });
  return [...said, "."];
}

function why(reply) {
  return explained(reply.word !== "ok" ? `: ${reply.meaning}.` : `: no path leads here from ${your} roots.`);
}

export function showAnswer(element, reply, binding, present) {
  learn(reply.names);
  const sort = !reply.certain ? "part" : reply.reached ? "yes" : reply.amount ? "part" : "no";
  const word = !reply.certain ? "? not known yet"
    : { yes: "✓ fully authenticated", part: "◐ partly authenticated", no: "✗ not authenticated" }[sort];
  fill(byId("answer-title"), name(binding.user_id || "(an empty user ID)"));
  fill(element,
    make("p", { class: "soft" }, "the key ", keyLink(binding.fingerprint, grouped(binding.fingerprint),
      { class: "to-key fpr", id: "to-this-key" })),
    make("p", { class: `verdict ${sort}` }, make("span", { class: "badge" }, word), " ", ...sentence(reply)),
    make("meter", {
      min: 0, max: reply.wanted, value: Math.min(reply.amount, reply.wanted), "aria-label": "Amount reached",
    }),
    present && present.amount !== reply.amount && make("p", { class: "beside" },
      state.suppose.length ? `As the keyring is, it is ${present.amount}.`
        : `With everything included it is ${present.amount}.`),
    reply.supposed?.length > 0 && make("p", { class: "beside supposed" },
      `Supposed, and in no keyring: ${reply.supposed.map((one) => one.said).join("; ")}.`),
    reply.waiting && make("p", { class: "warn" },
      `${reply.waiting}.`, reply.certain ? "" : " That may change this answer."),
    reply.expired_elsewhere && make("p", { class: "warn" }, `Note: ${reply.expired_elsewhere}.`));
}

const grouped = (fpr) => fpr.toUpperCase().match(/.{1,4}/g).join(" ");

/** What a certification says, in one line. */
export function said(step) {
  const parts = [`amount ${step.amount}`, `depth ${step.depth}`, `made ${day(step.made)}`];
  if (step.ends !== null) parts.push(`ends ${day(step.ends)}`);
  if (step.scopes.length) parts.push(`for ${scopeText(step)}`);
  return parts.join(", ");
}

export function showSteps(element, reply, leaveOut) {
  const about = make("p", { class: "soft" }, "Each step of a ", word("path"), " is a ", word("certification"),
    " with an ", word("amount"), ", a ", word("depth"), " and perhaps a ", word("scope"), ".");
  refill(element, reply.paths.length ? [about, ...reply.paths.map((path, place) => make("div", {
    class: "path", onmouseenter: () => light(place), onmouseleave: () => light(-1), onfocusin: () => light(place),
    onfocusout: () => light(-1) },
    make("h3", {}, `Path ${place + 1}: amount ${path.amount}, ${count(path.steps.length, "step")}`),
    make("ol", { class: "steps" },
      make("li", {}, keyLink(path.root), " ", short(path.root), make("span", { class: "soft" }, ` ${your} root`)),
      path.steps.map((step) => make("li", {}, keyLink(step.target, step.user_id), " ", short(step.target), make("br"),
        make("span", { class: "soft" }, `certified by the one above: ${said(step)}`), " ",
        ...outOfAccount(step, leaveOut))))))] : make("p", {}, "There is no path."));
}

/** Buttons that leave out a certification, or its issuer's key. */
function outOfAccount(step, leaveOut) {
  const issuer = nameOf(step.issuer);
  return [
    step.signature && make("button", {
      type: "button", class: "small", "aria-label": `Without this certification by ${issuer}`,
      onclick: () => leaveOut({ signature: step.signature, name: `${issuer}’s certification of ${step.user_id}` }),
    }, "without it"), " ",
    make("button", {
      type: "button", class: "small", "aria-label": `Without ${issuer}`,
      onclick: () => leaveOut({ key: step.issuer, name: issuer }),
    }, "without ", name(issuer)),
  ];
}

/** The others by their reasons; each reason's certifications are asked for when it is opened. */
export function showOthers(element, reply) {
  if (!reply.others.length) {
    fill(element, make("p", { class: "soft" }, "There is no other certification of this user ID."));
    return;
  }
  const total = reply.others.reduce((sum, one) => sum + one.count, 0);
  fill(element, make("p", { class: "soft" }, ...explained(`${count(total, "certification")} on no path. Each has an `
    + "amount, a depth and perhaps a scope.")),
    reply.others.map((group) => groupOf(group, total <= 12)));
}

function groupOf(group, isOpen) {
  const meaning = group.word === "edge" ? "counts, but adds nothing to this answer"
    : `doesn’t count: ${curly(group.meaning)}`;
  const list = make("ul", { class: "others" });
  const box = make("details", { class: "group" },
    make("summary", {}, make("span", { class: "tally" }, group.count.toLocaleString("en")), " ",
      make("span", {}, meaning)),
    make("p", { class: "soft small" }, termsIn(meaning).map((term) => `${term}: ${MEANINGS[term]} `)), list);
  const shown = { list, word: group.word, begin: 0, count: group.count };
  box.addEventListener("toggle", () => { if (box.open && !list.childElementCount) more(shown); });
  box.open = isOpen;
  return box;
}

async function more(shown) {
  const { list, word, begin } = shown;
  const waiting = make("li", { class: "soft" }, "…");
  list.append(waiting);
  try {
    const reply = await call("reasons", subject({ word, begin }), `reasons ${word}`);
    waiting.remove();
    if (reply === null) return;
    learn(reply.names);
    list.append(...reply.items.map(otherOf));
    shown.begin += reply.items.length;
    if (shown.begin < reply.count && reply.items.length) list.append(furtherOf(shown, reply.count - shown.begin));
  } catch (failure) {
    waiting.replaceChildren(`This couldn’t be loaded: ${failure.message}.`);
  }
}

function furtherOf(shown, left) {
  const item = make("li", {}, make("button", {
    type: "button", onclick: () => { item.remove(); more(shown); },
  }, `Show more (${count(left, "certification")} left)`));
  return item;
}

/** Whether the group's line says all that is meant: of one that counts, or isn't parseable, there is more to say. */
const isSaidAbove = (item) => item.word !== "edge" && item.word !== "unsound";

function otherOf(item) {
  const by = item.issuer && item.issuer.length >= 40 && nameOf(item.issuer) !== item.issuer
    ? [keyLink(item.issuer), " ", short(item.issuer)] : [make("code", {}, item.issuer ?? "an unknown key")];
  return make("li", {}, "by ", ...by, make("br"),
    make("span", { class: "soft" }, said(item)),
    ...isSaidAbove(item) ? [] : [make("br"), make("span", {}, curly(item.meaning))]);
}
