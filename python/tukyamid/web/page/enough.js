// What would be enough: certifications that nobody has made yet, each of which can be supposed by one click.

import { call } from "./asking.js";
import { byId, count, fill, make, name } from "./dom.js";
import { bindingLink, keyLink } from "./links.js";
import { introduction } from "./scopes.js";
import { change, learn, nameOf, state, subject } from "./state.js";
import { word } from "./words.js";

const SHOWN = 5;

/** Shows it beside an answer; nothing if the answer is reached. */
export async function showEnough(answer) {
  byId("enough-box").hidden = answer.reached;
  if (answer.reached) return;
  if (!state.roots.length) {
    fill(byId("enough"), make("p", {}, "Choose a root first: every path begins at one."));
    return;
  }
  fill(byId("enough"), make("p", { class: "soft", role: "status" }, "Looking for what would be enough…"));
  try {
    const reply = await call("plan", { ...subject(), by: [], most: 2 });
    if (reply === null || state.view !== "ask") return;
    learn(reply.names);
    fill(byId("enough"), ...shownOf(reply));
  } catch (failure) {
    byId("enough-box").hidden = failure.status === 404;  // A server of an earlier version plans nothing.
    fill(byId("enough"), make("p", { class: "warn" }, `This couldn’t be found out: ${failure.message}.`));
  }
}

function shownOf(reply) {
  const missing = `${reply.amount} of ${reply.wanted}: ${reply.wanted - reply.amount} are missing.`;
  if (!reply.proposals.length) {
    return [make("p", {}, missing), make("p", {}, reply.absence?.said ?? reply.note ?? "Nothing was found.")];
  }
  const list = make("ul", { class: "cards" }, reply.proposals.slice(0, SHOWN).map(proposalOf));
  const left = reply.proposals.length - SHOWN + reply.more;
  return [make("p", {}, missing, " Any of these would help:"), list,
    left > 0 && make("p", { class: "soft" }, `And ${count(left, "other way")}.`),
    reply.note && make("p", { class: "soft" }, reply.note)].filter(Boolean);
}

function proposalOf(proposal) {
  const said = proposal.certifications.map((one) => one.said).join("; and ");
  const isEnough = proposal.amount >= state.wanted;
  return make("li", { class: isEnough ? "yes" : "part" },
    proposal.certifications.flatMap((one, at) => [at ? "; and " : "", ...sentenceOf(one)]), make("br"),
    make("span", { class: "badge" }, `${isEnough ? "✓" : "◐"} ${proposal.amount} of ${state.wanted}`), " ",
    make("button", { type: "button", class: "small", "aria-label": `Suppose it: ${said}`,
      onclick: () => suppose(proposal.certifications) }, "Suppose it"));
}

/** "Alice certifies Bob, and makes it an introducer for anyone at example.org". */
function sentenceOf(one) {
  const target = nameOf(one.target) === one.user_id ? [] : [" of ", keyLink(one.target)];
  const whom = one.domains.map((domain) => domain && `anyone at ${domain}`);
  return [keyLink(one.issuer), " certifies ", bindingLink(one.target, one.user_id_spelled, one.user_id), ...target,
    ...one.depth ? [", and ", ...introduction({ ...one, scope_words: whom })] : [],
    ...one.amount < 120 ? [", with ", word("amount"), ` ${one.amount}`] : []];
}

function suppose(certifications) {
  change({ suppose: [...state.suppose, ...certifications.map(plain)] });
  byId("answer-title").focus();
}

/** A supposition as the address and the server have it. */
const plain = ({ kind, issuer, target, user_id_spelled: spelled, depth, amount, scopes }) => ({
  kind, issuer, target, user_id_spelled: spelled, ...kind === "certifies" ? { depth, amount, scopes } : {} });

/** What is supposed, with a button that takes each away. */
export function supposedList(reply) {
  if (!state.suppose.length) return null;
  return make("div", {}, make("h3", {}, "Supposed"), make("ul", { class: "plain" }, state.suppose.map((one, at) => {
    const said = reply.supposed?.[at]?.said ?? `${nameOf(one.issuer)} ${one.kind} ${nameOf(one.target)}`;
    return make("li", {}, name(said), " ", make("button", { type: "button", class: "small",
      "aria-label": `No longer suppose: ${said}`,
      onclick: () => change({ suppose: state.suppose.filter((other) => other !== one) }) }, "take away"));
  })));
}
