// How far an answer gets that isn't reached: chains from the roots to the key, and where each of them breaks.

import { call } from "./asking.js";
import { byId, count, curly, draw, fill, fitted, make, name, withoutAddress } from "./dom.js";
import { your } from "./everyone.js";
import { keyLink } from "./links.js";
import { scopeText } from "./scopes.js";
import { addressOfKey, learn, nameOf, state, subject } from "./state.js";
import { explain } from "./tips.js";
import { HEIGHT, layOutTree, lineBetween } from "./tree_layout.js";
import { explained } from "./words.js";
import { frame } from "./zoom.js";

/** Shows it below an answer; nothing if the answer is reached. */
export async function showReach(answer) {
  const isAsked = !answer.reached && !state.without.length && !state.suppose.length;
  byId("reach-box").hidden = !isAsked;
  if (!isAsked) return;
  fill(byId("reach"), make("p", { class: "soft waiting", role: "status" }, "Looking for where it breaks…"));
  try {
    const reply = await call("reach", subject());
    if (reply === null || state.view !== "ask") return;
    learn(reply.names);
    fill(byId("reach"), ...shownOf(reply));
    if (reply.chains.length) drawChains(byId("reach-picture"), reply);
  } catch (failure) {
    fill(byId("reach"), make("p", { class: "warn" }, `This couldn’t be found out: ${failure.message}.`));
  }
}

function shownOf(reply) {
  if (reply.target) return [make("p", {}, ...explained(`Nobody can vouch for it now: ${reply.target}.`))];
  if (!reply.chains.length) {
    return [make("p", {}, reply.amount ? "Nobody else has certified this user ID."
      : "Nobody has certified this user ID, so no path can lead here.")];
  }
  return [
    make("p", {}, reply.amount ? `${reply.wanted - reply.amount} are missing. These ways break:`
      : "These are the ways that come nearest. Each breaks somewhere:"),
    make("div", { id: "reach-picture", class: "frame" }),
    make("ol", { class: "breaks" }, reply.chains.map((chain) => make("li", {}, ...sentenceOf(chain)))),
    reply.more > 0 && make("p", { class: "soft" }, `And ${count(reply.more, "more way")}.`)].filter(Boolean);
}

/** "Alice → Bob → Frank: what Bob says of Frank has expired". */
function sentenceOf(chain) {
  const keys = chain.keys.flatMap((key, at) => [at ? " → " : "", keyLink(key)]);
  const broken = chain.steps.filter((step) => step.broken);
  const start = chain.from_root ? [] : [make("strong", {}, `No certification leads from ${your} roots to `),
    keyLink(chain.keys[0]), ". "];
  const why = broken.flatMap((step) => [" ✗ ", ...whyOf(step), "."]);
  return [...start, ...keys, make("br"), make("span", { class: "no" }, ...why.length || start.length ? why
    : [" ✗ Other paths have used up its amount."])];
}

/** Why a step breaks the way, in words. */
function whyOf(step) {
  const [issuer, target] = [step.issuer, step.target].map((key) => name(shortName(key)));
  const first = step.certifications.find((one) => one.word !== "edge") ?? step.certifications[0];
  switch (step.broken) {
    case "uncounted": return ["What ", issuer, " says of ", target, ...explained(` doesn’t count: ${first.meaning}`)];
    case "depth": return Math.max(...step.certifications.map((one) => one.depth)) === 0
      ? [issuer, " vouches for ", target, ...explained(", but doesn’t make it an introducer")]
      : [issuer, " makes ", target, ...explained(" an introducer, but for fewer steps than follow")];
    case "scope": return [issuer, " relies on ", target, " only for ",
      step.certifications.map(scopeText).filter(Boolean).join(" or "), ", and ", name(state.binding.user_id),
      " isn’t"];
    case "other": return [issuer, " vouches for another user ID of this key"];
    case "absent": return ["The key of ", target, " isn’t in the keyring"];
    default: return [issuer, " says nothing of ", target, " that a path could use"];
  }
}

const shortName = (key) => withoutAddress(nameOf(key));

/** The chains as a tree from the left; those with the same beginning share it. */
function drawChains(element, reply) {
  const nodes = [];
  for (const chain of reply.chains) {
    let parent = null;
    chain.keys.forEach((key, at) => {
      const id = `${parent ?? (chain.from_root ? "" : "apart ")} ${key}`;
      if (!nodes.some((one) => one.id === id)) {
        const step = at ? chain.steps[at - 1] : null;
        const apart = !at && !chain.from_root;
        const before = nodes.find((one) => one.id === parent);
        nodes.push({ id, key, parent, step, apart, isBroken: apart || Boolean(step?.broken),
          isLost: Boolean(before?.isBroken || before?.isLost) });
      }
      parent = id;
    });
  }
  const room = Math.floor(element.getBoundingClientRect().width) - 4;
  const { width, height, isWide } = layOutTree(nodes, room);
  const byName = new Map(nodes.map((node) => [node.id, node]));
  const svg = draw("svg", {
    viewBox: `0 0 ${width} ${height}`, width, height, class: "tree", role: "group",
    "aria-label": "How far it gets, drawn. The list below says the same." });
  for (const node of nodes.filter((one) => one.parent)) {
    svg.append(draw("path", { class: `line ${node.isBroken ? "broken" : ""}`,
      d: lineBetween(byName.get(node.parent), node, isWide) }));
  }
  svg.append(...nodes.map(boxOf));
  frame(element, svg, "How far it gets", "how-far");
}

function boxOf(node) {
  const root = state.roots.find((one) => one.fingerprint === node.key);
  const said = node.apart ? "✗ no way leads here" : root ? `root, amount ${root.amount}`
    : node.isBroken ? `✗ ${briefly(node.step)}` : node.isLost ? "○ not reached" : "✓ so far";
  const sort = node.isBroken ? "no" : root ? "root" : node.isLost ? "idle" : "yes";
  const called = shortName(node.key);
  return explain(draw("a", {
    href: addressOfKey(node.key), class: `node ${sort}`,
    transform: `translate(${node.x} ${node.y})`, "aria-label": `${called}: ${said}` },
  draw("rect", { width: node.width, height: HEIGHT, rx: 9 }),
  draw("text", { x: 10, y: 18, class: "main" }, fitted(called, node.width - 20, 13.5, 600)),
  draw("text", { x: 10, y: 35, class: "small" }, fitted(said, node.width - 20, 12))),
  () => [nameOf(node.key), `${said}.`]);
}

function briefly(step) {
  const first = step.certifications.find((one) => one.word !== "edge") ?? step.certifications[0];
  return { uncounted: first && curly(first.meaning), depth: "not made an introducer this far",
    scope: "outside of the scope", other: "another user ID", absent: "not in the keyring", none: "no certification",
    amount: "amount 0" }[step.broken] ?? "breaks";
}
