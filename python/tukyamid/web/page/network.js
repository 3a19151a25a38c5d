// The start: the network from the viewer's roots, with those whom no path reaches below it.

import { call } from "./asking.js";
import { beginning } from "./beginning.js";
import { byId, count, draw, fill, fitted, make, withoutAddress } from "./dom.js";
import { your } from "./everyone.js";
import { keyLink } from "./links.js";
import { addressOf, addressOfKey, isPublic, learn, nameOf, standpoint, state } from "./state.js";
import { explain } from "./tips.js";
import { HEIGHT, layOutTree, lineBetween } from "./tree_layout.js";
import { word } from "./words.js";
import { frame } from "./zoom.js";

const PAUSE = 300;
const MOST_SAID = 3;
let shownFor = "";
let latest = null;

/** Shows the network, and goes on until all of it is there. */
export async function showNetwork() {
  fill(byId("beginning"), beginning());
  const asked = { ...standpoint(), open: state.opened };
  const id = JSON.stringify(asked);
  if (id === shownFor && latest?.done) return;
  shownFor = id;
  while (state.view === "start" && id === shownFor) {
    const reply = await call("network", asked).catch((failure) => ({ failure }));
    if (reply === null || id !== shownFor) return;
    if (reply.failure) {
      shownFor = "";
      fill(byId("network-state"), make("span", { class: "warn" }, `${reply.failure.message}.`));
      return;
    }
    latest = reply;
    show(reply);
    if (reply.done) break;
    await new Promise((done) => setTimeout(done, PAUSE));
  }
  if (id === shownFor) showOthers();
}

/** Draws it again if the width has changed so much that it is laid out otherwise. */
new ResizeObserver(([entry]) => {
  const room = Math.floor(entry.contentRect.width);
  if (latest && room > 0 && byId("network").dataset.room && Math.abs(room - byId("network").dataset.room) > 24) {
    drawNetwork(latest);
  }
}).observe(byId("network"));

function show(reply) {
  learn(Object.fromEntries(reply.nodes.filter((one) => one.sort === "key").map((one) => [one.id, one.name])));
  const isKnown = reply.done || reply.total > 0;  // Else nobody has been looked for yet.
  fill(byId("counts"), isKnown && [
    countOf("yes", "✓", reply.full, "fully", word("authenticated")),
    countOf("part", "◐", reply.part, "partly", "authenticated"),
    countOf("no", "✗", reply.none, "not", "authenticated")]);
  fill(byId("network-state"), reply.done ? "" : !isKnown ? "Looking for who is authenticated…"
    : `${reply.asked.toLocaleString("en")} of `
    + `${count(reply.total, "user ID")} asked about so far…`);
  drawNetwork(reply);
}

const countOf = (sort, sign, number, ...said) => make("p", { class: `count ${sort}` },
  make("span", { class: "badge" }, `${sign} ${number.toLocaleString("en")}`), " ",
  ...said.flatMap((one) => [one, " "]));

/** How to read the picture, for somebody who sees one for the first time. */
const aboutPicture = () => [
  `Each box is a key. Lines begin at ${your} `, word("root"), ", and lead from left to right or downwards, from a key ",
  "to one that it vouches for. The ", word("amount"), " says how much trust arrives. Choose a box to see whose key it "
  + "is, who vouches for it, and whom it vouches for."];

function drawNetwork(reply) {
  const element = byId("network");
  element.hidden = !reply.nodes.length;
  fill(byId("network-about"), reply.nodes.length ? aboutPicture() : []);
  if (!reply.nodes.length) return;
  const room = Math.floor(element.getBoundingClientRect().width) - 4;
  element.dataset.room = room;
  const nodes = reply.nodes.map((node) => ({ ...node }));
  const { width, height, isWide } = layOutTree(nodes, room);
  const byName = new Map(nodes.map((node) => [node.id, node]));
  const svg = draw("svg", {
    viewBox: `0 0 ${width} ${height}`, width, height, class: "tree", role: "group",
    "aria-label": `Who vouches for whom, from ${your} roots` });
  const lines = reply.links.filter((link) => link.tree || isWide);
  for (const link of lines) svg.append(...linkOf(link, byName.get(link.from), byName.get(link.to), isWide));
  for (const node of nodes) {
    if (node.sort === "group" || String(node.parent).startsWith("group ")) {
      svg.append(draw("path", {
        class: "line folded", d: lineBetween(byName.get(node.parent), node, isWide) }));
    }
  }
  const focused = document.activeElement?.getAttribute?.("data-id");
  svg.append(...nodes.map((node) => nodeOf(node, reply.links)));
  const { area } = frame(element, svg, "The network", "network");
  if (focused) [...area.querySelectorAll("a")].find((one) => one.getAttribute("data-id") === focused)?.focus();
}

/** A line has the name of what it says; one that doesn't lead down the tree is thin. Around it is room for a finger. */
function linkOf(link, from, to, isWide) {
  const inGroup = link.tree && to.parent !== from.id;  // The line leads through the group that it is in.
  const d = inGroup ? "" : lineBetween(from, to, isWide);
  return [draw("path", { class: `line ${link.tree ? "" : "beside"}`, d }, draw("title", {}, vouches(link))),
    explain(draw("path", { class: "touch", d }), () => [saidOf(link)])];
}

const vouches = (link) => `${nameOf(link.from)} vouches for ${nameOf(link.to)}`;

/** What a line says, in a sentence. */
const saidOf = (link) => `${vouches(link)}, with amount ${link.amount}${link.depth
  ? `, and makes it an introducer (depth ${link.depth})` : ""}.`;

function nodeOf(node, links) {
  const isKey = node.sort === "key";
  const sort = !isKey ? "group" : node.root ? "root" : node.amount >= 120 ? "yes" : "part";
  const [upper, lower] = isKey ? [node.name || node.id, aboutKey(node)] : [groupName(node), aboutGroup(node)];
  const href = isKey ? addressOfKey(node.id) : addressOf({
    view: "start", opened: node.open ? state.opened.filter((one) => one !== node.opens)
      : [...state.opened, node.opens] });
  const room = node.width - 20;
  const link = draw("a", {
    href, class: `node ${sort}`, transform: `translate(${node.x} ${node.y})`, "data-id": node.id,
    "aria-label": `${upper}: ${lower}`, ...(isKey ? {} : { "aria-expanded": String(node.open) }) },
  draw("rect", { width: node.width, height: HEIGHT, rx: 9 }),
  draw("text", { x: 10, y: 18, class: "main" }, fitted(isKey ? withoutAddress(upper) : upper, room,
    13.5, 600)),
  draw("text", { x: 10, y: 35, class: "small" }, fitted(isKey ? lower : lower.replace(/(\S+) fully.*/, "✓ $1"), room,
    12)));
  return isKey ? explain(link, () => sentencesOf(node, links)) : link;
}

/** What a box says, and the lines that lead to it. */
function sentencesOf(node, links) {
  const to = links.filter((link) => link.to === node.id);
  const reached = node.amount >= 120 ? "fully authenticated" : "partly authenticated";
  return [node.name || node.id,
    node.root ? `${isPublic ? "A" : "Your"} root, with amount ${node.root}.` : `${node.amount} of 120: ${reached}.`,
    node.through > 0 && `It leads to ${count(node.through, "other key")}.`,
    ...to.slice(0, MOST_SAID).map(saidOf),
    to.length > MOST_SAID && `And ${count(to.length - MOST_SAID, "more key")}.`].filter(Boolean);
}

function aboutKey(node) {
  const said = node.root ? [`root, amount ${node.root}`] : [`${node.amount} of 120`];
  if (node.through) said.push(`leads to ${node.through.toLocaleString("en")}`);
  return said.join(", ");
}

function groupName(node) {
  if (node.label === "more") return `${count(node.count, "more key")}`;
  const at = node.label ? `${node.label}: ` : "";
  return `${at}${count(node.count, "key")}`;
}

const aboutGroup = (node) =>
  `${node.open ? "▾ click to fold" : "▸ click to open"}, ${node.full.toLocaleString("en")} fully authenticated`;

/** The keys that no path reaches, some at a time. */
async function showOthers() {
  const list = make("ul", { class: "names" });
  fill(byId("unreached"), list);
  await moreOthers(list, 0);
}

async function moreOthers(list, begin) {
  const reply = await call("others", { ...standpoint(), begin }, `others ${begin}`).catch(() => null);
  if (reply === null) return;
  learn(reply.names);
  byId("unreached-box").hidden = !reply.count;
  list.append(...reply.keys.map((fpr) => make("li", {}, keyLink(fpr))));
  const left = reply.count - begin - reply.keys.length;
  if (!left) return;
  const more = make("li", {}, make("button", {
    type: "button", class: "small", onclick: () => { more.remove(); moreOthers(list, begin + reply.keys.length); },
  }, `Show more (${count(left, "key")} left)`));
  list.append(more);
}
