// What if a key were gone? What rests on it, with the amounts before and after.

import { call } from "./asking.js";
import { count, fill, make } from "./dom.js";
import { bindingLink } from "./links.js";
import { nameOf, standpoint } from "./state.js";

const PAUSE = 300;
const SHOWN = 20;

/** A button that asks, and the answer in its place. */
export function offerGone(element, fpr) {
  const said = make("div", { role: "status" });
  const ask = async () => {
    fill(said, make("span", { class: "wheel", "aria-hidden": "true" }), " Asking again without it…");
    try {
      for (let isAsking = true; isAsking;) {
        const reply = await call("gone", { fingerprint: fpr, ...standpoint() });
        if (reply === null) return;
        isAsking = Boolean(reply.progress);
        if (isAsking) await new Promise((done) => setTimeout(done, PAUSE));
        else fill(said, answerOf(reply, fpr));
      }
    } catch (failure) {
      fill(said, make("p", { class: "warn" }, `This couldn’t be found out: ${failure.message}.`));
    }
  };
  fill(element, make("button", { type: "button", id: "if-gone", onclick: ask }, "What if this key were gone?"), said);
}

function answerOf(reply, fpr) {
  if (!reply.count) return make("p", {}, "Nothing: no answer about another key rests on it.");
  const changed = reply.items.filter((one) => one.before !== one.after);
  const list = make("ul", { class: "gone" });
  const show = (from) => {
    list.append(...changed.slice(from, from + SHOWN).map((one) => make("li", {},
      bindingLink(one.key, one.spelled, one.user_id), " ", make("strong", {}, `${one.before} → ${one.after}`))));
    const left = changed.length - from - SHOWN;
    if (left <= 0) return;
    const more = make("li", {}, make("button", { type: "button", class: "small",
      onclick: () => { more.remove(); show(from + SHOWN); } }, `Show more (${left.toLocaleString("en")} left)`));
    list.append(more);
  };
  show(0);
  const about = `${count(reply.count, "user ID")} of others ${reply.count === 1 ? "has" : "have"} a path through `
    + `${nameOf(fpr)}.`;
  const asked = reply.asked < reply.count ? ` The first ${reply.asked} were asked about.` : "";
  const lost = !changed.length ? " Without it nothing changes: other paths are enough."
    : ` Without it ${count(reply.lost, "user ID")} would no longer be fully authenticated, and the amount of `
    + `${count(reply.changed, "user ID")} would change:`;
  return [make("p", {}, about, asked, lost), list];
}
