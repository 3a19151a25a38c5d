// The search: as one types, by parts of user IDs, or by a key. The keyboard moves through what is found.

import { call } from "./asking.js";
import { byId, fill, make, name, short } from "./dom.js";

const PAUSE = 120;

/** Makes an input search, and its list show what is found. `chosen` is called with a binding. */
export function attachSearch(input, list, said, chosen) {
  let timer = 0;
  let found = [];
  let typed = null;  // Null when what was typed needs no search any more.
  let foundFor = "";
  let at = -1;
  let isAsking = false;

  function close() {
    list.hidden = true;
    input.setAttribute("aria-expanded", "false");
    input.removeAttribute("aria-activedescendant");
    at = -1;
  }

  function mark(to) {
    at = found.length ? (to + found.length) % found.length : -1;
    [...list.children].forEach((one, place) => one.setAttribute("aria-selected", String(place === at)));
    if (at >= 0) {
      input.setAttribute("aria-activedescendant", list.children[at].id);
      list.children[at].scrollIntoView({ block: "nearest" });
    }
  }

  function choose(place) {
    const one = found[place];
    clearTimeout(timer);
    typed = null;
    close();
    if (one) chosen(one);
  }

  function show(reply, text) {
    found = reply.found;
    foundFor = text;
    fill(list, found.map((one, place) => make("li", {
      role: "option", id: `${list.id}-${place}`, "aria-selected": "false",
      onmousedown: (event) => event.preventDefault(), onclick: () => choose(place),
    }, name(one.user_id || "(an empty user ID)"), " ", short(one.fingerprint))));
    list.hidden = !found.length;
    input.setAttribute("aria-expanded", String(!list.hidden));
    at = -1;
    const first = reply.more ? `The first ${found.length} user IDs; type more to find fewer.`
      : found.length === 1 ? "One user ID found." : `${found.length} user IDs found.`;
    fill(said, input.value.trim().length < 2 ? "" : first);
  }

  /** One search at a time: what is typed meanwhile is sought after its reply, which isn't shown then. */
  async function search() {
    if (isAsking) return;
    isAsking = true;
    const text = typed;
    try {
      const reply = await call("search", { text }, `search ${input.id}`);
      if (reply !== null && text === typed && document.activeElement === input) show(reply, text);
    } catch (failure) {
      fill(said, `The search failed: ${failure.message}.`);
    }
    isAsking = false;
    if (typed !== null && typed !== text) search();
  }

  input.addEventListener("input", () => {
    typed = input.value;
    clearTimeout(timer);
    timer = setTimeout(search, PAUSE);
  });
  input.addEventListener("keydown", (event) => {
    if (event.key === "ArrowDown" || event.key === "ArrowUp") {
      if (list.hidden && found.length) {
        list.hidden = false;
        input.setAttribute("aria-expanded", "true");
      }
      mark(event.key === "ArrowDown" ? at + 1 : at < 0 ? -1 : at - 1);
      event.preventDefault();
    } else if (event.key === "Enter") {
      if (!list.hidden && (at >= 0 || foundFor === typed)) choose(Math.max(at, 0));
      event.preventDefault();
    } else if (event.key === "Escape") {
      close();
    }
  });
  input.addEventListener("blur", close);
}

/** Makes the page's own search. */
export function attachMainSearch(chosen) {
  const input = byId("sought");
  attachSearch(input, byId("found"), byId("search-state"), (one) => {
    input.value = one.user_id;
    fill(byId("search-state"), "");
    chosen(one);
  });
}
