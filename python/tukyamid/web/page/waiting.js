// Calls that take long: asked for again until they are done, with how far they are.

import { call } from "./asking.js";
import { fill, make } from "./dom.js";

const PAUSE = 100;

/** What a call returns in the end; null as soon as `isWanted` says that nobody waits for it any more. */
export async function waitFor(what, asked, place, isWanted) {
  for (;;) {
    const reply = await call(what, asked);
    if (reply === null || !isWanted()) return null;
    if (!("progress" in reply)) {
      fill(place);
      return reply;
    }
    fill(place, make("span", { class: "wheel", "aria-hidden": "true" }), " ", `${reply.progress}…`);
    await new Promise((done) => setTimeout(done, PAUSE));
  }
}
