// Scopes in words: whom an introducer is trusted for. What isn't a domain's stays a regular expression.

import { count, make } from "./dom.js";
import { word } from "./words.js";

/** As nodes: "anyone at example.org". */
export const scopeNodes = (one) => one.scopes.flatMap((pattern, at) => [
  at ? " or " : "", one.scope_words?.[at] ?? make("code", {}, pattern)]);

/** As a text. */
export const scopeText = (one) => one.scopes.map((pattern, at) => one.scope_words?.[at] ?? pattern).join(" or ");

/** "makes it an introducer for anyone at example.org". */
export function introduction(one) {
  const whom = one.scopes.length ? scopeNodes(one) : ["everyone"];
  const further = one.depth === 1 ? "" : one.depth >= 255 ? ", who may make others introducers without end"
    : `, who may make others introducers, ${count(one.depth - 1, "step")} further`;
  return ["makes it an ", word("introducer"), " for ", ...whom, further];
}
