// User IDs in the page's address: as people write them, where that can be read back.

const ESCAPES = /\\\\|(?:\\x[89a-f][0-9a-f])+/gi;
const UNPRINTED = /[\p{C}\p{Zl}\p{Zp}]/u;

/** A user ID in the engine's spelling, with its letters instead of their octets: "Ren\xc3\xa9" is René. */
export const readable = (spelled) => spelled.replace(ESCAPES, (part) => (part === "\\\\" ? part : letters(part)));

function letters(escapes) {
  const octets = Uint8Array.from(escapes.match(/[0-9a-f]{2}/gi), (digits) => parseInt(digits, 16));
  try {
    const text = new TextDecoder("utf-8", { fatal: true, ignoreBOM: true }).decode(octets);
    return UNPRINTED.test(text) ? escapes : text;
  } catch {
    return escapes;
  }
}

/** The engine's spelling of what `readable` returns. */
export const spelled = (text) => text.replace(/[^\0-\x7f]+/gu, (part) =>
  Array.from(new TextEncoder().encode(part), (octet) => `\\x${octet.toString(16)}`).join(""));
