// The words of the web of trust, with a sentence for each, and where they are in a text.

export const MEANINGS = {
  "amount": "How much trust something carries, from 0 to 255. 120 is full trust, 60 is half of it.",
  "authenticated": "You can be confident that this name belongs to this key: paths from your roots add up to 120.",
  "certification": "A signature by which somebody vouches that a name belongs to a key.",
  "depth": "How many more steps a path may take after this one. With 0 it vouches for this one name alone.",
  "expired": "Its validity period is over, so it no longer counts.",
  "fingerprint": "The digits that name one key and no other. Compare them with the owner before you rely on a key.",
  "hash algorithm": "A signature is made over a digest of the text. With a weak algorithm, somebody can forge it.",
  "introducer": "Somebody whose certifications you rely on, because a certification on their key says so.",
  "island": "Keys that vouch for one another, and to which no path leads from your roots.",
  "issuer": "The key that made a signature.",
  "path": "Certifications from one of your roots to a key, each made by the key that the one before it certifies.",
  "regular expression": "A pattern for user IDs. A scope is given by one or more of them.",
  "revoked": "Its maker has taken it back.",
  "root": "A key that you trust yourself, usually your own. Every path begins at a root.",
  "scope": "The names for which an introducer's certifications count, such as those of one domain.",
  "user ID": "A name and an address on a key. Anybody can write any name on a key: somebody has to vouch for it.",
};

const TERM = new RegExp(`\\b(${Object.keys(MEANINGS).join("|")})s?\\b`);

/** A text in parts, alternately what is no term and what is one: the first occurrence of each term. */
export function parts(text) {
  const found = [];
  const seen = new Set();
  let plain = "";
  for (let rest = text, at; (at = TERM.exec(rest)); rest = rest.slice(at.index + at[0].length)) {
    plain += rest.slice(0, at.index);
    text = rest.slice(at.index + at[0].length);
    if (seen.has(at[1])) {
      plain += at[0];
      continue;
    }
    seen.add(at[1]);
    found.push({ text: plain, term: null }, { text: at[0], term: at[1] });
    plain = "";
  }
  return [...found, { text: plain + text, term: null }];
}

/** The terms that stand in some texts, each once. */
export const termsIn = (...texts) =>
  [...new Set(texts.flatMap(parts).map((part) => part.term).filter((term) => term !== null))];
