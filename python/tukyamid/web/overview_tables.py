"""The tables of an overview that rest on certificates and verdicts alone: what ends soon, weak hashes, and islands."""

from collections import defaultdict
from collections.abc import Iterable
from typing import Any

from ..formats.phrases import day
from ..openpgp.signatures import DIRECT
from ..protocol.spelling import for_people
from .dump_facts import Fact, Facts

Table = dict[str, Any]
SOON = 180 * 86400
MOST_ROWS = 500
SHA1_ENDS = 1359676800  # docs/PROFILE.md, "Policy".
_NAMES = {1: "MD5", 2: "SHA-1", 3: "RIPEMD-160", 8: "SHA2-256", 9: "SHA2-384", 10: "SHA2-512", 11: "SHA2-224",
          12: "SHA3-256", 14: "SHA3-512"}
_STRONG = range(8, 15)


def table(name: str, title: str, about: str, columns: Iterable[str], rows: Iterable[Iterable[object]]) -> Table:
    """A table with its name for files, what it shows, its columns and its rows."""
    listed = [list(row) for row in rows]
    return {"name": name, "title": title, "about": about, "columns": list(columns), "rows": listed[:MOST_ROWS],
            "count": len(listed)}


def ending(facts: Facts, time: int) -> Table:
    """Keys and certifications that end within half a year."""
    rows = []
    for fpr, own in facts.self_signatures.items():
        end = _end_of_key(facts.created[fpr], own, time)
        if end is not None and time < end <= time + SOON:
            rows.append((day(end), "key", facts.name(fpr), "", fpr))
    rows += [(day(fact.ends), "certification", for_people(fact.user_id), facts.name(issuer), fact.fpr)
             for issuer, fact in facts.good if fact.ends is not None and time < fact.ends <= time + SOON]
    return table("ending", "Ending within half a year", "Keys and certifications whose validity period ends soon.",
                 ("ends", "what", "user ID", "by", "key"), sorted(rows))


def _end_of_key(created: int, own: list[Fact], time: int) -> int | None:
    """When a key ends, by its newest direct key signature, else by its newest self-signature."""
    live = [fact for fact in own if fact.made <= time and (fact.ends is None or time < fact.ends)]
    governing = [fact for fact in live if fact.kind == DIRECT] or live
    newest = max(governing, key=lambda fact: fact.made, default=None)
    return created + newest.key_lasts if newest is not None and newest.key_lasts else None


def hashes(facts: Facts) -> Table:
    """The hash algorithms of certifications by others, and how many count for nothing because of them."""
    made: defaultdict[int, list[int]] = defaultdict(list)
    for _, fact in facts.good:
        made[fact.algorithm].append(fact.made)
    rows = [(_NAMES.get(one, f"number {one}"), len(made[one]), sum(not _is_admitted(one, time) for time in made[one]),
             day(max(made[one]))) for one in sorted(made, key=lambda one: (one in _STRONG, -len(made[one])))]
    return table("hashes", "Hash algorithms", "Verified certifications of others' keys. Those by SHA-1 and RIPEMD-160 "
                 "count only if they were created before February 2013, and those by MD5 never.",
                 ("algorithm", "certifications", "too weak to count", "newest"), rows)


def _is_admitted(algorithm: int, made: int) -> bool:
    return algorithm in _STRONG or (algorithm in (2, 3) and made < SHA1_ENDS)


def islands(groups: list[list[str]], names: dict[str, str], created: dict[str, int],
            reached: frozenset[str]) -> Table:
    """Groups of keys that certify one another, and to which no path leads."""
    rows = []
    for members in groups:
        if reached.isdisjoint(members):
            first = min(members, key=created.__getitem__)
            rows.append((len(members), names[first], first))
    rows.sort(key=lambda row: (-row[0], row[1]))
    alone = sum(row[0] == 1 for row in rows)
    about = ("Groups of keys that certify one another, and to which no path from a root leads. Each is shown by its "
             f"oldest key. {alone} keys are alone in their group, at the end of the table.")
    return table("islands", "Islands without a path", about, ("keys", "oldest key's user ID", "key"), rows)


def groups(facts: Facts) -> list[list[str]]:
    """The keys, grouped by who has certified whom in either direction."""
    leader = {fpr: fpr for fpr in facts.created}

    def find(fpr: str) -> str:
        while leader[fpr] != fpr:
            leader[fpr] = leader[leader[fpr]]
            fpr = leader[fpr]
        return fpr
    for issuer, fact in facts.good:
        if leader.get(issuer, leader[fact.fpr]) != leader[fact.fpr]:  # Most of them have the same leader soon.
            leader[find(issuer)] = find(fact.fpr)
    found: defaultdict[str, list[str]] = defaultdict(list)
    for fpr in leader:
        found[find(fpr)].append(fpr)
    return list(found.values())
