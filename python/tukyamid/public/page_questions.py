"""The calls of the page, as they are spelled in addresses: what is asked is JSON, in the parameter `q`."""

from __future__ import annotations

import json
import time
from collections.abc import Mapping
from typing import Any

from .api_questions import MOST_ROOTS, Question, now_rounded, read_pairs
from .root_sets import Sets, set_named

# What the page can ask here. What changes something, or belongs to the owner of a keyring, isn't among these.
CALLS = frozenset({"search", "answer", "reasons", "moments", "changes", "key", "vouched", "reach", "life", "qr",
                   "proof", "network", "others", "gone", "plan"})
# What starts a program of its own, or reads much.
_LONG = frozenset({"reach", "proof", "network", "others", "gone", "plan"})
LONGEST, MOST_NESTED = 6000, 500


def read_page_question(call: str, query: str, sets: Sets) -> Question:
    """A question of the page. ValueError says what is wrong with it; a worker checks the rest."""
    pairs = read_pairs(query, LONGEST)
    if len(pairs) != 1 or pairs[0][0] != "q":
        raise ValueError("a call of the page has one parameter, q")
    if sum(map(pairs[0][1].count, "[{")) > MOST_NESTED:
        raise ValueError("the question has too many lists and objects")
    asked = json.loads(pairs[0][1])
    if not isinstance(asked, dict):
        raise ValueError("the question is no object")
    own = asked.get("roots", [])
    if "set" in asked:
        roots = set_named(sets, asked.pop("set"))
        asked["roots"] = [{"fingerprint": fpr, "amount": amount} for fpr, amount in roots.items()]
    elif not isinstance(own, list) or len(own) > MOST_ROOTS:
        raise ValueError(f"roots isn't a list of at most {MOST_ROOTS} roots")
    return Question(f"page/{call}", 0, (), json.dumps(asked, sort_keys=True), call in _LONG or _supposes(asked))


def _supposes(asked: Mapping[str, Any]) -> bool:
    """Whether something is left out or added, which takes an engine of its own."""
    return bool(asked.get("without") or asked.get("suppose"))


def begin_of(sets: Sets) -> Question:
    """What the page begins with: the sets of roots, the default one first, and the present."""
    named = [[name, dict(roots)] for name, roots in sets.items()]
    asked = {"time": now_rounded(time.time()), "sets": named}
    return Question("page/begin", 0, (), json.dumps(asked))
