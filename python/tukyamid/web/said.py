"""What a certification says, as the page shows it. Scopes are said in words too, where they are a domain's.

>>> in_words(rb"<[^>]+[@.]my\\-example\\.org>$"), in_words(rb"<[^>]+@example\\.org>$"), in_words(b"^Carol")
('anyone at my-example.org', 'anyone at example.org, but not below it', None)
"""

import re
from typing import Any

from ..formats.phrases import scopes
from ..keyrings.assessment import Certification
from ..protocol.spelling import for_people, write_user_id

# What gpg, sq and PGP write for a domain: addresses there and below it, or there alone.
_DOMAIN = re.compile(rb"<\[\^>\]\+(\[@\.\]|@)((?:[A-Za-z0-9_-]|\\[._-])+)>\$")


def said_of(one: Certification) -> dict[str, Any]:
    """What a certification says, for the page."""
    return {"user_id": for_people(one.user_id), "spelled": write_user_id(one.user_id), "depth": one.depth,
            "amount": one.amount, "made": one.made, "ends": one.ends, "scopes": scopes(one),
            "scope_words": [in_words(pattern) for pattern in one.scopes], "signature": one.number,
            "supposed": one.supposed}


def in_words(pattern: bytes) -> str | None:
    """Whom a regular expression means; None if that can't be said in a few words."""
    found = _DOMAIN.fullmatch(pattern)
    if found is None:
        return None
    domain = found[2].replace(b"\\", b"").decode("ascii")
    return f"anyone at {domain}" + ("" if found[1] == b"[@.]" else ", but not below it")
