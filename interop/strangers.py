"""People who have nothing to do with any case: their keyring, and their certifications of those in a case. No root
reaches them, so that nothing they say may change an answer. Needs Debian's package python3-cryptography."""

from __future__ import annotations

import sys
from functools import cache

from case_files import HERE
from packets import SIGNATURE, USER_ID, Component, Packet, current

sys.path.append(str(HERE / "make"))

import signatures  # noqa: E402
from cases import certificate  # noqa: E402
from keys import Key  # noqa: E402
from octets import seconds, subpacket  # noqa: E402
from people import CERTIFIED, Person, day  # noqa: E402

XENIA, YVES, ZOE = map(Person, ("Xenia", "Yves", "Zoe"))
STATEMENTS = [
    XENIA.certifies(YVES, depth=255), YVES.certifies(ZOE, depth=1, amount=60), ZOE.certifies(XENIA, depth=255),
    YVES.certifies(XENIA, depth=2, scope=["@example.org>$"]), ZOE.certifies(YVES),
]


@cache
def keyring() -> list[bytes]:
    """The certificates of the strangers."""
    return [certificate(person, STATEMENTS) for person in (XENIA, YVES, ZOE)]


class Foreign(Key):
    """A key of somebody else, of which only the packet is known."""

    def __init__(self, body: bytes) -> None:
        super().__init__("", 0)
        self.body = body


def certified(parts: list[Component]) -> list[Component]:
    """A certificate whose user IDs a stranger certifies, each as that of a fully trusted introducer."""
    key = Foreign(parts[0].head.body)
    found = []
    for part in parts:
        if part.head.kind == USER_ID:
            body = certification(key, part.head.body)
            part = Component(part.head, (Packet(SIGNATURE, body, current(SIGNATURE, body)), *part.rest))
        found.append(part)
    return found


def certification(key: Key, user_id: bytes) -> bytes:
    """The body of a stranger's certification."""
    created, trust = subpacket(2, seconds(day(CERTIFIED))), subpacket(5, b"\xff\x78")
    hashed = created + trust + signatures.issuer_fingerprint(XENIA.key)
    spelling = signatures.Spelling(signatures.GENERIC, hashed, signatures.issuer_key_id(XENIA.key))
    return signatures.signed_by(XENIA.key, key, user_id, spelling)
