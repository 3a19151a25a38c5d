"""What a signature says, read for people: dates, amounts and scopes, beside its number.

The engine alone decides what counts. This module only says more about its answers.
"""

from __future__ import annotations

from ..fast_imports import sha256
from ..protocol.spelling import for_people
from .packets import subpackets

CERTIFICATIONS = range(0x10, 0x14)
DIRECT, REVOCATION = 0x1F, 0x30
NOTATION = 20
# Octets behind the type, for each subpacket type that has an effect; None is any number of them.
_SIZES = {2: 4, 3: 4, 5: 2, 6: None, 7: 1, 9: 4, 16: 8, 25: 1, 29: None, 33: None}
# By the version before an issuer fingerprint: how many octets both have. By a signature's: the octets of a length.
_ISSUER_SIZES = {4: 21, 6: 33}
_LENGTH_SIZES = {4: 2, 6: 4}
_WITHOUT_EFFECT = {4, 11, 12, *range(21, 25), *range(26, 29), *range(30, 33), 35, 39}

Place = tuple[bytes, int, bytes]


class Said:
    """What the hashed area of a signature of version 4 or 6 says, as far as people are shown it. `kind` is None if the
    signature isn't parseable, and `unknown` names the critical subpackets that nobody here knows."""

    def __init__(self) -> None:
        self.kind: int | None = None
        self.sound = False
        self.made = self.lasts = self.key_lasts = self.depth = 0
        self.amount = 120
        self.patterns: list[bytes] = []
        self.primary = False
        self.revocable = True
        self.issuer: str | None = None
        self.key_id: str | None = None
        self.unknown: list[str] = []

    @property
    def ends(self) -> int | None:
        """When it ceases to be live, or None."""
        return self.made + self.lasts if self.lasts else None

    def is_live(self, time: int) -> bool:
        return self.sound and self.made <= time and (not self.lasts or time < self.made + self.lasts)

    def may_be_by(self, fpr: str) -> bool:
        """Whether it names this key as its issuer, or nobody."""
        return (self.issuer or fpr) == fpr and (self.key_id or key_id(fpr)) == key_id(fpr)


class Signature:
    """A signature at its place: the key's body, the number of the kind of component, and the component's body."""
    __slots__ = ("place", "body", "_number", "_said")

    def __init__(self, place: Place, body: bytes) -> None:
        self.place, self.body = place, body
        self._number: str | None = None
        self._said: Said | None = None

    @property
    def number(self) -> str:
        if self._number is None:
            self._number = signature_number(*self.place, self.body)
        return self._number

    @property
    def said(self) -> Said:
        if self._said is None:
            self._said = read_signature(self.body)
        return self._said

    def newness(self) -> tuple[int, str, bytes]:
        return self.said.made, self.number, self.body


def key_id(fpr: str) -> str:
    """The last eight octets of a version 4 fingerprint, the first eight of a version 6 one."""
    return fpr[:16] if len(fpr) == 64 else fpr[-16:]


def signature_number(key: bytes, kind: int, component: bytes, body: bytes) -> str:
    fields = b"wot1", key, bytes([kind]), component, body
    return sha256(b"".join(len(each).to_bytes(4, "big") + each for each in fields)).hexdigest()


def read_signature(body: bytes) -> Said:
    said = Said()
    try:
        if body[0] not in _LENGTH_SIZES or len(body) < 10:
            return said
        hashed, unhashed = _areas(body)
        found = list(subpackets(hashed))
    except (IndexError, ValueError):
        return said
    said.kind, said.sound = body[1], any(kind == 2 and len(content) == 4 for _, kind, content in found)
    for critical, kind, content in found:
        if not _is_known(kind, content):
            if critical:
                said.sound = False
                said.unknown.append(_unknown_name(kind, content))
        elif kind in _SIZES:
            _take(said, kind, content)
    try:
        for _, kind, content in subpackets(unhashed):
            if kind == 16 and len(content) == 8 and said.key_id is None:
                said.key_id = content.hex()
    except (IndexError, ValueError):
        pass
    return said


def _areas(body: bytes) -> tuple[bytes, bytes]:
    size = _LENGTH_SIZES[body[0]]
    hashed = 4 + size
    hashed_end = hashed + int.from_bytes(body[4:hashed], "big")
    unhashed = hashed_end + size
    unhashed_end = unhashed + int.from_bytes(body[hashed_end:unhashed], "big")
    # Two octets of the hash; in version 6 also a salt, behind its length.
    end = unhashed_end + 2 if body[0] == 4 else unhashed_end + 3 + body[unhashed_end + 2]
    if end > len(body):
        raise ValueError("a part of the signature is missing")
    return body[hashed:hashed_end], body[unhashed:unhashed_end]


def _is_known(kind: int, content: bytes) -> bool:
    if kind in _WITHOUT_EFFECT:
        return True
    if kind not in _SIZES or _SIZES[kind] not in (None, len(content)):
        return False
    if kind == 33:
        return len(content) > 0 and _ISSUER_SIZES.get(content[0]) == len(content)
    return not (kind == 29 and not content)


def _unknown_name(kind: int, content: bytes) -> str:
    """What people call a critical subpacket: a notation by its name (RFC 9580, section 5.2.3.24)."""
    if kind != NOTATION or len(content) < 8:
        return f"subpacket {kind}"
    name = content[8:8 + int.from_bytes(content[4:6], "big")]
    return "notation " + for_people(name)


def _take(said: Said, kind: int, content: bytes) -> None:
    value = int.from_bytes(content, "big")
    match kind:
        case 2: said.made = value
        case 3: said.lasts = value
        case 5: said.depth, said.amount = content
        case 6: said.patterns.append(content.removesuffix(b"\0"))
        case 7: said.revocable = value != 0
        case 9: said.key_lasts = value
        case 16: said.key_id = content.hex()
        case 25: said.primary = value != 0
        case 33: said.issuer = content[1:].hex()
