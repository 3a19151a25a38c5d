"""What a signature of version 4 or 6 says (RFC 9580, section 5.2.3), and the policy on hash algorithms."""

from dataclasses import dataclass
from functools import lru_cache

CREATED, EXPIRATION, TRUST, PATTERN, REVOCABLE, KEY_EXPIRATION = 2, 3, 5, 6, 7, 9
ISSUER_KEY_ID, PRIMARY, REASON, ISSUER = 16, 25, 29, 33
OTHER_KNOWN = {4, 11, 12, 21, 22, 23, 24, 26, 27, 28, 30, 31, 32, 35, 39}

# How many octets follow the type of a known subpacket.
SIZES = {CREATED: 4, EXPIRATION: 4, TRUST: 2, REVOCABLE: 1, KEY_EXPIRATION: 4, ISSUER_KEY_ID: 8, PRIMARY: 1}

# How many octets an issuer fingerprint has together with the version in front of it.
ISSUER_SIZES = {4: 21, 6: 33}

# How many octets the length of an area has, by the version of the signature.
LENGTH_SIZES = {4: 2, 6: 4}

CERTIFICATIONS = range(0x10, 0x14)
DIRECT_KEY, KEY_REVOCATION, SUBKEY_REVOCATION, CERTIFICATION_REVOCATION = 0x1F, 0x20, 0x28, 0x30
REVOCATIONS = {KEY_REVOCATION, SUBKEY_REVOCATION, CERTIFICATION_REVOCATION}
SOFT_REASONS = {1, 3, 32}

ALWAYS_ADMITTED = {8, 9, 10, 11, 12, 14}
ADMITTED_UNTIL_2013 = {2, 3}
FEBRUARY_2013 = 1359676800


class AreaFault(Exception):
    """The octets aren't a list of subpackets."""


@dataclass(frozen=True)
class Facts:
    """What the hashed area says. Without a creation time `made` is 0, and the signature isn't well-formed."""

    kind: int
    hash: int
    sound: bool
    made: int
    lasts: int
    key_lasts: int
    depth: int
    amount: int
    patterns: tuple
    revocable: bool
    primary: bool
    reason: int | None
    issuer: bytes | None

    def is_live(self, time):
        return self.made <= time and (self.lasts == 0 or time < self.made + self.lasts)

    def is_certification(self):
        return self.kind in CERTIFICATIONS

    def is_hard(self):
        """Whether a revocation of a key holds at all times."""
        return self.reason not in SOFT_REASONS

    def is_admitted(self):
        """Whether the standard policy admits the hash algorithm for this signature type and creation time."""
        if self.hash in ADMITTED_UNTIL_2013:
            return self.kind in REVOCATIONS or self.made < FEBRUARY_2013
        return self.hash in ALWAYS_ADMITTED


@lru_cache(maxsize=None)
def read_signature(body):
    """What a signature says; None if it isn't parseable."""
    if len(body) < 6 or body[0] not in LENGTH_SIZES:
        return None
    areas = cut_areas(body)
    if areas is None:
        return None
    try:
        subpackets = read_area(areas[0])
    except AreaFault:
        return None
    return facts_of(body[1], body[3], subpackets)


def cut_areas(body):
    """The hashed and the unhashed area; None if a part of the signature is missing."""
    size = LENGTH_SIZES[body[0]]
    areas = []
    at = 4
    for _ in range(2):
        length = body[at : at + size]
        begin = at + size
        at = begin + int.from_bytes(length, "big")
        if len(length) < size or at > len(body):
            return None
        areas.append(body[begin:at])
    return areas if at + 2 <= len(body) and has_salt(body[0], body[at + 2 :]) else None


def has_salt(version, octets):
    """Whether what has to follow the two octets of the hash is there: in version 6 the salt and its length."""
    return version == 4 or len(octets) > 0 and len(octets) > octets[0]


def read_area(octets):
    """The subpackets of an area: whether each is critical, its type, and the octets after its type."""
    subpackets = []
    at = 0
    while at < len(octets):
        begin, length = read_subpacket_length(octets, at)
        at = begin + length
        if length == 0 or at > len(octets):
            raise AreaFault
        kind = octets[begin]
        subpackets.append((bool(kind & 0x80), kind & 0x7F, octets[begin + 1 : at]))
    return subpackets


def read_subpacket_length(octets, at):
    first = octets[at]
    count = 1 if first < 192 else 2 if first < 255 else 5
    if at + count > len(octets):
        raise AreaFault
    if count == 1:
        return at + 1, first
    if count == 2:
        return at + 2, (first - 192) * 256 + octets[at + 1] + 192
    return at + 5, int.from_bytes(octets[at + 1 : at + 5], "big")


def is_known(kind, content):
    if kind in OTHER_KNOWN or kind == PATTERN:
        return True
    if kind == REASON:
        return len(content) >= 1
    if kind == ISSUER:
        return len(content) > 0 and ISSUER_SIZES.get(content[0]) == len(content)
    return SIZES.get(kind) == len(content)


def facts_of(kind, hash_number, subpackets):
    known = [(name, content) for _, name, content in subpackets if is_known(name, content)]
    faulty = any(critical and not is_known(name, content) for critical, name, content in subpackets)
    last = dict(known)

    def number(name):
        return int.from_bytes(last.get(name, b""), "big")

    trust = last.get(TRUST, bytes([0, 120]))
    return Facts(
        kind=kind,
        hash=hash_number,
        sound=not faulty and CREATED in last,
        made=number(CREATED),
        lasts=number(EXPIRATION),
        key_lasts=number(KEY_EXPIRATION),
        depth=trust[0],
        amount=trust[1],
        patterns=tuple(content.removesuffix(b"\0") for name, content in known if name == PATTERN),
        revocable=last.get(REVOCABLE) != b"\0",
        primary=number(PRIMARY) != 0,
        reason=last[REASON][0] if REASON in last else None,
        issuer=last[ISSUER][1:] if ISSUER in last else None,
    )


def key_id_hint(body):
    """The last issuer key ID of the hashed area, else of the unhashed area if that is a list of subpackets. None if
    there is none or the signature isn't parseable."""
    if read_signature(body) is None:
        return None
    for area in cut_areas(body):
        try:
            known = {kind: content for _, kind, content in read_area(area) if is_known(kind, content)}
        except AreaFault:
            known = {}
        if ISSUER_KEY_ID in known:
            return known[ISSUER_KEY_ID]
    return None
