"""The rows that the tables have for a certificate, made from the octets that the engine exports."""

import contextlib
import hashlib
import re
from binascii import hexlify
from collections.abc import Iterator
from dataclasses import dataclass, field

from tukyamid.openpgp.addresses import address_of
from tukyamid.openpgp.certificates import (ATTRIBUTE, CERTIFICATIONS, KEY, SIGNATURE, SUBKEY, USER_ID, key_fingerprint,
                                           key_id, packets, read_signature)

from .read_ahead import OfALine

_PLACES = {KEY: 0, USER_ID: 1, ATTRIBUTE: 2, SUBKEY: 3}
# A trust signature has a subpacket of three octets, the first of which is its type, critical or not.
_TRUST = re.compile(rb"\x03[\x05\x85]")


@dataclass
class Described:
    """A certificate's fingerprint, its user IDs with their addresses, its signatures' numbers and depths, and the key
    IDs of its subkeys."""
    fpr: bytes
    key_id: bytes
    subkeys: set[bytes] = field(default_factory=set)
    user_ids: dict[bytes, str | None] = field(default_factory=dict)
    signatures: dict[bytes, int] = field(default_factory=dict)


def describe(octets: bytes) -> Described:
    """Reads one certificate; ValueError where the octets aren't one."""
    described: Described | None = None
    key = component = b""
    place, numbering = 0, hashlib.sha256()
    for kind, body in packets(octets):
        if kind in _PLACES:
            if kind == KEY:
                key = body
                fpr = key_fingerprint(body)
                described = Described(bytes.fromhex(fpr), bytes.fromhex(key_id(fpr)))
            place, component = _PLACES[kind], b"" if kind == KEY else body
            numbering = _framed(hashlib.sha256(), b"wot1", key, bytes([place]), component)
            if kind == USER_ID and described is not None:
                described.user_ids[body] = address_of(body)
            elif kind == SUBKEY and described is not None:
                described.subkeys.update(bytes.fromhex(key_id(fpr)) for fpr in _fingerprint_of(body))
        elif kind == SIGNATURE and described is not None:
            number = _framed(numbering.copy(), body).digest()
            described.signatures[number] = _depth((key, place, component), body)
    if described is None:
        raise ValueError("no key")
    return described


def keys_of(octets: bytes) -> list[str]:
    """The fingerprints of a certificate's key and of its subkeys."""
    return [fpr for kind, body in packets(octets) if kind in (KEY, SUBKEY) for fpr in _fingerprint_of(body)]


def _fingerprint_of(key: bytes) -> Iterator[str]:
    """The fingerprint of a key's body, if it has one: of version 4 or 6, and no longer than a fingerprint can say."""
    if key[:1] in (b"\4", b"\6"):
        with contextlib.suppress(ValueError):
            yield key_fingerprint(key)


def _framed(digest: "hashlib._Hash", *fields: bytes) -> "hashlib._Hash":
    for each in fields:
        digest.update(len(each).to_bytes(4, "big") + each)
    return digest


def _depth(place: tuple[bytes, int, bytes], body: bytes) -> int:
    """The depth of a trust signature on a user ID; 0 for any other signature."""
    if place[1] != 1 or not _TRUST.search(body):
        return 0
    said = read_signature(body)
    return said.depth if said.kind in CERTIFICATIONS else 0


def _brought(line: bytes) -> tuple[bytes, ...]:
    """The fingerprints of the certificates that a line imports."""
    if not line.startswith(b"import "):
        return ()
    try:
        return tuple(fingerprints(bytes.fromhex(line[7:].decode())))
    except (ValueError, IndexError):
        return ()  # The engine refuses such a line.


def _exports(line: bytes) -> bytes:
    """Lines that ask for all certificates that a line imports."""
    return b"\n".join([b"export " + hexlify(fpr) for fpr in brought(line)])


brought = OfALine(_brought)
exports = OfALine(_exports)


def fingerprints(octets: bytes) -> Iterator[bytes]:
    """The fingerprints of the keys in these octets that have one; ValueError where a packet is malformed."""
    seen = set()
    for kind, body in packets(octets):
        for fpr in map(bytes.fromhex, _fingerprint_of(body) if kind == KEY else ()):  # The engine skips other keys.
            if fpr not in seen:
                seen.add(fpr)
                yield fpr
