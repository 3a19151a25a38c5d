"""Signatures of versions 4 and 6: what is hashed, and the packet's body (RFC 9580, sections 5.2.3 and 5.2.4)."""

import hashlib
from dataclasses import dataclass

from keys import Key
from octets import seconds, subpacket

GENERIC, PERSONA, CASUAL, POSITIVE = 0x10, 0x11, 0x12, 0x13
DIRECT, KEY_REVOCATION, CERTIFICATION_REVOCATION = 0x1F, 0x20, 0x30
MD5, SHA1, RIPEMD160, SHA256, SHA384, SHA512, SHA224, SHA3_256, SHA3_512 = 1, 2, 3, 8, 9, 10, 11, 12, 14
NAMES = {MD5: "md5", SHA1: "sha1", RIPEMD160: "ripemd160", SHA256: "sha256", SHA384: "sha384", SHA512: "sha512",
         SHA224: "sha224", SHA3_256: "sha3_256", SHA3_512: "sha3_512"}  # fmt: skip
SALTS = {SHA256: 16, SHA384: 24, SHA512: 32, SHA224: 16, SHA3_256: 16, SHA3_512: 32}


@dataclass(frozen=True)
class Spelling:
    """How a signature is made: its type, areas, hash algorithm, version (its issuer's, unless it says another), and
    the version in whose form it hashes the key (its own, unless it says another)."""

    kind: int
    hashed: bytes
    unhashed: bytes = b""
    hash: int = SHA256
    version: int | None = None
    frame: int | None = None


def signed_by(issuer: Key, target: Key, user_id: bytes | None, spelling: Spelling) -> bytes:
    """The body of a signature on a key, or on a user ID of the key."""
    version = spelling.version or issuer.version
    signed = framed(target, spelling.frame or version)
    if user_id is not None:
        signed += b"\xb4" + seconds(len(user_id)) + user_id
    return over(issuer, signed, spelling)


def over(issuer: Key, signed: bytes, spelling: Spelling) -> bytes:
    """The body of a signature over octets, which are hashed as they stand."""
    version = spelling.version or issuer.version
    size = 4 if version == 6 else 2
    head = bytes([version, spelling.kind, issuer.algorithm, spelling.hash])
    head += len(spelling.hashed).to_bytes(size, "big") + spelling.hashed
    salt = hashlib.shake_256(signed + head).digest(SALTS[spelling.hash]) if version == 6 else b""
    digest = hashlib.new(NAMES[spelling.hash], salt + signed + head + bytes([version, 0xFF]) + seconds(len(head)))
    body = head + len(spelling.unhashed).to_bytes(size, "big") + spelling.unhashed + digest.digest()[:2]
    if version == 6:
        body += bytes([len(salt)]) + salt
    return body + issuer.sign(digest.digest(), spelling.hash)


def framed(key: Key, version: int) -> bytes:
    """A key as a signature of a version hashes it, whatever the key's own version is."""
    if version == 6:
        return b"\x9b" + seconds(len(key.body)) + key.body
    return b"\x99" + len(key.body).to_bytes(2, "big") + key.body


def issuer_fingerprint(key: Key) -> bytes:
    return subpacket(33, bytes([key.version]) + key.fingerprint)


def issuer_key_id(key: Key) -> bytes:
    return subpacket(16, key.id)
