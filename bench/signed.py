"""A network of certificates whose signatures are real, made from a seed: Ed25519 keys, as gpg makes them. For what
verifies them.

Each certificate has one user ID, the key's own certification, and some by other keys. A key's material is the digest of
the seed and of its place, so that any part of a network can be made alone.
"""

import hashlib
import random
from collections.abc import Iterator, Sequence
from functools import lru_cache
from multiprocessing import get_context

from cryptography.hazmat.primitives.asymmetric.ed25519 import Ed25519PrivateKey
from cryptography.hazmat.primitives.serialization import Encoding, PublicFormat

import developer

CREATED = 1_400_000_000
_CURVE = bytes.fromhex("092b06010401da470f01")
_PIECE = 500


class SignedNetwork:
    """`count` certificates, by their places from 0, each certified by `certifications` others. Which they are depends
    on the arguments alone."""

    def __init__(self, count: int, certifications: int = 10, seed: int = 1) -> None:
        self.count = count
        self._certifications = certifications
        self._seed = seed
        self._secret = lru_cache(4096)(self._made_secret)

    def _made_secret(self, place: int) -> tuple[Ed25519PrivateKey, bytes, bytes]:
        """The secret key of a place, its public key's body, and its fingerprint."""
        secret = Ed25519PrivateKey.from_private_bytes(hashlib.sha256(b"%d %d" % (self._seed, place)).digest())
        point = secret.public_key().public_bytes(Encoding.Raw, PublicFormat.Raw)
        key = b"\x04" + (CREATED + place).to_bytes(4, "big") + b"\x16" + _CURVE + _number(b"\x40" + point)
        return secret, key, developer.fingerprint(key)

    def fingerprint(self, place: int) -> bytes:
        return self._secret(place)[2]

    def certificate(self, place: int) -> bytes:
        """A few keys certify much, as on a keyserver."""
        draw = random.Random(self._seed * 1_000_003 + place)
        issuers = [int(self.count * draw.random() ** 2) for _ in range(self._certifications)]
        return b"".join(self.packets(place, [place, *issuers]))

    def packets(self, place: int, issuers: Sequence[int]) -> Iterator[bytes]:
        """The packets of a certificate: key, user ID, and a certification by each of these."""
        _, key, _ = self._secret(place)
        user_id = b"User %d <u%d@example.org>" % (place, place)
        yield developer.packet(6, key)
        yield developer.packet(13, user_id)
        for number, issuer in enumerate(issuers):
            yield developer.packet(2, self._signature(key, user_id, issuer, number))

    def _signature(self, key: bytes, user_id: bytes, issuer: int, number: int) -> bytes:
        secret, _, fpr = self._secret(issuer)
        made = (CREATED + 100_000_000 + number).to_bytes(4, "big")
        hashed = b"\x05\x02" + made + b"\x16\x21\x04" + fpr
        front = bytes([4, 0x10 if number else 0x13, 22, 8]) + len(hashed).to_bytes(2, "big") + hashed
        digest = hashlib.sha256(b"\x99" + len(key).to_bytes(2, "big") + key + b"\xb4" + len(user_id).to_bytes(4, "big")
                                + user_id + front + b"\x04\xff" + len(front).to_bytes(4, "big")).digest()
        signed = secret.sign(digest)
        return front + b"\x00\x0a\x09\x10" + fpr[-8:] + digest[:2] + _number(signed[:32]) + _number(signed[32:])

    def pieces(self) -> Iterator[bytes]:
        """All certificates in order, some at a time. Every processor makes some of them."""
        with get_context("fork").Pool(initializer=_networks.append, initargs=(self,)) as pool:
            yield from pool.imap(_piece, range(0, self.count, _PIECE))


_networks: list[SignedNetwork] = []


def _piece(first: int) -> bytes:
    network = _networks[-1]
    return b"".join(map(network.certificate, range(first, min(first + _PIECE, network.count))))


def _number(octets: bytes) -> bytes:
    """A multiprecision integer."""
    value = int.from_bytes(octets, "big")
    length = value.bit_length()
    return length.to_bytes(2, "big") + value.to_bytes((length + 7) // 8, "big")
