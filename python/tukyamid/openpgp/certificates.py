"""What a certificate says, read for people: its user IDs, and the signatures on them."""

from __future__ import annotations

from ..fast_imports import TYPE_CHECKING, sha1, sha256
from .packets import ATTRIBUTE, KEY, SIGNATURE, SUBKEY, USER_ID, packets
from .signatures import CERTIFICATIONS, Signature, key_id, read_signature, signature_number

if TYPE_CHECKING:
    from collections.abc import Iterator

__all__ = ["ATTRIBUTE", "CERTIFICATIONS", "Certificate", "KEY", "SIGNATURE", "SUBKEY", "Signature", "USER_ID",
           "bindings_of", "key_fingerprint", "key_id", "packets", "read_certificate", "read_signature",
           "signature_number"]

_LONGEST_V4 = 0xFFFF


class Certificate:
    """A key, its direct signatures, and its user IDs with theirs."""

    def __init__(self, key: bytes) -> None:
        self.key, self.fpr = key, key_fingerprint(key)
        self.created = int.from_bytes(key[1:5], "big")
        self.direct: list[Signature] = []
        self.user_ids: dict[bytes, list[Signature]] = {}
        self._by_number: dict[bytes, dict[str, Signature]] = {}

    def signature(self, user_id: bytes, number: str) -> Signature | None:
        """The signature of this number on a user ID; None if there is none."""
        if user_id not in self._by_number:
            self._by_number[user_id] = {one.number: one for one in self.user_ids.get(user_id, ())}
        return self._by_number[user_id].get(number)

    def signatures_by_itself(self, signatures: list[Signature]) -> list[Signature]:
        """Those of some signatures that name this key as their issuer, which says nothing about who made them."""
        hint = bytes.fromhex(key_id(self.fpr))
        return [one for one in signatures if hint in one.body and one.said.may_be_by(self.fpr)]


def key_fingerprint(body: bytes) -> str:
    """The fingerprint of a key; ValueError if it is too long to have one (RFC 9580, section 5.5.4.2)."""
    if body[:1] == b"\6":
        return sha256(b"\x9b" + len(body).to_bytes(4, "big") + body).hexdigest()
    if len(body) > _LONGEST_V4:
        raise ValueError("a key of version 4 is longer than its fingerprint can say")
    return sha1(b"\x99" + len(body).to_bytes(2, "big") + body).hexdigest()


def read_certificate(octets: bytes) -> Certificate:
    """The certificate that the engine exported; ValueError if the octets don't begin with a key."""
    certificate, key, place, component = None, b"", 0, b""
    signatures: list[Signature] | None = None
    for kind, body in packets(octets):
        if kind == KEY:
            certificate, key, place, component = Certificate(body), body, 0, b""
            signatures = certificate.direct
        elif certificate is None:
            break
        elif kind == USER_ID:
            place, component, signatures = 1, body, certificate.user_ids.setdefault(body, [])
        elif kind in (ATTRIBUTE, SUBKEY):
            signatures = None
        elif kind == SIGNATURE and signatures is not None:
            signatures.append(Signature((key, place, component), body))
    if certificate is None:
        raise ValueError("the octets don't begin with a key")
    return certificate


def bindings_of(octets: bytes) -> Iterator[tuple[str, bytes]]:
    """The fingerprint and the user IDs of each certificate that the engine took: pairs, in packet order."""
    fpr = None
    for kind, body in packets(octets):
        if kind == KEY:
            fpr = key_fingerprint(body)
        elif kind == USER_ID and fpr is not None:
            yield fpr, body
