"""Signatures that nobody has made, as packets for an engine. They have no material, so they verify nowhere, and a
notation in them says what they are."""

from __future__ import annotations

from itertools import count

from ..fast_imports import TYPE_CHECKING
from ..openpgp.packets import KEY, SIGNATURE, USER_ID, packet
from ..openpgp.signatures import REVOCATION, signature_number
from .suppositions import FULL, Certifies, Revokes

if TYPE_CHECKING:
    from collections.abc import Collection

_NOTATION = b"supposed@tukyamid.invalid"
_GENERIC, _ED25519, _SHA2_512 = 0x10, 27, 10
_CREATED, _TRUST, _REGULAR_EXPRESSION, _NOTATION_DATA, _ISSUER = 2, 5, 6, 20, 33
_IS_READABLE = b"\x80\0\0\0"


class Signature:
    """A supposed signature: its octets at its place in the certificate, its number, and who is taken to have made
    it."""

    def __init__(self, key: bytes, user_id: bytes, body: bytes, issuer: str) -> None:
        self.octets = packet(KEY, key) + packet(USER_ID, user_id) + packet(SIGNATURE, body)
        self.number = signature_number(key, 1, user_id, body)
        self.issuer = issuer

    def lines(self) -> list[bytes]:
        """The lines that have an engine take it for good."""
        return [b"import " + self.octets.hex().encode(), f"verdict {self.number} good {self.issuer}".encode()]


def supposed(of: Certifies | Revokes, key: bytes, time: int, others: Collection[str] = ()) -> Signature:
    """The signature that is supposed, made at this time. Of two certifications of one second the engine takes the one
    with the greater number, so its number is greater than those of `others`."""
    least = max(others, default="")
    for attempt in count():
        made = Signature(key, of.user_id, _body(of, time, attempt), of.issuer)
        if made.number > least:
            return made
    raise AssertionError("counting never ends")


def _body(of: Certifies | Revokes, time: int, attempt: int) -> bytes:
    """A version 4 signature without material (RFC 9580, section 5.2.3)."""
    fpr = bytes.fromhex(of.issuer)
    parts = [_subpacket(_CREATED, time.to_bytes(4, "big")), _subpacket(_ISSUER, bytes([_version(fpr)]) + fpr)]
    kind = REVOCATION
    if isinstance(of, Certifies):
        kind = _GENERIC
        if (of.depth, of.amount) != (0, FULL):
            parts.append(_subpacket(_TRUST, bytes([of.depth, of.amount])))
        parts += [_subpacket(_REGULAR_EXPRESSION, scope + b"\0") for scope in of.scopes]
    value = b"%d" % attempt
    sizes = len(_NOTATION).to_bytes(2, "big") + len(value).to_bytes(2, "big")
    parts.append(_subpacket(_NOTATION_DATA, _IS_READABLE + sizes + _NOTATION + value))
    area = b"".join(parts)
    return bytes([4, kind, _ED25519, _SHA2_512]) + len(area).to_bytes(2, "big") + area + b"\0\0\0\0"


def _version(fpr: bytes) -> int:
    """The version of a key by the size of its fingerprint."""
    return 6 if len(fpr) == 32 else 4


def _subpacket(kind: int, content: bytes) -> bytes:
    return b"\xff" + (len(content) + 1).to_bytes(4, "big") + bytes([kind]) + content
