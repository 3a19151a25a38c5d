"""Small certificates for large random keyrings: each a key with one user ID, certified as a bench says."""

import random
from collections.abc import Iterable, Iterator

from developer import fingerprint, number, packet

MADE = 1400000000
# A signature's packet, its number and its issuer.
Signed = tuple[bytes, str, bytes]


def signature(kind: int, made: int, issuer: bytes, extra: bytes = b"") -> bytes:
    hashed = b"\x05\x02" + made.to_bytes(4, "big") + extra + b"\x16\x21\x04" + issuer
    return bytes([4, kind, 27, 8]) + len(hashed).to_bytes(2, "big") + hashed + bytes(4)


class Certificate:
    """A key with one user ID, and its signatures."""

    def __init__(self, draw: random.Random, index: int) -> None:
        self.key = b"\x04" + (1000000000 + index).to_bytes(4, "big") + b"\x1b" + draw.randbytes(32)
        self.fpr, self.user_id = fingerprint(self.key), b"u%d" % index
        self.direct = self.signed(0, b"", 0x1F, MADE, self.fpr)
        self.signatures: list[Signed] = []

    def signed(
        self, place: int, component: bytes, kind: int, made: int, issuer: bytes, extra: bytes = b""
    ) -> Signed:
        body = signature(kind, made, issuer, extra)
        return packet(2, body), number(self.key, place, component, body), issuer

    def certify(self, made: int, issuer: bytes, extra: bytes = b"") -> Signed:
        self.signatures.append(self.signed(1, self.user_id, 0x10, made, issuer, extra))
        return self.signatures[-1]

    def line(self) -> bytes:
        packets = [packet(6, self.key), self.direct[0], packet(13, self.user_id)]
        packets += [each[0] for each in self.signatures]
        return b"import %s\n" % b"".join(packets).hex().encode()


def random_keyring(size: int, certifications: int) -> list[Certificate]:
    """Certificates, each with certifications by any others, of depths 0 to 3 and the full amount."""
    draw = random.Random(size)
    certificates = [Certificate(draw, index) for index in range(size)]
    for certificate in certificates:
        for turn in range(certifications):
            issuer = certificates[draw.randrange(size)].fpr
            certificate.certify(MADE + 1000 + turn, issuer, bytes([3, 5, draw.randrange(4), 120]))
    return certificates


def good(signed: Signed) -> bytes:
    return f"verdict {signed[1]} good {signed[2].hex()}\n".encode()


def bad(signed: Signed) -> bytes:
    return f"verdict {signed[1]} bad\n".encode()


def all_good(certificates: Iterable[Certificate]) -> Iterator[bytes]:
    """Every signature is good by its issuer."""
    for certificate in certificates:
        for signed in [certificate.direct, *certificate.signatures]:
            yield good(signed)
