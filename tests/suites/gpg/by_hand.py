"""Keys, certificates and signatures by hand: what gpg wouldn't make (RFC 9580, Ed25519 as gpg has it)."""

import base64
import hashlib

from cryptography.hazmat.primitives import serialization
from cryptography.hazmat.primitives.asymmetric import ed25519
from openpgp import packet
from people import MADE, SIGNED
from version6 import integer, subpacket

HASHES = {1: "md5", 2: "sha1", 3: "ripemd160", 8: "sha256", 10: "sha512"}
CERTIFY, SIGN, ENCRYPT = b"\x01", b"\x02", b"\x0c"
DAY = 86400
CURVE = bytes.fromhex("092b06010401da470f01")
ORDER = 2 ** 252 + 27742317777372353535851937790883648493


def time(seconds):
    return seconds.to_bytes(4, "big")


def created(seconds):
    return subpacket(2, time(seconds))


def lasting(seconds):
    """How long a signature is valid."""
    return subpacket(3, time(seconds))


def flags(octet):
    return subpacket(27, octet)


def validity(seconds):
    """How long a key is valid."""
    return subpacket(9, time(seconds))


class Key:
    """A key for signatures, created at a time."""

    def __init__(self, made=MADE):
        self._secret = ed25519.Ed25519PrivateKey.generate()
        public = self._secret.public_key().public_bytes(serialization.Encoding.Raw, serialization.PublicFormat.Raw)
        self.body = b"\x04" + time(made) + b"\x16" + CURVE + integer(int.from_bytes(b"\x40" + public, "big"))

    @property
    def framed(self):
        """What is hashed of it."""
        return b"\x99" + len(self.body).to_bytes(2, "big") + self.body

    @property
    def fingerprint(self):
        return hashlib.sha1(self.framed).hexdigest()

    @property
    def id(self):
        return bytes.fromhex(self.fingerprint[-16:])

    @property
    def named(self):
        """The subpacket that names it as an issuer."""
        return subpacket(33, b"\x04" + bytes.fromhex(self.fingerprint))

    def signature(self, kind, signed, hashed=None, unhashed=None, algorithm=8, made=SIGNED, more=b"", plus=0):
        """The body of a signature over octets. `hashed` and `unhashed` are its areas, `more` ends the first of them,
        and `plus` is added to the number that verifying multiplies with the base point."""
        hashed = (created(made) + self.named if hashed is None else hashed) + more
        unhashed = subpacket(16, self.id) if unhashed is None else unhashed
        front = bytes([4, kind, 22, algorithm]) + len(hashed).to_bytes(2, "big") + hashed
        digest = hashlib.new(HASHES[algorithm], signed + front + b"\x04\xff" + len(front).to_bytes(4, "big")).digest()
        return front + len(unhashed).to_bytes(2, "big") + unhashed + self._ending(digest, plus)

    def version_3(self, data, made=SIGNED):
        """The body of a signature of version 3, which hashes five octets of its own."""
        digest = hashlib.sha256(data + b"\x00" + time(made)).digest()
        return b"\x03\x05\x00" + time(made) + self.id + b"\x16\x08" + self._ending(digest)

    def _ending(self, digest, plus=0):
        made = self._secret.sign(digest)
        scalar = int.from_bytes(made[32:], "little") + plus
        return digest[:2] + integer(int.from_bytes(made[:32], "big")) + \
            integer(int.from_bytes(scalar.to_bytes(32, "little"), "big"))


class Signer:
    """A certificate with a user ID. It signs with its key, or with the subkey that was added last."""

    def __init__(self, name, may=b"\x03", more=b"", made=MADE):
        self.key = self.signing = Key(made)
        self.user_id = f"{name} <{name}@hand.example>".encode()
        signed = self.key.framed + b"\xb4" + len(self.user_id).to_bytes(4, "big") + self.user_id
        more += flags(may) if may is not None else b""
        self.parts = [(6, self.key.body), (13, self.user_id),
                      (2, self.key.signature(0x13, signed, made=made, more=more))]

    @property
    def certificate(self):
        return b"".join(packet(kind, body) for kind, body in self.parts)

    def with_subkey(self, may=SIGN, more=b"", back=True, by=None, made=MADE):
        """With a subkey, whose agreement is left out unless `back`, or made by another key."""
        self.signing = Key(made)
        signed = self.key.framed + self.signing.framed
        if back:
            more += subpacket(32, (by or self.signing).signature(0x19, signed, made=made))
        bound = self.key.signature(0x18, signed, made=made, more=flags(may) + more)
        self.parts += [(14, self.signing.body), (2, bound)]
        return self

    def revoked(self, reason, at):
        """With a revocation of its key for a reason (RFC 9580, section 5.2.3.31)."""
        made = self.key.signature(0x20, self.key.framed, made=at, more=subpacket(29, bytes([reason])))
        self.parts.insert(1, (2, made))
        return self

    def without_subkey(self, reason, at):
        """With a revocation of its subkey."""
        signed = self.key.framed + self.signing.framed
        self.parts.append((2, self.key.signature(0x28, signed, made=at, more=subpacket(29, bytes([reason])))))
        return self

    def on(self, data, kind=0, **words):
        """A signature packet on data."""
        return packet(2, self.signing.signature(kind, data, **words))

    def one_pass(self, kind=0, algorithm=8, is_last=True):
        return packet(4, bytes([3, kind, algorithm, 22]) + self.signing.id + bytes([is_last]))


def literal(data, name=b""):
    return packet(11, b"b" + bytes([len(name)]) + name + bytes(4) + data)


def armored(what, octets, header=b""):
    """With the checksum (RFC 9580, section 6.1), which gpg asks for."""
    checksum = 0xb704ce
    for octet in octets:
        checksum ^= octet << 16
        for _ in range(8):
            checksum = checksum << 1 ^ (0x1864cfb if checksum & 0x800000 else 0)
    ending = b"=" + base64.b64encode((checksum & 0xffffff).to_bytes(3, "big"))
    return b"-----BEGIN PGP %s-----\n%s\n%s%s\n-----END PGP %s-----\n" % (
        what, header, base64.encodebytes(octets), ending, what)
