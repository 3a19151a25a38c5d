"""Keys and signatures of version 6, and the new algorithms of version 4, made by python3-cryptography (RFC 9580)."""

import hashlib
from dataclasses import dataclass

from cryptography.hazmat.primitives import hashes, serialization
from cryptography.hazmat.primitives.asymmetric import ec, ed448, ed25519, padding, rsa, utils

from openpgp import packet

RSA, ECDSA, ED25519, ED448 = 1, 19, 27, 28
NEW_HASHES = {8: ("sha256", hashes.SHA256(), 16), 9: ("sha384", hashes.SHA384(), 24),
              10: ("sha512", hashes.SHA512(), 32), 11: ("sha224", hashes.SHA224(), 16),
              12: ("sha3_256", hashes.SHA3_256(), 16), 14: ("sha3_512", hashes.SHA3_512(), 32)}
CURVES = {"p256": (ec.SECP256R1(), "2a8648ce3d030107"), "p384": (ec.SECP384R1(), "2b81040022"),
          "p521": (ec.SECP521R1(), "2b81040023"), "bp256": (ec.BrainpoolP256R1(), "2b2403030208010107"),
          "bp384": (ec.BrainpoolP384R1(), "2b240303020801010b"), "bp512": (ec.BrainpoolP512R1(), "2b240303020801010d"),
          "k256": (ec.SECP256K1(), "2b8104000a"), "p224": (ec.SECP224R1(), "2b81040021")}
MADE = 1700000000
# What signatures stand on, by the mark of the number's field: the key, a user ID, a subkey.
ON_KEY, ON_USER_ID, ON_SUBKEY = 0, 1, 3

# The certificate of RFC 9580, appendix A.3, and the fingerprint that it says.
SAMPLE = """
xioGY4d/4xsAAAAg+U2nu0jWCmHlZ3BqZYfQMxmZu52JGggkLq2EVD34laPCsQYf
GwoAAABCBYJjh3/jAwsJBwUVCg4IDAIWAAKbAwIeCSIhBssYbE8GCaaX5NUt+mxy
KwwfHifBilZwj2Ul7Ce62azJBScJAgcCAAAAAK0oIBA+LX0ifsDm185Ecds2v8lw
gyU2kCcUmKfvBXbAf6rhRYWzuQOwEn7E/aLwIwRaLsdry0+VcallHhSu4RN6HWaE
QsiPlR4zxP/TP7mhfVEe7XWPxtnMUMtf15OyA51YBM4qBmOHf+MZAAAAIIaTJINn
+eUBXbki+PSAld2nhJh/LVmFsS+60WyvXkQ1wpsGGBsKAAAALAWCY4d/4wKbDCIh
BssYbE8GCaaX5NUt+mxyKwwfHifBilZwj2Ul7Ce62azJAAAAAAQBIKbpGG2dWTX8
j+VjFM21J0hqWlEg+bdiojWnKfA5AQpWUWtnNwDEM0g12vYxoWM8Y81W+bHBw805
I8kWVkXU6vFOi+HWvv/ira7ofJu16NnoUkhclkUrk0mXubZvyl4GBg==
"""
SAMPLE_FINGERPRINT = "cb186c4f0609a697e4d52dfa6c722b0c1f1e27c18a56708f6525ec27bad9acc9"


def integer(value):
    """A multiprecision integer (RFC 9580, section 3.2)."""
    return value.bit_length().to_bytes(2, "big") + value.to_bytes((value.bit_length() + 7) // 8, "big")


def _raw(public):
    return public.public_bytes(serialization.Encoding.Raw, serialization.PublicFormat.Raw)


class Key:
    """A key of an algorithm, by its name, and of a version."""

    def __init__(self, name, version=6):
        self.version = version
        self.algorithm, self.secret, material = _made(name)
        head = bytes([version]) + MADE.to_bytes(4, "big") + bytes([self.algorithm])
        self.body = head + (len(material).to_bytes(4, "big") if version == 6 else b"") + material

    @property
    def framed(self):
        """What is hashed of it."""
        if self.version == 6:
            return b"\x9b" + len(self.body).to_bytes(4, "big") + self.body
        return b"\x99" + len(self.body).to_bytes(2, "big") + self.body

    @property
    def fingerprint(self):
        return hashlib.new("sha256" if self.version == 6 else "sha1", self.framed).hexdigest()

    @property
    def id(self):
        return bytes.fromhex(self.fingerprint[:16] if self.version == 6 else self.fingerprint[-16:])

    def sign(self, digest, algorithm):
        if self.algorithm in (ED25519, ED448):
            return self.secret.sign(digest)
        prehashed = utils.Prehashed(NEW_HASHES[algorithm][1])
        if self.algorithm == RSA:
            return integer(int.from_bytes(self.secret.sign(digest, padding.PKCS1v15(), prehashed), "big"))
        return b"".join(map(integer, utils.decode_dss_signature(self.secret.sign(digest, ec.ECDSA(prehashed)))))


def _made(name):
    """The algorithm's number, the secret key, and the public key's material."""
    if name == "rsa":
        secret = rsa.generate_private_key(65537, 2048)
        numbers = secret.public_key().public_numbers()
        return RSA, secret, integer(numbers.n) + integer(numbers.e)
    if name in CURVES:
        curve, oid = CURVES[name]
        secret = ec.generate_private_key(curve)
        point = secret.public_key().public_bytes(serialization.Encoding.X962,
                                                 serialization.PublicFormat.UncompressedPoint)
        return ECDSA, secret, bytes([len(oid) // 2]) + bytes.fromhex(oid) + integer(int.from_bytes(point, "big"))
    number, module = {"ed25519": (ED25519, ed25519.Ed25519PrivateKey), "ed448": (ED448, ed448.Ed448PrivateKey)}[name]
    secret = module.generate()
    return number, secret, _raw(secret.public_key())


@dataclass
class Words:
    """What a signature says, and how it is made; `frame` hashes a key, by default by the key's version, and `more` are
    further subpackets of its hashed area."""
    kind: int = 0x13
    hash_algorithm: int = 8
    version: int = 6
    salt: bytes | None = None
    names: str = "fingerprint"
    trust: tuple | None = None
    frame: int | None = None
    made: int = MADE
    more: bytes = b""


def subpacket(kind, content):
    length = len(content) + 1
    front = bytes([length]) if length < 192 else b"\xff" + length.to_bytes(4, "big")
    return front + bytes([kind]) + content


def _issuer(issuer, names):
    fingerprint = subpacket(33, bytes([issuer.version]) + bytes.fromhex(issuer.fingerprint))
    return {"fingerprint": fingerprint, "id": subpacket(16, issuer.id), "nobody": b""}[names]


def _framed(key, version):
    if version == 6:
        return b"\x9b" + len(key).to_bytes(4, "big") + key
    return b"\x99" + len(key).to_bytes(2, "big") + key


def signature(issuer, key, place, component, words=Words()):
    """The body of a signature by a key on a component of a key's body."""
    frame = words.frame or key[0]
    signed = _framed(key, frame)
    if place == ON_USER_ID:
        signed += b"\xb4" + len(component).to_bytes(4, "big") + component
    elif place == ON_SUBKEY:
        signed += _framed(component, frame)
    return over(issuer, signed, words)


def over(issuer, signed, words):
    """The body of a signature by a key over octets, which are hashed as they stand."""
    name, _, salt_size = NEW_HASHES[words.hash_algorithm]
    size = 4 if words.version == 6 else 2
    salt = words.salt if words.salt is not None else bytes(range(salt_size)) if words.version == 6 else b""
    area = subpacket(2, words.made.to_bytes(4, "big")) + _issuer(issuer, words.names)
    area += (subpacket(5, bytes(words.trust)) if words.trust else b"") + words.more
    hashed = bytes([words.version, words.kind, issuer.algorithm, words.hash_algorithm])
    hashed += len(area).to_bytes(size, "big") + area
    trailer = bytes([words.version, 0xff]) + len(hashed).to_bytes(4, "big")
    digest = hashlib.new(name, salt + signed + hashed + trailer).digest()
    after = bytes(size) + digest[:2] + (bytes([len(salt)]) + salt if words.version == 6 else b"")
    return hashed + after + issuer.sign(digest, words.hash_algorithm)


def certificate(key, *parts):
    """A certificate of a key and of (packet type, body) pairs."""
    return b"".join(packet(kind, body) for kind, body in [(6, key.body), *parts])
