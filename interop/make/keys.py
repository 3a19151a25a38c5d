"""Keys made from seeds: a name, an algorithm, a version and a creation time always give the same key.

Ed25519 keys of version 4 are EdDSALegacy keys, which every program reads; those of version 6 are Ed25519 keys as
RFC 9580 has them (sections 5.5.5.5 and 5.5.5.9). RSA keys have 2048 bits, unless a case wants fewer.
"""

import hashlib
from functools import cached_property
from math import gcd

from cryptography.hazmat.primitives import hashes, serialization
from cryptography.hazmat.primitives.asymmetric import ed25519, padding, rsa, utils

from octets import integer, seconds

RSA, EDDSA_LEGACY, ED25519 = 1, 22, 27
CURVE = bytes.fromhex("092b06010401da470f01")
EXPONENT = 65537
DIGESTS: dict[int, hashes.HashAlgorithm] = {
    1: hashes.MD5(), 2: hashes.SHA1(), 8: hashes.SHA256(), 9: hashes.SHA384(), 10: hashes.SHA512(),
    11: hashes.SHA224(), 12: hashes.SHA3_256(), 14: hashes.SHA3_512(),
}  # fmt: skip


class Key:
    """A primary key. `body` is its packet's body."""

    def __init__(self, seed: str, made: int, version: int = 4, is_rsa: bool = False, bits: int = 2048) -> None:
        self.seed, self.made, self.version, self.is_rsa, self.bits = seed, made, version, is_rsa, bits

    @property
    def algorithm(self) -> int:
        return RSA if self.is_rsa else ED25519 if self.version == 6 else EDDSA_LEGACY

    @cached_property
    def body(self) -> bytes:
        head = bytes([self.version]) + seconds(self.made) + bytes([self.algorithm])
        material = self.material
        return head + (seconds(len(material)) if self.version == 6 else b"") + material

    @cached_property
    def material(self) -> bytes:
        if self.is_rsa:
            return integer(rsa_secret(self.seed, self.bits).public_key().public_numbers().n) + integer(EXPONENT)
        raw = serialization.Encoding.Raw, serialization.PublicFormat.Raw
        point = ed25519_secret(self.seed).public_key().public_bytes(*raw)
        return point if self.version == 6 else CURVE + integer(0x40 << 256 | int.from_bytes(point, "big"))

    @property
    def framed(self) -> bytes:
        """The key as its fingerprint hashes it."""
        if self.version == 6:
            return b"\x9b" + seconds(len(self.body)) + self.body
        return b"\x99" + len(self.body).to_bytes(2, "big") + self.body

    @cached_property
    def fingerprint(self) -> bytes:
        return hashlib.new("sha256" if self.version == 6 else "sha1", self.framed).digest()

    @property
    def id(self) -> bytes:
        return self.fingerprint[:8] if self.version == 6 else self.fingerprint[-8:]

    def sign(self, digest: bytes, algorithm: int) -> bytes:
        """The signature's material over a digest."""
        if self.is_rsa:
            prehashed = utils.Prehashed(DIGESTS[algorithm])
            made = rsa_secret(self.seed, self.bits).sign(digest, padding.PKCS1v15(), prehashed)
            return integer(int.from_bytes(made, "big"))
        made = ed25519_secret(self.seed).sign(digest)
        if self.version == 6:
            return made
        return integer(int.from_bytes(made[:32], "big")) + integer(int.from_bytes(made[32:], "big"))


def ed25519_secret(seed: str) -> ed25519.Ed25519PrivateKey:
    return ed25519.Ed25519PrivateKey.from_private_bytes(hashlib.sha256(f"interop ed25519 {seed}".encode()).digest())


_rsa_secrets: dict[str, rsa.RSAPrivateKey] = {}


def rsa_secret(seed: str, bits: int) -> rsa.RSAPrivateKey:
    """The RSA key of a seed; finding its primes takes a second, so it is kept."""
    if seed not in _rsa_secrets:
        p, q = prime(f"{seed} p", bits // 2), prime(f"{seed} q", bits // 2)
        private = pow(EXPONENT, -1, (p - 1) * (q - 1) // gcd(p - 1, q - 1))
        public = rsa.RSAPublicNumbers(EXPONENT, p * q)
        numbers = rsa.RSAPrivateNumbers(
            p, q, private, private % (p - 1), private % (q - 1), rsa.rsa_crt_iqmp(p, q), public
        )
        _rsa_secrets[seed] = numbers.private_key()
    return _rsa_secrets[seed]


def prime(seed: str, bits: int) -> int:
    """The first prime of this length, its two highest bits set, from a number that the seed gives upwards."""
    start = int.from_bytes(hashlib.shake_256(f"interop rsa {seed}".encode()).digest(bits // 8), "big")
    candidate = start | 3 << bits - 2 | 1
    while not is_prime(candidate) or (candidate - 1) % EXPONENT == 0:
        candidate += 2
    return candidate


def is_prime(candidate: int) -> bool:
    """Whether an odd number is prime, by small divisors and the test of Miller and Rabin."""
    if any(candidate % small == 0 for small in range(3, 2000, 2)):
        return False
    odd, twos = candidate - 1, 0
    while odd % 2 == 0:
        odd, twos = odd // 2, twos + 1
    return all(passes(candidate, odd, twos, base) for base in (2, 3, 5, 7, 11, 13, 17, 19))


def passes(candidate: int, odd: int, twos: int, base: int) -> bool:
    power = pow(base, odd, candidate)
    squares = [power]
    for _ in range(twos - 1):
        squares.append(pow(squares[-1], 2, candidate))
    return power == 1 or candidate - 1 in squares
