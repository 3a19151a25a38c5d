"""RSA keys of any size that can sign: their modulus is a product of many small primes, so that they are made at once.
Nothing about them is secret."""

import hashlib
import math
import random

import version6 as v6

# What stands before a SHA-256 digest in a signature (RFC 8017, section 9.2).
_SHA256 = bytes.fromhex("3031300d060960864801650304020105000420")
_PRIME_BITS = 128


def _is_prime(number, random_):
    """By Miller and Rabin, with 20 bases."""
    if any(number % small == 0 for small in (3, 5, 7, 11, 13, 17, 19, 23, 29, 31, 37)):
        return False
    odd, twos = number - 1, 0
    while odd % 2 == 0:
        odd, twos = odd // 2, twos + 1
    for _ in range(20):
        base = random_.randrange(2, number - 1)
        powers = [pow(base, odd << twice, number) for twice in range(twos)]
        if powers[0] != 1 and number - 1 not in powers:
            return False
    return True


def _prime(bits, exponent, random_):
    while True:
        number = random_.getrandbits(bits) | 1 << (bits - 1) | 1
        if math.gcd(number - 1, exponent) == 1 and _is_prime(number, random_):
            return number


class Hostile(v6.Key):
    """An RSA key of version 4 with a modulus of this many bits, and this exponent. It can't sign: whatever it signs is
    bad by the arithmetic alone, since all else about it is right."""

    def __init__(self, bits, exponent):
        self._take((1 << bits) - 1, exponent)

    def _take(self, modulus, exponent):
        self.version, self.algorithm, self.modulus, self.exponent = 4, v6.RSA, modulus, exponent
        self.body = b"\4" + v6.MADE.to_bytes(4, "big") + b"\1" + v6.integer(modulus) + v6.integer(exponent)

    def sign(self, digest, algorithm):
        return v6.integer(int.from_bytes(digest, "big"))


class Key(Hostile):
    """An RSA key of version 4 with a modulus of this many bits, and this odd exponent."""

    def __init__(self, bits, exponent):
        random_ = random.Random(f"{bits} {exponent}")
        self.primes = []
        modulus = 1
        while bits - modulus.bit_length() > 2 * _PRIME_BITS:
            self.primes.append(_prime(_PRIME_BITS, exponent, random_))
            modulus *= self.primes[-1]
        # The last prime brings the length to what it should be.
        last = bits - modulus.bit_length()
        while (modulus * (prime := _prime(last, exponent, random_))).bit_length() != bits:
            last += (modulus * prime).bit_length() < bits
        self.primes.append(prime)
        self._take(modulus * prime, exponent)

    def sign(self, digest, algorithm):
        assert algorithm == 8
        size = (self.modulus.bit_length() + 7) // 8
        tail = _SHA256 + digest
        padded = int.from_bytes(b"\0\1" + b"\xff" * (size - len(tail) - 3) + b"\0" + tail, "big")
        root = 0
        for prime in self.primes:
            others = self.modulus // prime
            part = pow(padded % prime, pow(self.exponent, -1, prime - 1), prime)
            root += part * others * pow(others, -1, prime)
        return v6.integer(root % self.modulus)


def exponent(bits):
    """An odd number of this many bits."""
    return 1 << (bits - 1) | int.from_bytes(hashlib.sha256(b"exponent").digest(), "big") % (1 << (bits - 1)) | 1
