"""Mutations of valid texts: octets flipped, pieces lost, repeated or exchanged, and words that readers stumble over."""

import random
from collections.abc import Sequence

# Numbers that Python reads and the formats don't know, letters that change their length with their case, dots of other
# scripts, half characters, controls, and lengths at their edges.
WORDS = [b"", b" ", b"\n", b"\r\n", b"\t", b"\0", b"\x1b[2J", b"-", b"--", b"-1", b"+1", b"1_0", b"0x10", b"1e9",
         b"NaN", b"Infinity", b"9" * 30, b"18446744073709551616", b"4294967296", b"\\", b"\\x", b"\\x0", b"\\xgg",
         b"\\x00", b"<", b">", b"@", b"<@>", b".", b"null", b"true", b"{}", b"[]", b'"', "\u0661\u0662".encode(),
         "\u00b2".encode(), "\uff10".encode(), "\u0130".encode(), "\u1e9e".encode(), "\u3002".encode(),
         "\u2028".encode(), "\x85".encode(), "\u202e".encode(), "\ufeff".encode(), b"\xed\xa0\x80",
         b"\xc3", b"\xf4\x90\x80\x80", b"\xff\xff\xff\xff\xff", b"\xff\0\0\0\0", b"\xbf",
         b"\xc0\x00", b"\xdf\xff", b"\xe0", b"\x99", b"\x9b", b"\xce", b"=", b"=AAAA",
         b"-----BEGIN PGP PUBLIC KEY BLOCK-----\n", b"-----END PGP PUBLIC KEY BLOCK-----\n", b"refused ",
         b"service ", b"ok ", b"00" * 20, b"ff" * 32]
LONGEST = 1 << 17
_MOST_OF_A_KIND = 5


class Mutator:
    """Draws mutations: those of one seed are always the same."""

    def __init__(self, seed: int) -> None:
        self._draw = random.Random(seed)

    def mutated(self, samples: Sequence[bytes]) -> bytes:
        """One of the samples with up to five changes; a few become long."""
        octets = self._draw.choice(samples)
        for _ in range(self._draw.randint(1, _MOST_OF_A_KIND)):
            octets = self._changed(octets, samples)
        return octets[:LONGEST]

    def _changed(self, octets: bytes, samples: Sequence[bytes]) -> bytes:
        begin, end = sorted(self._draw.randrange(len(octets) + 1) for _ in range(2))
        kind = self._draw.randrange(100)
        if kind < 20 and octets:
            at = min(begin, len(octets) - 1)
            return octets[:at] + bytes([octets[at] ^ 1 << self._draw.randrange(8)]) + octets[at + 1:]
        if kind < 35:
            return octets[:begin] + octets[end:]
        if kind < 50:
            other = self._draw.choice(samples)
            return octets[:begin] + other[self._draw.randrange(len(other) + 1):] + octets[end:]
        if kind < 60:
            return octets[:begin] + self._draw.randbytes(self._draw.randint(1, 8)) + octets[begin:]
        if kind < 61:
            return octets[:begin] + octets[begin:end][:64] * self._draw.choice((100, 1000, 5000)) + octets[end:]
        if kind < 70:
            return octets[:end] + octets[begin:end] + octets[end:]
        return octets[:begin] + self._draw.choice(WORDS) + octets[self._draw.choice((begin, end)):]
