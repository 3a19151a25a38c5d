"""Random signatures, mostly well-formed."""

from .draws import Draws
from .signatures import FEBRUARY_2013, REVOCATIONS

PATTERNS = [
    b"<[^>]+[@.]example\\.org>$", b"example", b"^a$", b"", b"^$", b"[]x]", b"[a-c-]", b"a**", b"[c-a]", b"(^|x)b",
    b"(a|An+)", b".", b"^.*$", b"\xff", b"[^]", b"(", b"()", b"^*", "\u00e9".encode(), b"[\\d]", b"n{1}", b"x|y|<",
    b"(((A)n)n)", b"a\\", b"[+--]", b"(.a)*", b"^(n?A?n?)+ <", b"[--a]", b"[]-a]n", b"\0", b"example\0",
]
AMOUNTS = [120, 120, 120, 60, 60, 40, 30, 1, 0, 255, 90, 119]
DEPTHS = [0, 1, 1, 1, 2, 2, 3, 4, 254, 255]
ODD_HASHES = [9, 10, 11, 12, 14, 2, 3, 1, 13, 0, 255]
OLD_HASHES = [2, 3, 2, 3, 1]
LENGTHS_OF_LIFE = [0, 1, 50, 100, 1000, 3000, 3001, 4294967295]


class Signatures(Draws):
    """Draws signatures of the keys of a random world."""

    def __init__(self, seed):
        super().__init__(seed)
        self.keys = []
        self.modern = self.pick([0, 0, 0.2, 0.5, 1])
        self.moments = [0, 1, 5000, 6000, FEBRUARY_2013, 1500000000, 4294967295]

    def make_signature(self, kind, issuer):
        made = self.pick([2000, 2000, 2000, 2001, 3000])
        if self.is_odd():
            any_time = self.random.randrange(6000)
            made = self.pick([1000, 999, 1999, 4000, 7000, FEBRUARY_2013 - 1, FEBRUARY_2013, any_time])
        old = kind in REVOCATIONS and self.chance(0.5)
        if old:
            made = self.pick([made, FEBRUARY_2013, FEBRUARY_2013 + 1])
        hashed = self.make_facts(kind, made)
        if self.chance(0.4):
            named = self.pick(self.keys) if self.is_odd() else issuer
            hashed.append((33, named.body[:1] + named.name))
        if self.is_odd() and self.chance(0.3):
            kinds = [2, 3, 5, 7, 9, 16, 20, 25, 29, 33, 34, 127, 4]
            hashed += [(self.pick(kinds), self.random.randbytes(self.pick([0, 1, 4])))]
        if self.chance(0.3):
            self.random.shuffle(hashed)
        unhashed = [(16, self.random.randbytes(8))] if self.chance(0.2) else []
        if self.chance(0.05):
            unhashed.append((5, bytes([255, 255])))
        if self.is_odd():
            hashed += [(33, self.pick([b"\4", b"\6", b"\5"]) + self.random.randbytes(self.pick([20, 32, 31])))]
        hash_number = self.pick(OLD_HASHES) if old else self.pick(ODD_HASHES) if self.is_odd() else 8
        version = 6 if self.chance(self.modern) else 4
        if version == 6 and self.chance(0.005):
            self.pick([hashed, unhashed]).append((26, bytes(self.pick([65530, 65536, 70000]))))
        body = bytes([version, kind, 27, hash_number]) + self.area(version, hashed) + self.area(version, unhashed)
        body += b"\0\0"
        if version == 6:
            salt = self.random.randbytes(self.pick([0, 16, 32, 255]))
            body += bytes([len(salt)]) + salt
        body += self.random.randbytes(self.pick([0, 2, 2, 2, 2]))
        return self.damage(body) if self.is_odd() and self.chance(0.1) else body

    def make_facts(self, kind, made):
        facts = [(2, made.to_bytes(4, "big"))]
        self.moments += [made, made - 1, made + 1]
        if self.is_odd():
            lasts = self.pick(LENGTHS_OF_LIFE)
            facts.append((3, lasts.to_bytes(4, "big")))
            self.moments += [made + lasts, made + lasts - 1]
        if kind in (0x1F, 0x13) and self.is_odd():
            key_lasts = self.pick([0, 500, 1000, 1001, 4000, 4001, 4294967295])
            facts.append((9, key_lasts.to_bytes(4, "big")))
            self.moments += [1000 + key_lasts, 999 + key_lasts]
        if kind in range(0x10, 0x14) and self.chance(0.9):
            depth = 255 if self.deep and self.chance(0.7) else self.pick(DEPTHS)
            facts.append((5, bytes([depth, self.pick(AMOUNTS)])))
        for _ in range(self.pick([1, 1, 2]) if self.chance(0.1) else 0):
            facts.append((6, self.pick(PATTERNS) + self.pick([b"\0", b""])))
        if self.is_odd():
            facts.append((7, self.pick([b"\0", b"\1"])))
        if self.chance(0.3):
            facts.append((25, self.pick([b"\0", b"\1", b"\2"])))
        if kind in (0x20, 0x30) and self.chance(0.7):
            facts.append((29, self.pick([b"\0", b"\1", b"\2", b"\3", b"\3", b"\1why", b"\x20", b""])))
        return facts

    def area(self, version, subpackets):
        octets = b"".join(map(self.subpacket, subpackets))
        return len(octets).to_bytes(2 if version == 4 else 4, "big") + octets

    def subpacket(self, subpacket):
        kind, content = subpacket
        octets = bytes([kind | (0x80 if self.is_odd() else 0)]) + content
        form = self.pick([1, 1, 1, 1, 1, 1, 5]) if len(octets) < 192 else 5
        return (bytes([len(octets)]) if form == 1 else b"\xff" + len(octets).to_bytes(4, "big")) + octets
