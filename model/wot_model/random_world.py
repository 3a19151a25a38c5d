"""A random world: keys that certify each other, their certificates, and a certificate directory with some of them."""

from .certificates import ATTRIBUTE, KEY, SIGNATURE, SUBKEY, USER_ID, fingerprint, is_readable_key
from .packets import write_packet
from .random_signatures import Signatures
from .shelf import LONGEST_ENTRY, TRUST_ROOT

USER_IDS = [
    b"", b"a", b"Ann <ann@example.org>", b"Ben <ben@example.org>", b"Cid <cid@example.org.net>", b"d\\e",
    "\u00e9t\u00e9".encode(), b"\xff\xfe", b"two\nlines", b"back\\x41", b"return\r", b" leading", b"trailing ", b"#1",
]
SHAPES = ["random", "random", "random", "line", "ring", "layers"]


class Key:
    """A key of the random world with its signatures: (place, component, signature, who is meant to have made it)."""

    def __init__(self, body):
        self.body = body
        self.name = fingerprint(body) if is_readable_key(body) else None
        self.user_ids = []
        self.signatures = []


class World(Signatures):
    """Draws keys with their signatures, certificates that have some of them, and entries of the directory."""

    def __init__(self, seed):
        super().__init__(seed)
        self.entries = {}

    # Keys, user IDs, and who certifies whom.

    def make_world(self):
        count, density = self.pick([(2, 0.8), (4, 0.8), (5, 0.6), (6, 0.5), (7, 0.4), (8, 0.3), (10, 0.2)])
        shape = self.pick(SHAPES)
        self.deep = self.chance(0.5)
        self.keys = [self.make_key() for _ in range(count)]
        for place, key in enumerate(self.keys):
            self.make_own_signatures(key)
            for other_place, other in enumerate(self.keys):
                likely = density if shape == "random" else share(shape, other_place, place, count)
                if other is not key and self.chance(likely):
                    self.certify(other, key)
            while self.is_odd():
                self.make_noise(key)

    def make_key(self):
        created = self.pick([0, 1500, 2000, 2001, 5001]) if self.is_odd() else 1000
        material = self.random.randbytes(self.pick([0, 1, 2, 40, 260]))
        front = created.to_bytes(4, "big") + b"\x1b"
        if self.chance(self.modern):
            key = Key(b"\6" + front + len(material).to_bytes(4, "big") + material)
        else:
            key = Key(b"\4" + front + material)
        key.user_ids = self.random.sample(USER_IDS, self.pick([1, 1, 1, 2, 3]))
        self.moments.append(created)
        return key

    def make_own_signatures(self, key):
        directly = self.chance(0.5)
        if directly or self.chance(0.3):
            self.sign(key, None, b"", 0x1F, key)
        for user_id in key.user_ids:
            if not directly or self.chance(0.5):
                self.sign(key, USER_ID, user_id, 0x13, key)
        if self.is_odd():
            self.sign(key, None, b"", 0x20, key)
        if self.is_odd():
            self.sign(key, USER_ID, self.pick(key.user_ids), 0x30, key)
        if self.is_odd():
            self.sign(key, None, b"", 0x30, key)

    def certify(self, issuer, key):
        for _ in range(self.pick([1, 1, 1, 2, 3])):
            user_id = self.pick(key.user_ids)
            self.sign(key, USER_ID, user_id, self.random.randrange(0x10, 0x14), issuer)
            if self.is_odd():
                self.sign(key, USER_ID, user_id, 0x30, issuer)

    def make_noise(self, key):
        place, component = self.pick([(ATTRIBUTE, b"\1\2"), (SUBKEY, b"\4sub"), (USER_ID, b"noise"), (None, b"")])
        kind = self.pick([0x10, 0x13, 0x18, 0x19, 0x1F, 0x20, 0x28, 0x30, 0x00, 0x40])
        issuer = self.pick(self.keys)
        if self.chance(0.3):
            key.signatures.append((place, component, self.random.randbytes(self.pick([0, 1, 9, 30])), issuer))
        else:
            self.sign(key, place, component, kind, issuer)

    def sign(self, key, place, component, kind, issuer):
        body = self.make_signature(kind, issuer)
        key.signatures.append((place, component, body, issuer))

    # Packets.

    def packet(self, kind, body):
        forms = ["short", "short", "short", "long"] + (["legacy"] if kind < 16 else [])
        form = self.pick(forms)
        if form == "short":
            return write_packet(kind, body)
        if form == "long":
            return bytes([0xC0 | kind]) + b"\xff" + len(body).to_bytes(4, "big") + body
        size = self.pick([size for size in (0, 1, 2) if len(body) < 1 << (8 << size)])
        return bytes([0x80 | kind << 2 | size]) + len(body).to_bytes(1 << size, "big") + body

    def certificate(self, key, share):
        """The certificate of a key, or a part of it, in any order."""
        packets = [self.packet(KEY, key.body)]
        places = {(None, b"")} | {(USER_ID, user_id) for user_id in key.user_ids}
        places |= {(place, component) for place, component, _, _ in key.signatures}
        direct = (None, b"")
        others = sorted(places - {direct}, key=repr)
        self.random.shuffle(others)
        for place, component in [direct, *others]:
            bodies = [body for where, what, body, _ in key.signatures if (where, what) == (place, component)]
            kept = [body for body in bodies if self.chance(share)]
            if place is not None and (kept or self.chance(share)):
                packets.append(self.packet(place, component))
            elif place is not None:
                continue
            packets += [self.packet(SIGNATURE, body) for body in kept]
            if self.chance(0.05):
                packets.append(self.packet(self.pick([10, 12, 21, 40, 60, 63]), b"zzz"))
        return b"".join(packets)

    def odd_octets(self):
        """Octets for an import that are likely to be refused or partly skipped."""
        good = self.certificate(self.pick(self.keys), 0.5)
        old = write_packet(KEY, b"\3\0\0\3\xe8\1") + write_packet(USER_ID, b"old") + write_packet(SIGNATURE, b"")
        other = self.packet(self.pick(range(64)), b"x")
        return self.pick([
            b"", b"\x40", b"\xc6", b"\xc6\xe0", b"\x9b", b"\xc6\xc1", b"\x99\0", b"\xc6\xff\0\0",
            b"\xca\3PGP", b"\xe8\0\xc2\0", b"\xcd\1t", other, good + other, other + good, old, old + good, good + old,
            good + b"\xc8\0", b"\xc2\0" + good, good + b"\xe8\1x\xca\3PGP\xc2\0\xc2\1y\xcd\1n\xc2\1y",
            good + good, write_packet(KEY, b"\4\0\0\3\xe8"), self.damage(good), self.damage(good),
            write_packet(KEY, b"\6\0\0\3\xe8\x1b\0\0\0\2\1"), write_packet(KEY, b"\6\0\0\3\xe8\x1b\0\0\0"),
        ])

    # The certificate directory.

    def make_entries(self):
        for key in self.keys:
            if self.chance(0.7):
                self.entries[key.name] = self.entry(key)
        if self.chance(0.5):
            self.entries[TRUST_ROOT] = self.entry(self.pick(self.keys))
        if self.chance(0.01):
            longest = self.certificate(self.keys[0], 1)
            self.entries[TRUST_ROOT] = longest + bytes(LONGEST_ENTRY + self.pick([0, 1]) - len(longest))

    def entry(self, key):
        if not self.is_odd():
            return self.certificate(key, self.pick([0.5, 1]))
        other = self.pick(self.keys)
        return self.pick([self.certificate(other, 0.5), self.odd_octets(), self.odd_octets()])


def share(shape, issuer, target, count):
    """How likely the first key is to certify the second."""
    if shape == "layers":
        return 0.8 if target // 3 == issuer // 3 + 1 else 0.02
    follows = target == issuer + 1 or shape == "ring" and target == (issuer + 1) % count
    return 0.95 if follows else 0.05
