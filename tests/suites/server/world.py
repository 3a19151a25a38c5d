"""A small world of keys that certify one another, and random lines of clients who ask and change it."""

import hashlib
import random

NAMES = [b"p", b"q", b"a", b"-_9z", b"s1-1", b"x" * 32]
TIMES = [b"1999", b"2000", b"5000", b"5000", b"5000", b"9000"]
SILENT = [b"", b"# nothing", b"#"]
MALFORMED = [b"view P time 5000", b"view p time 4294967296", b"view p time 05000", b"view p", b"view", b"ask p",
             b"keys ",
             b"ask p " + b"0" * 39 + b" 120 a", b"import", b"import c", b"import zz", b"verdict 00 bad", b"drop xyz",
             b"view " + b"x" * 33 + b" time 5000", b"view p close ", b"nothing of the kind", b"\xff\0\r", b" keys",
             b"view p root " + b"0" * 40 + b" 256", b"dump all", b"watch w off", b"load trust-roots", b"list p",
             b"cursor c over p 0", b"cursor c next", b"cursor C next 1", b"store trust-root", b"store",
             b"cursor c close ",
             b"list p 0", b"list P 120", b"explain p " + b"0" * 40, b"explain p", b"pending ", b"pending p"]


def packet(kind, body):
    assert len(body) < 192
    return bytes([0xC0 | kind, len(body)]) + body


def fingerprint(key):
    return hashlib.sha1(b"\x99" + len(key).to_bytes(2, "big") + key).hexdigest().encode()


def number(key, place, component, signature):
    fields = b"wot1", key, bytes([place]), component, signature
    return hashlib.sha256(b"".join(len(field).to_bytes(4, "big") + field for field in fields)).hexdigest().encode()


def signature(kind, made, extra=b""):
    hashed = b"\x05\x02" + made.to_bytes(4, "big") + extra
    return bytes([4, kind, 27, 8]) + len(hashed).to_bytes(2, "big") + hashed + b"\0\0\0\0"


class World:
    """Keys 0 to `count` - 1, each with a user ID and five certifications, of these depths; `imports` and `verdicts` are
    the lines that make it known."""

    def __init__(self, seed=1, count=12, depths=(0, 1, 2, 255)):
        self.random = random.Random(seed)
        self._depths = depths
        self.keys = [b"\4\0\0\x03\xe8\x1b" + place.to_bytes(2, "big") for place in range(count)]
        self.fprs = [fingerprint(key) for key in self.keys]
        self.user_ids = [b"user %d <u%d@example.org>" % (place, place) for place in range(count)]
        self.imports = []
        self.verdicts = []
        self.depths = {}  # Of each certification, by its issuer and its target.
        for place in range(count):
            self._make(place)

    def _make(self, place):
        key, user_id = self.keys[place], self.user_ids[place]
        direct = signature(0x1F, 1000)
        self.verdicts.append((number(key, 0, b"", direct), self.fprs[place]))
        front = packet(6, key) + packet(2, direct) + packet(13, user_id)
        for issuer in self.random.sample(range(len(self.keys)), 5):
            trust = bytes([3, 5, self.random.choice(self._depths), self.random.choice([40, 60, 120])])
            self.depths[self.fprs[issuer], self.fprs[place]] = trust[2]
            body = signature(0x10, 2000, trust + b"\x16\x21\x04" + bytes.fromhex(self.fprs[issuer].decode()))
            self.verdicts.append((number(key, 1, user_id, body), self.fprs[issuer]))
            self.imports.append(b"import " + (front + packet(2, body)).hex().encode())

    def lines(self):
        """The lines that make all of it known."""
        return self.imports + [b"verdict %s good %s" % verdict for verdict in self.verdicts]

    def make_directory(self, folder):
        """A certificate directory: entries of some keys, a misfiled one, a damaged one, and one of a wrong kind."""
        entries = {fpr: bytes.fromhex(line[7:].decode()) for fpr, line in zip(self.fprs, self.imports[4::5])}
        entries[self.fprs[3]] = entries[self.fprs[4]]
        entries[self.fprs[5]] = entries[self.fprs[5]][:-7]
        entries[self.fprs[6]] = b"\x99\0\0"
        for fpr, octets in [*entries.items()][:9]:
            place = folder / fpr[:2].decode() / fpr[2:].decode()
            place.parent.mkdir(parents=True, exist_ok=True)
            place.write_bytes(octets)
        (folder / "trust-root").write_bytes(entries[self.fprs[8]])


class Chatter:
    """Random lines of one client."""

    def __init__(self, world, seed, cursors=4):
        self._world = world
        self._random = random.Random(seed)
        self._cursors = cursors  # How often lines of cursors come, beside others.

    def lines(self, count):
        front = [b"view p time 5000", b"view p root %s 120" % self._pick(self._world.fprs)]
        makers = [self._view] * 5 + [self._ask] * 6 + [self._tell] * 3 + [self._change] * 4 + \
            [self._cursor] * self._cursors + [self._directory, self._other, self._odd]
        return front + [self._pick(makers)() for _ in range(count)]

    def _pick(self, items):
        return self._random.choice(items)

    def _view(self):
        name, draw = self._pick(NAMES), self._random.random()
        if draw < 0.4:
            return b"view %s time %s" % (name, self._pick(TIMES))
        if draw < 0.9:
            fpr = self._pick(self._world.fprs)
            amount = self._pick([b"120", b"120", b"60", b"0"])
            return b"view %s root %s %s" % (name, self._pick([fpr, fpr.upper()]), amount)
        return b"view %s close" % name

    def _ask(self):
        place = self._random.randrange(len(self._world.keys))
        wanted = self._pick([b"120", b"40", b"500"])
        binding = self._world.fprs[place], self._world.user_ids[place]
        return b"ask %s %s %s %s" % (self._pick(NAMES[:3]), binding[0], wanted, binding[1])

    def _tell(self):
        """A line with a long reply: about a view, or about signatures without a verdict."""
        name, draw = self._pick(NAMES[:2]), self._random.random()
        if draw < 0.4:
            return b"list %s %s" % (name, self._pick([b"1", b"40", b"120", b"500"]))
        place = self._random.randrange(len(self._world.keys))
        user_id = self._world.user_ids[place if self._random.random() < 0.9 else 0]
        if draw < 0.7:
            return b"explain %s %s %s" % (name, self._world.fprs[place], user_id)
        if draw < 0.85:
            return b"absence %s %s %s %s" % (name, self._world.fprs[place], self._pick([b"40", b"500"]), user_id)
        if draw < 0.95:
            return b"check %s %s - - %s" % (name, self._world.fprs[place], user_id)
        return b"pending"

    def _change(self):
        draw = self._random.random()
        if draw < 0.4:
            return self._pick(self._world.imports)
        if draw < 0.97:
            signed, issuer = self._pick(self._world.verdicts)
            return b"verdict %s %s" % (signed, self._pick([b"good " + issuer] * 4 + [b"bad", b"none"]))
        return b"drop " + self._pick(self._world.fprs)

    def _cursor(self):
        name, draw = self._pick([b"c", b"d", b"-"]), self._random.random()
        if draw < 0.4:
            return b"cursor %s over %s %s" % (name, self._pick(NAMES[:2]), self._pick([b"1", b"40", b"120"]))
        return b"cursor %s %s" % (name, self._pick([b"next 1", b"next 2", b"next 50", b"next 3", b"close"]))

    def _directory(self):
        name = self._pick([*self._world.fprs, b"trust-root"])
        return b"%s %s" % (self._pick([b"load", b"store"]), name)

    def _other(self):
        return self._pick([b"keys", b"dump", b"export " + self._pick(self._world.fprs)])

    def _odd(self):
        return self._pick(MALFORMED + SILENT)
