"""Random lines of each command about a random world, mostly well-formed."""

from .certificates import PLACES, USER_ID, number_of
from .random_world import USER_IDS, World
from .script import print_user_id


class Lines(World):
    """Draws lines about the world, and the moments that they name."""

    def __init__(self, seed):
        super().__init__(seed)
        self.views = [b"p", b"q", b"-_9z"]

    def digits(self, octets):
        text = octets.hex()
        form = self.pick(["lower", "lower", "lower", "upper", "mixed"])
        if form == "mixed":
            text = "".join(self.pick([digit, digit.upper()]) for digit in text)
        return (text.upper() if form == "upper" else text).encode()

    def words(self, *parts):
        return b" ".join(str(part).encode() if isinstance(part, int) else part for part in parts)

    def name(self):
        return self.pick(self.keys).name if self.chance(0.95) else self.random.randbytes(self.pick([20, 32]))

    def written_user_id(self, user_id):
        if self.chance(0.4) and b"\n" not in user_id and b"\\" not in user_id:
            return user_id
        if self.chance(0.6):
            return print_user_id(user_id).encode()
        return b"".join(self.pick([b"\\x%02x", b"\\x%02X"]) % octet for octet in user_id)

    def import_line(self, octets):
        return self.words(b"import", self.digits(octets))

    def load_line(self):
        if self.chance(0.15):
            return b"load trust-root"
        return self.words(b"load", self.digits(self.name()))

    def store_line(self):
        return self.words(b"store", self.digits(self.name()))

    def verdict_line(self, key, place, component, signature, issuer):
        number = self.digits(number_of(key.body, PLACES[place], component, signature))
        if not self.is_odd() or self.chance(0.5):
            return self.words(b"verdict", number, b"good", self.digits(issuer.name))
        if self.chance(0.5):
            return self.words(b"verdict", number, b"bad")
        return self.words(b"verdict", number, b"good", self.digits(self.name()))

    def any_verdict_line(self):
        signed = [(key, *signature) for key in self.keys for signature in key.signatures]
        if not signed or self.chance(0.1):
            return self.words(b"verdict", self.digits(self.random.randbytes(32)), b"none")
        key, place, component, signature, issuer = self.pick(signed)
        if self.chance(0.25):
            number = number_of(key.body, PLACES[place], component, signature)
            return self.words(b"verdict", self.digits(number), b"none")
        return self.verdict_line(key, place, component, signature, issuer)

    def time(self):
        time = self.pick(self.moments) if self.chance(max(self.odd, 0.1)) else self.pick([5000, 5000, 3000, 2001])
        return min(max(time, 0), 4294967295)

    def time_line(self):
        return self.words(b"view", self.pick(self.views), b"time", self.time())

    def root_line(self, view=None):
        amount = self.pick([120, 120, 120, 240, 255, 60, 40, 1])
        if view is None and self.chance(0.1):
            amount = 0
        name = self.keys[0].name if self.chance(0.4) else self.name()
        return self.words(b"view", view or self.pick(self.views), b"root", self.digits(name), amount)

    def ask_line(self, word=b"ask"):
        target = self.pick(self.keys)
        certified = [component for place, component, _, _ in target.signatures if place == USER_ID]
        user_ids = USER_IDS if self.chance(0.05) else certified if certified and self.chance(0.7) else target.user_ids
        wanted = self.pick([120, 120, 120, 1, 60, 240, 1000, 4294967295])
        name = target.name if self.chance(0.97) else self.name()
        view = b"p" if self.chance(0.6) else self.pick(self.views)
        return self.words(word, view, self.digits(name), wanted, self.written_user_id(self.pick(user_ids)))

    def absence_line(self):
        return self.ask_line(b"absence")

    def check_line(self):
        target = self.pick(self.keys)
        view = b"p" if self.chance(0.8) else self.pick(self.views)
        paths = b",".join(self.claimed_path() for _ in range(self.random.randrange(3))) or b"-"
        labels = {self.name(): self.random.randrange(1, 4) for _ in range(self.random.randrange(4))}
        table = b",".join(b"%s=%d" % (name.hex().encode(), label) for name, label in sorted(labels.items())) or b"-"
        user_id = self.written_user_id(self.pick(target.user_ids))
        return self.words(b"check", view, self.digits(target.name), paths, table, user_id)

    def claimed_path(self):
        steps = [
            b"%s.%d" % (self.digits(self.name()), self.random.randrange(2))
            for _ in range(1 + self.random.randrange(3))
        ]
        return b"/".join([b"%d" % self.pick([120, 120, 60, 40, 1]), *steps])

    def list_line(self):
        view = b"p" if self.chance(0.6) else self.pick(self.views)
        return self.words(b"list", view, self.pick([120, 120, 60, 1, 30, 240, 4294967295]))

    def cursor_line(self):
        cursor = self.pick([b"c", b"c", b"d", b"p"])
        if self.chance(0.2):
            return self.words(b"cursor", cursor, b"over", self.pick(self.views), self.pick([120, 60, 1, 4294967295]))
        if self.chance(0.05):
            return self.words(b"cursor", cursor, b"close")
        return self.words(b"cursor", cursor, b"next", self.pick([1, 1, 2, 3, 10, 4294967295]))

    def watch_line(self):
        watch = self.pick([b"w", b"w", b"x", b"p"])
        if self.chance(0.15):
            return self.words(b"watch", watch, b"off")
        return self.words(b"watch", watch, b"on", self.ask_line().split(b" ", 1)[1])

    def explain_line(self):
        target = self.pick(self.keys)
        user_ids = USER_IDS if self.chance(0.05) else target.user_ids
        name = target.name if self.chance(0.97) else self.name()
        user_id = self.written_user_id(self.pick(user_ids))
        return self.words(b"explain", self.pick(self.views), self.digits(name), user_id)
