"""Random networks of keys that certify one another, with everything that one key could certify tried."""

import random
from types import SimpleNamespace

from made import CREATED, Made, key_lasts, packet, signature_lasts, subpacket, trust
from tukyamid import Engine
from tukyamid.keyrings.keyring import Keyring
from tukyamid.openpgp.signatures import signature_number

NOW = 1_700_000_000
DEPTHS = [0, 0, 0, 1, 1, 2, 3, 255]
SCOPE = subpacket(6, b"even\0")  # User IDs of this kind alone.


class Network:
    """Keys with one or two user IDs. `lines` make it in an engine, and `edges` are (issuer, target, user ID)."""

    def __init__(self, seed, count, certifications=3.0, has_ends=False):
        self.random = random.Random(seed)
        made = [Made(number) for number in range(count)]
        self.user_ids = {}
        for number, one in enumerate(made):
            kinds = ["even"] if number % 2 == 0 else ["odd"]
            kinds += ["even"] if self.random.random() < 0.3 else []
            self.user_ids[one.fpr] = [f"user {number}.{at} {kind}".encode() for at, kind in enumerate(kinds)]
            one.direct(CREATED)
            for user_id in self.user_ids[one.fpr]:
                one.certified(user_id, one, CREATED)
        self.fprs = [one.fpr for one in made]
        for _ in range(int(count * certifications)):
            issuer, target = self.random.sample(made, 2)
            more = [trust(self.random.choice(DEPTHS), self.random.choice([40, 60, 120, 120]))]
            more += [SCOPE] if self.random.random() < 0.1 else []
            target.certified(self.random.choice(self.user_ids[target.fpr]), issuer, CREATED + 1000, *more)
        if has_ends:
            self._end_some(made)
        self.keys = {one.fpr: one.key for one in made}
        self.octets = [one.octets for one in made]

    def _end_some(self, made):
        """Revokes some keys and certifications, and lets others end before NOW."""
        for one in made:
            drawn = self.random.random()
            if drawn < 0.05:
                one.direct(CREATED + 2000, kind=0x20)
            elif drawn < 0.1:
                one.direct(CREATED + 2000, key_lasts(5000))
        for _ in range(len(made) // 3):
            issuer, target = self.random.sample(made, 2)
            ends = {"kind": 0x30} if self.random.random() < 0.5 else {}
            more = () if ends else (trust(2, 120), signature_lasts(5000))
            target.certified(self.random.choice(self.user_ids[target.fpr]), issuer, CREATED + 2000, *more, **ends)

    def filled(self):
        """An engine that has all of it, and who made its signatures."""
        engine = Engine()
        for octets in self.octets:
            engine.import_certificates(octets)
        issuers = {}
        for one in list(engine.pending()):
            engine.judge_good(one.number, one.hint)
            issuers[one.number] = one.hint
        return engine, issuers

    def keyring(self):
        """A keyring of it, as a test of plans needs it."""
        engine, issuers = self.filled()
        return Keyring(engine, Issuers(engine, issuers))


class Drawn(Network):
    """Keys with a user ID each, and these certifications: of whom, by whom, with which depth and amount."""

    def __init__(self, *edges):
        made = [Made(number) for number in range(1 + max(max(edge[:2]) for edge in edges))]
        self.fprs = [one.fpr for one in made]
        self.user_ids = {one.fpr: [f"user {number}".encode()] for number, one in enumerate(made)}
        for one in made:
            one.direct(CREATED)
            one.certified(*self.user_ids[one.fpr], one, CREATED)
        for issuer, target, depth, amount in edges:
            of = made[target]
            of.certified(*self.user_ids[of.fpr], made[issuer], CREATED + 1000, trust(depth, amount))
        self.keys = {one.fpr: one.key for one in made}
        self.octets = [one.octets for one in made]


class Issuers:
    """The index of such a keyring."""
    is_whole = True

    def __init__(self, engine, issuers):
        self._engine, self._issuers = engine, issuers

    def issuer(self, fpr, number):
        return self._issuers.get(number)

    def excerpt(self, word, fprs):
        return (line for line in self._engine.dump() if not line.startswith(b"view "))


class Everything:
    """An engine in which anything that one key could certify is tried."""

    def __init__(self, network, roots):
        self.network = network
        self.engine, _ = network.filled()
        self.engine.open_view("try", NOW)
        for fpr, amount in roots.items():
            self.engine.set_root("try", fpr, amount)

    def close(self):
        self.engine.close()

    def amount(self, target, user_id, wanted, made=()):
        """The engine's answer with these certifications: (issuer, target, user ID, depth, amount)."""
        numbers = [self._take(*one) for one in made]
        answer = self.engine.ask("try", target, wanted, user_id)
        for number in numbers:
            self.engine.unjudge(number)
        return answer.amount

    def _take(self, issuer, target, user_id, depth, amount):
        more = () if (depth, amount) == (0, 120) else (trust(depth, amount),)
        octets = Made._signature(SimpleNamespace(fpr=issuer), 0x10, NOW, more)
        key = self.network.keys[target]
        self.engine.import_certificates(packet(6, key) + packet(13, user_id) + octets)
        number = signature_number(key, 1, user_id, octets[6:])
        self.engine.judge_good(number, issuer)
        return number

    def enough(self, issuer, target, user_id, wanted, deepest=9):
        """All single certifications by this key that are enough, as gpg can make them: a plain one has depth 0 and
        amount 120, and a trust signature 60 or 120."""
        found = []
        for fpr in self.network.fprs:
            for one in self.network.user_ids[fpr] if fpr != issuer else ():
                for depth in (*range(deepest), 255):
                    for amount in (60, 120) if depth else (120,):
                        if self.amount(target, user_id, wanted, [(issuer, fpr, one, depth, amount)]) >= wanted:
                            found.append((depth, amount, fpr))
        return found
