"""Whether a key of version 6, or one of the new algorithms of version 4, could sign at the time of its signature: what
its certificate says decides, by RFC 9580 and as Sequoia's policy has it. Keys are made by python3-cryptography."""

import unittest

from case import DATA, Case
from openpgp import packet

try:
    import signed6 as made
    import version6 as v6
except ImportError:
    v6 = None

DAY = 86400


@unittest.skipIf(v6 is None, "python3-cryptography isn't installed")
class Keys(Case):
    @classmethod
    def setUpClass(cls):
        cls.key, cls.own = v6.Key("ed25519"), v6.Key("p384")
        cls.older, cls.older_own = v6.Key("ed25519", version=4), v6.Key("ed448", version=4)

    def word(self, parts, signer=None, key=None, at=v6.MADE + DAY if v6 else 0, **words):
        """What comes of a signature by a key, with these parts in the certificate."""
        key = key or self.key
        body = made.on_data(signer or key, DATA, made=at, **words)
        line, = self.lines(v6.certificate(key, *parts), packet(2, body))
        return line.word

    def test_the_primary_key(self):
        for key in self.key, self.older:
            direct = made.direct(key)
            self.assertEqual(self.word([direct], key=key), "good")
            for name, parts in {
                "not bound": [], "not meant for signing": [made.direct(key, made.flags(made.CERTIFY))],
                "without flags": [made.direct(key, b"")], "bound later": [made.direct(key, made=v6.MADE + 2 * DAY)],
                "expired": [made.direct(key, made.flags(made.SIGN) + made.validity(DAY))],
                "compromised": [made.revocation(key, 2, v6.MADE + 9 * DAY), direct],
                "retired": [made.revocation(key, 3, v6.MADE + DAY), direct],
                "critical": [made.direct(key, made.flags(made.SIGN) + v6.subpacket(0x80 | 100, b""))],
            }.items():
                with self.subTest(name):
                    self.assertEqual(self.word(parts, key=key), "refused")
            for name, parts in {
                "expires later": [made.direct(key, made.flags(made.SIGN) + made.validity(DAY + 1))],
                "retired later": [made.revocation(key, 3, v6.MADE + DAY + 1), direct],
                "bound anew": [made.revocation(key, 1, v6.MADE + 5), direct, made.direct(key, made=v6.MADE + 9)],
            }.items():
                with self.subTest(name):
                    self.assertEqual(self.word(parts, key=key), "good")
            self.assertEqual(self.word([direct], key=key, at=v6.MADE - 1), "refused")

    def test_version_4_by_its_user_id(self):
        """Its certification of the user ID decides before its direct key signature; version 6 has the latter alone."""
        signing, certifying = made.flags(made.SIGN), made.flags(made.CERTIFY)
        for flags, direct, expected in [(signing, certifying, "good"), (certifying, signing, "refused"),
                                        (b"", signing, "good")]:
            parts = [made.direct(self.older, direct), *made.named(self.older, flags)]
            self.assertEqual(self.word(parts, key=self.older), expected)
        self.assertEqual(self.word([*made.named(self.key, signing)]), "refused")

    def test_subkeys(self):
        for key, own in (self.key, self.own), (self.older, self.older_own):
            direct = made.direct(key, made.flags(made.CERTIFY))
            for name, parts, expected in [
                ("bound", made.subkey(key, own), "good"), ("not there", [], "absent"),
                ("not agreed", made.subkey(key, own, back=False), "refused"),
                ("agreed later", made.subkey(key, own, back_made=v6.MADE + 2 * DAY), "refused"),
                ("not for signing", made.subkey(key, own, made.flags(b"\x0c")), "refused"),
                ("expired", made.subkey(key, own, made.flags(made.SIGN) + made.validity(DAY)), "refused"),
                ("revoked", [*made.subkey(key, own), made.revocation(key, 0, v6.MADE + 9 * DAY, own)], "refused"),
                ("retired later", [*made.subkey(key, own), made.revocation(key, 3, v6.MADE + 9 * DAY, own)], "good"),
            ]:
                with self.subTest(name):
                    self.assertEqual(self.word([direct, *parts], own, key), expected)
            compromised = [made.revocation(key, 2, v6.MADE), direct, *made.subkey(key, own)]
            self.assertEqual(self.word(compromised, own, key), "refused")

    def test_copies_of_a_certificate_are_one(self):
        direct, revoked = made.direct(self.key), made.revocation(self.key, 2, v6.MADE)
        body = packet(2, made.on_data(self.key, DATA))
        ring = v6.certificate(self.key, direct) + v6.certificate(self.key, revoked)
        self.assertEqual(self.words(ring, body), ["refused"])

    def test_another_key_binds_nothing(self):
        other = v6.Key("ed25519")
        parts = [(2, v6.signature(other, self.key.body, v6.ON_KEY, b"",
                                  v6.Words(0x1f, more=made.flags(made.SIGN))))]
        self.assertEqual(self.word(parts), "refused")

    def test_the_signature_itself(self):
        direct = made.direct(self.key)
        self.assertEqual(self.word([direct], salt=bytes(15)), "bad")
        self.assertEqual(self.word([direct], version=4), "refused")
        self.assertEqual(self.word([made.direct(self.older)], key=self.older, version=6), "refused")
        self.assertEqual(self.word([direct], names="nobody"), "absent")
        self.assertEqual(self.word([direct], names="id"), "good")
        self.assertEqual(self.word([direct], kind=0x10), "bad")
        self.assertEqual(self.word([direct], more=v6.subpacket(3, DAY.to_bytes(4, "big"))), "refused")
        self.assertEqual(self.word([direct], at=2**32 - 1), "refused")
        body = packet(2, made.on_data(self.key, DATA, more=v6.subpacket(3, DAY.to_bytes(4, "big"))))
        line, = self.lines(v6.certificate(self.key, direct), body, DATA, "--at", str(v6.MADE + DAY - 1))
        self.assertEqual(line.word, "good")
        short = packet(2, made.on_data(self.key, DATA)[:12])
        self.assertEqual(self.words(v6.certificate(self.key, direct), short), ["malformed"])
