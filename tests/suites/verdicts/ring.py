"""What the tests over the keyring of five that certify each other share: the keyring, which gpg makes once, and the
verdicts that are known in advance."""

import functools
import unittest

import gnupg
import openpgp

made = functools.cache(gnupg.made)


class OverRing(unittest.TestCase):
    """Over the keyring of five that certify each other."""

    @classmethod
    def setUpClass(cls):
        cls.ring = made()
        cls.folder = cls.ring.folder
        cls.file = cls.write("ring.gpg", cls.ring.exported)
        cls.signatures = [s for text in cls.ring.texts.values() for s in openpgp.signatures(text)]

    @classmethod
    def write(cls, name, octets):
        path = cls.folder / name
        path.write_bytes(octets)
        return path

    def expected(self, places, signatures=None):
        """The verdicts that are known in advance: everything that gpg made is good by who made it."""
        chosen = self.signatures if signatures is None else signatures
        return {s.number: f"good {self.ring.by_id[s.issuer]}" for s in chosen if s.place in places}
