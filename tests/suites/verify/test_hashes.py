"""Signatures with hash algorithms that Sequoia's library hasn't, for which it would end the process: those that nobody
knows are unsupported, and hide no other signature; SHA-3 (RFC 9580) counts as any other."""

import unittest

from case import DATA, Case
from checkers import File, by_verifier
from made import Made
from openpgp import packet

try:
    import signed6
    import version6
except ImportError:
    version6 = None

UNKNOWN = (0, 4, 5, 6, 7, 13, 15, 72, 99, 110, 255)
SHA3 = (12, 14)
ONE_PASS, SIGNATURE = 4, 2
# Where the body of such a packet has its hash algorithm.
PLACES = {ONE_PASS: 2, SIGNATURE: 3}


def with_hash(octets, number):
    """The packets with another hash algorithm. All have lengths of the old form, as gpg writes them."""
    changed, at = bytearray(octets), 0
    while at < len(octets):
        size = 1 << (octets[at] & 3)
        body = at + 1 + size
        place = PLACES.get(octets[at] >> 2 & 15)
        if place is not None:
            changed[body + place] = number
        at = body + int.from_bytes(octets[at + 1:body], "big")
    return bytes(changed)


class Unknown(Case):
    @classmethod
    def setUpClass(cls):
        cls.signers, _ = Made.once()
        cls.ring = cls.signers.ring

    def sign(self, name, *how):
        return self.signers.sign(self.write("data", DATA), name, how=how)

    def by_gpg(self, command, octets):
        return self.signers.gpg("--output", "-", command, str(self.write("given", octets)))

    def test_apart_from_the_data(self):
        signature, other = (self.sign(name, "--detach-sign") for name in ("archive", "release"))
        for number in (*UNKNOWN, *SHA3):
            with self.subTest(number):
                changed = with_hash(signature, number)
                word = "bad" if number in SHA3 else "unsupported"
                for octets, words in ((changed, [word]), (changed + other, [word, "good"]),
                                      (other + changed, ["good", word])):
                    lines = by_verifier(self.ring, File(self.write("data", DATA), self.write("data.sig", octets)))
                    self.assertEqual([line.word for line in lines], words)
                    self.assertEqual({line.hash_algorithm for line in lines if line.word == word}, {str(number)})

    def test_in_a_message(self):
        message = self.sign("archive", "--compress-algo", "none", "--sign")
        for number in (*UNKNOWN, *SHA3):
            with self.subTest(number):
                line, = by_verifier(self.ring, File(self.write("message", with_hash(message, number))))
                self.assertEqual(line.word, "bad" if number in SHA3 else "unsupported")

    def test_in_a_cleartext(self):
        text = self.sign("archive", "--clearsign")
        before, begin, armored = text.partition(b"-----BEGIN PGP SIGNATURE-----\n")
        signature = self.by_gpg("--dearmor", begin + armored)
        for number in (*UNKNOWN, *SHA3):
            with self.subTest(number):
                changed = self.by_gpg("--enarmor", with_hash(signature, number))
                changed = changed.replace(b"PGP ARMORED FILE", b"PGP SIGNATURE")
                line, = by_verifier(self.ring, File(self.write("text", before + changed)))
                self.assertEqual(line.word, "bad" if number in SHA3 else "unsupported")


@unittest.skipIf(version6 is None, "python3-cryptography isn't installed")
class Sha3(Case):
    def test_by_a_key_of_version_4(self):
        """Of an algorithm that the library has."""
        key = version6.Key("rsa", version=4)
        ring = version6.certificate(key, *signed6.named(key, signed6.flags(signed6.SIGN)))
        for number in SHA3:
            body = signed6.on_data(key, DATA, signed6.BINARY, hash_algorithm=number)
            line, = self.lines(ring, packet(SIGNATURE, body))
            self.assertEqual((line.word, line.certificate, line.hash_algorithm), ("good", key.fingerprint, str(number)))
            self.assertEqual(self.words(ring, packet(SIGNATURE, body), DATA + b"more"), ["bad"])
