"""What the client reads of certificates by itself: keys and signatures of both versions."""

import unittest

from tukyamid.openpgp import certificates

KEY = bytes.fromhex("0663877fe31b00000020f94da7bb48d60a61e567706a6587d0331999bb9d891a08242ead84543df895a3")
FPR = "cb186c4f0609a697e4d52dfa6c722b0c1f1e27c18a56708f6525ec27bad9acc9"


def signature(version, area, rest=b""):
    """A certification with this hashed area, an empty unhashed one, and what stands behind the octets of the hash."""
    size = 2 if version == 4 else 4
    return bytes([version, 0x10, 27, 8]) + len(area).to_bytes(size, "big") + area + bytes(size) + b"\0\0" + rest


class Versions(unittest.TestCase):
    def test_the_standard_s_sample(self):
        """The key of RFC 9580, appendix A.3."""
        self.assertEqual(certificates.key_fingerprint(KEY), FPR)
        self.assertEqual(certificates.key_id(FPR), "cb186c4f0609a697")
        self.assertEqual(certificates.key_id("aa" * 16 + "bbbbbbbb"), "aaaaaaaabbbbbbbb")

    def test_signatures_and_issuers(self):
        made = b"\5\2\0\0\3\xe8"
        for version, rest in (4, b""), (6, b"\0"), (6, b"\2ab"), (6, b"\xff" + bytes(255)):
            for issuer in bytes(range(20)), bytes(range(32)):
                named = bytes([len(issuer) + 2, 33, 4 if len(issuer) == 20 else 6]) + issuer
                said = certificates.read_signature(signature(version, made + named, rest))
                self.assertEqual((said.kind, said.made, said.sound), (0x10, 1000, True))
                self.assertEqual(said.issuer, issuer.hex())
                self.assertTrue(said.may_be_by(issuer.hex()))
                self.assertFalse(said.may_be_by("00" * len(issuer)))

    def test_bodies_that_are_cut(self):
        made = b"\5\2\0\0\3\xe8"
        for body in signature(6, made), signature(6, made, b"\2a"), signature(5, made), signature(6, made, b"\1b")[:-1]:
            self.assertIsNone(certificates.read_signature(body).kind)
        for wrong in b"\x16\x21\6" + bytes(20), b"\x22\x21\4" + bytes(32), b"\x21\x21\6" + bytes(31):
            self.assertIsNone(certificates.read_signature(signature(6, made + wrong, b"\0")).issuer)

    def test_a_critical_notation_is_named(self):
        name = b"a\x1b@example.org"
        notation = bytes(4) + len(name).to_bytes(2, "big") + b"\0\0" + name
        for critical, unknown in (0x80, ["notation a\\x1b@example.org"]), (0, []):
            area = b"\5\2\0\0\3\xe8" + bytes([len(notation) + 1, critical | 20]) + notation
            said = certificates.read_signature(signature(4, area))
            self.assertEqual((said.sound, said.unknown), (not critical, unknown))


if __name__ == "__main__":
    unittest.main()
