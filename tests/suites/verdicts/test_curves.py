"""Keys and signatures over curves that gpg makes and Sequoia doesn't have: the verdicts are those of gpg."""

import tempfile
import unittest
from pathlib import Path

import gnupg
import openpgp
from program import Script

CURVES = ("brainpoolP256r1", "brainpoolP384r1", "brainpoolP512r1", "secp256k1")


class Curves(unittest.TestCase):
    @classmethod
    def setUpClass(cls):
        home = gnupg.make_home("curves")
        fingerprints = []
        for curve in CURVES:
            user_id = f"{curve} <{curve}@example.org>"
            gnupg.gpg(home, "--quick-generate-key", user_id, curve, "cert,sign", "never")
            listed = gnupg.gpg(home, "--with-colons", "--list-keys", f"={user_id}").decode()
            fingerprints.append(next(line.split(":")[9] for line in listed.splitlines() if line.startswith("fpr")))
        for one in fingerprints:
            gnupg.gpg(home, "--quick-add-key", one, "brainpoolP256r1/ecdsa", "sign", "never")
            for other in fingerprints:
                if one != other:
                    gnupg.gpg(home, "-u", one, "--quick-sign-key", other)
        cls.by_id = {fingerprint[-16:].lower(): fingerprint.lower() for fingerprint in fingerprints}
        cls.marks = gnupg.check(home)
        cls.text = gnupg.gpg(home, "--export")

    def setUp(self):
        folder = tempfile.TemporaryDirectory(prefix="wot")
        self.addCleanup(folder.cleanup)
        self.ring = Path(folder.name) / "ring.pgp"

    def test_each_is_good_as_it_is_for_gpg(self):
        self.assertEqual(self.marks, {"!"})
        self.ring.write_bytes(self.text)
        made = list(openpgp.signatures(self.text))
        self.assertEqual(len(made), 4 * 4 + 4)
        self.assertEqual(Script("--all", self.ring).verdicts,
                         {one.number: f"good {self.by_id[one.issuer]}" for one in made})

    def test_a_turned_bit_is_bad(self):
        text, expected = self.text, {}
        for one in openpgp.signatures(self.text):
            if one.place == 1:
                bits = range(8 * (one.front + 4), 8 * len(one.body), 37)
                text += openpgp.packet(6, one.key) + openpgp.packet(13, one.component)
                for body in (openpgp.turned(one.body, bit) for bit in bits):
                    text += openpgp.packet(2, body)
                    expected[openpgp.number(one.key, 1, one.component, body)] = "bad"
        self.assertGreater(len(expected), 200)
        self.ring.write_bytes(text)
        said = Script(self.ring).verdicts
        self.assertEqual({number: said.get(number) for number in expected}, expected)
