"""Signatures by hand, most of them made to deceive: nothing is claimed of them that the real gpg and gpgv don't claim
on the same files, by `tukyamid-gpg`, `tukyamid-sopv` or `wot-verdicts`."""

import os
import re
import subprocess
from collections import Counter
from pathlib import Path

import gnupg
from case import Case
from hand_cases import made
from host import VERIFIER, is_status_line

CLAIMS = ("GOODSIG", "EXPSIG", "EXPKEYSIG", "REVKEYSIG", "VALIDSIG")
# gpgv stops at the first signature that is bad, and doesn't look for the data of a signature that is named alone.
STOPPING = ("another's, then good", "message: another's too", "beside")


def claims(answer):
    """What an answer claims, as often as it does; a status of 0 is a claim too."""
    return Counter([word for word in answer.words if word in CLAIMS] + ["status 0"] * (answer.exit == 0))


class ByHand(Case):
    @classmethod
    def setUpClass(cls):
        super().setUpClass()
        cls.cases = made()
        cls.home = gnupg.make_home("hand")
        cls.ring = cls.people.write("hand.pgp", b"".join(signer.certificate for signer in cls.cases.signers))
        fingerprints = [signer.key.fingerprint for signer in cls.cases.signers]
        trust = "".join(f"{fingerprint.upper()}:6:\n" for fingerprint in fingerprints).encode()
        gpg = ["gpg", "--homedir", cls.home, "--batch", "--quiet"]
        subprocess.run([*gpg, "--import", cls.ring], check=True, capture_output=True)
        subprocess.run([*gpg, "--import-ownertrust"], input=trust, check=True, capture_output=True)
        reply = cls.host.ask(b"service keyring add " + os.fsencode(cls.ring))
        assert reply.startswith(b"ok keyring "), reply
        cls.roots = "".join(f"{fingerprint} = 120\n" for fingerprint in fingerprints)

    def setUp(self):
        super().setUp()
        self.host.file.write_text(f"[roots]\n{self.roots}")
        self.addCleanup(self.host.configure)

    def files(self, given):
        """Writes what is verified: signature and data, a message, or a signature beside its data."""
        if given.data is None:
            return [str(self.write("message", given.first))]
        if given.is_beside:
            self.write("data", given.data)
            return [str(self.write("data.asc", given.first))]
        return [str(self.write("signature", given.first)), str(self.write("data", given.data))]

    def test_nothing_more_is_claimed(self):
        for name, given in self.cases.given.items():
            with self.subTest(name):
                files = self.files(given)
                ours, gpg = self.host.ours("--verify", *files), self.host.theirs("--verify", *files, home=self.home)
                gpgv = self.host.run("--keyring", str(self.ring), *files, program="/usr/bin/gpgv")
                theirs = claims(gpg) if name.startswith(STOPPING) else claims(gpg) & claims(gpgv)
                more = claims(ours) - theirs
                self.assertTrue(not more or given.known, f"{more}\n{ours}\n{gpg}\n{gpgv}")
                trusted = sum(word in ("TRUST_FULLY", "TRUST_ULTIMATE") for word in ours.words)
                self.assertLessEqual(trusted, ours.words.count("GOODSIG"))
                self.assert_plain(ours.text.encode())
                self.assertNotRegex(b"".join(ours.lines), rb"[\x00-\x1f\x7f]")
                self.check_others(given, files, gpg)

    def check_others(self, given, files, gpg):
        """The other programs, which have no status lines. What was valid once is good to the verifier."""
        good = sum(word in ("GOODSIG", "EXPKEYSIG", "REVKEYSIG") for word in gpg.words)
        *signature, data = files
        words = [*(f"--signature={path}" for path in signature), "--data", data, "--", self.ring]
        said = subprocess.run([VERIFIER, *words], stdin=subprocess.DEVNULL, capture_output=True, check=False)
        self.assertIn(said.returncode, (0, 1), said)
        self.assertTrue(said.stdout.count(b"signature good ") <= good or given.known, said)
        if not given.is_beside:
            words = ["verify", *signature] if signature else ["inline-verify"]
            sopv = subprocess.run([self.host.folder / "bin/tukyamid-sopv", *words, self.ring], check=False,
                                  input=Path(data).read_bytes(), capture_output=True, env=self.host.environment)
            self.assertTrue(sopv.returncode != 0 or "GOODSIG" in gpg.words or given.known, sopv)
            self.assert_plain(sopv.stderr)
        self.assert_plain(said.stdout, said.stderr)

    def assert_plain(self, *texts):
        """Nothing that a signature says reaches a terminal as anything but text."""
        for text in texts:
            self.assertFalse(is_status_line(text.decode("utf-8", "replace")), text)
            self.assertIsNone(re.search(rb"[\x00-\x08\x0b-\x1f\x7f]|\xe2\x80\xae", text), text)

    def test_what_is_good_is_claimed(self):
        """Otherwise the comparison would say nothing."""
        for name in ("good", "subkey", "armored", "message: good", "cleartext: good", "beside"):
            ours = self.host.ours("--verify", *self.files(self.cases.given[name]))
            self.assertEqual((ours.exit, ours.words[-3:]), (0, ["GOODSIG", "VALIDSIG", "TRUST_ULTIMATE"]), name)

    def test_an_unknown_subcommand(self):
        sopv = subprocess.run([self.host.folder / "bin/tukyamid-sopv", "x\x1b[2J\n[GNUPG:] GOODSIG"], check=False,
                              capture_output=True, env=self.host.environment)
        self.assertEqual(sopv.returncode, 69)
        self.assert_plain(sopv.stderr)
