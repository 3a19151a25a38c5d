"""Keys that gpg and Sequoia treat as expired, and the engine doesn't: the command says so in every form. What both say
is asked of them."""

import functools
import json
import os
import re
import shutil
import subprocess
import unittest

from asking import DECEMBER, in_every_form
from made import CREATED, PRIMARY, Made, key_lasts, signature_lasts
from outside import COMMAND, TRUSTING, folder, needs_engine, needs_gpg, run
from tukyamid.openpgp.certificates import read_certificate
from tukyamid.openpgp.lifetimes import expired_elsewhere

DEBIAN = "/usr/share/keyrings/debian-keyring.gpg"
DEBIANS = "82d119a840c6efca6f5af9459edcc991d9ab457e"
DAY, YEAR = 86_400, 365 * 86_400
MAY_2020 = 1_590_000_000


class Rules(unittest.TestCase):
    """What each program takes as a key's end, by their sources (the head of `lifetimes` names them)."""

    def said(self, made, time=MAY_2020, issuer=None):
        found = expired_elsewhere(read_certificate(made.octets), issuer or (lambda number: made.fpr), time)
        return None if found is None else (found.programs, found.since)

    def test_an_end_on_a_user_id_behind_a_direct_signature_that_sets_none(self):
        key = Made(1).direct(CREATED)
        key.certified(b"a", key, CREATED + DAY, key_lasts(YEAR))
        self.assertEqual(self.said(key), (("gpg", "Sequoia"), CREATED + YEAR))
        self.assertIsNone(self.said(key, CREATED + YEAR - 1))
        self.assertEqual(self.said(key, CREATED + YEAR), (("gpg", "Sequoia"), CREATED + YEAR))

    def test_a_direct_signature_that_sets_an_end_counts_first_for_gpg(self):
        key = Made(1).direct(CREATED, key_lasts(50 * YEAR))
        key.certified(b"a", key, CREATED + DAY, key_lasts(YEAR))
        self.assertEqual(self.said(key), (("Sequoia",), CREATED + YEAR))

    def test_only_the_primary_user_id_counts_for_sequoia(self):
        key = Made(1).direct(CREATED)
        key.certified(b"a", key, CREATED, PRIMARY).certified(b"b", key, CREATED + DAY, key_lasts(YEAR))
        self.assertEqual(self.said(key), (("gpg",), CREATED + YEAR))

    def test_the_newest_signature_counts(self):
        key = Made(1).direct(CREATED)
        key.certified(b"a", key, CREATED, key_lasts(YEAR)).certified(b"a", key, CREATED + DAY)
        self.assertIsNone(self.said(key))

    def test_signatures_that_are_not_live_not_its_own_or_revoked_count_for_nothing(self):
        other = Made(2)
        for made in (
            lambda key: key.certified(b"a", key, CREATED, key_lasts(YEAR), signature_lasts(DAY)),
            lambda key: key.certified(b"a", key, MAY_2020 + 1, key_lasts(YEAR)),
            lambda key: key.certified(b"a", other, CREATED, key_lasts(YEAR)),
            lambda key: key.certified(b"a", key, CREATED, key_lasts(YEAR)).certified(b"a", key, CREATED + 1, kind=0x30),
        ):
            self.assertIsNone(self.said(made(Made(1).direct(CREATED))))
        key = Made(1).direct(CREATED)
        key.certified(b"a", key, CREATED + DAY, key_lasts(YEAR))
        self.assertIsNone(self.said(key, issuer=lambda number: None))


class Key:
    """A key of gpg's that names a revoker by a direct key signature, and then is given an end in the past."""

    def __init__(self):
        self.home = folder() / "ended"
        self.home.mkdir(mode=0o700)
        self.uid = "Ended <ended@example.org>"
        self.fpr, revoker = self._make(self.uid), self._make("Revoker <revoker@example.org>")
        self._gpg("--faked-system-time", "20250102T000000!", "--command-fd", "0", "--status-fd", "1", "--edit-key",
                  self.fpr, "addrevoker", typed=f"{revoker}\ny\nsave\n".encode())
        self._gpg("--batch", "--faked-system-time", "20250201T000000!", "--quick-set-expire", self.fpr,
                  "20250601T000000")
        self.keyring = folder() / "ended.pgp"
        self.keyring.write_bytes(self._gpg("--export", self.fpr))
        subprocess.run(["gpgconf", "--homedir", str(self.home), "--kill", "all"], check=False)

    def _gpg(self, *words, typed=b""):
        done = subprocess.run(["gpg", "--homedir", str(self.home), "--quiet", "--no-tty", "--yes", *words], input=typed,
                              capture_output=True, timeout=600, check=False)
        if done.returncode:
            raise RuntimeError(f"gpg {words}: {done.stderr.decode(errors='replace')}")
        return done.stdout

    def _make(self, uid):
        said = self._gpg("--batch", "--status-fd", "1", "--faked-system-time", "20250101T000000!", "--passphrase", "",
                         "--quick-gen-key", uid, "ed25519", "cert,sign", "never")
        return re.search(rb"KEY_CREATED P ([0-9A-F]{40})", said).group(1).decode().lower()


@functools.cache
def ended_key():
    return Key()


@needs_engine
@needs_gpg
class Ended(unittest.TestCase):
    SINCE = 1_748_736_000  # 1 June 2025

    @staticmethod
    def words(*words, time=DECEMBER):
        key = ended_key()
        return ["--no-service", "--no-cache", "--keyring", key.keyring, "--verifier", TRUSTING, "--root", key.fpr,
                "--time", time, *words]

    def test_gpg_and_sequoia_take_it_as_expired(self):
        key = ended_key()
        listed = run(["gpg", "--homedir", folder() / "ended", "--with-colons", "--faked-system-time",
                      "20251201T000000!", "--list-keys", key.fpr]).stdout.decode()
        public = next(line.split(":") for line in listed.splitlines() if line.startswith("pub:"))
        self.assertEqual((public[1], int(public[6])), ("e", self.SINCE))
        if shutil.which("sq"):
            said = run(["sq", "inspect", key.keyring]).stdout.decode()
            self.assertRegex(said, r"(?s)The primary key is not live.*Expiration time: 2025-06-01 ")

    def test_every_form_says_so(self):
        key = ended_key()
        sentence = "gpg and Sequoia treat this key as expired (since 2025-06-01)"
        for question in ["authenticate", key.fpr, key.uid], ["identify", key.fpr], ["list"], ["list", "--paths"]:
            shown, is_reached = in_every_form(self.words(*question))
            self.assertTrue(is_reached)
            for form in "tree", "json", "html":
                self.assertEqual(shown[form].count(sentence), 1, (question, form))
            drawn = shown["dot"].count("expired for gpg and Sequoia since 2025-06-01")
            self.assertEqual(drawn, 1, question)
            self.assertIn(f"exp:{self.SINCE}:gpg:Sequoia\n", shown["colons"])
            (binding,) = json.loads(shown["json"])["bindings"]
            self.assertEqual((binding["expired_elsewhere"]["programs"], binding["expired_elsewhere"]["since"]),
                             (["gpg", "Sequoia"], self.SINCE))

    def test_before_its_end_nothing_is_said(self):
        shown, is_reached = in_every_form(self.words("identify", ended_key().fpr, time="2025-05-01"))
        self.assertEqual((is_reached, "expired since" in shown["tree"]), (True, False))
        self.assertTrue(in_every_form(self.words("--strict", "list", time="2025-05-01"))[1])

    def test_strict(self):
        key = ended_key()
        for question in ["authenticate", key.fpr, key.uid], ["list"], ["list", "--paths"]:
            shown, is_reached = in_every_form(self.words("--strict", *question))
            self.assertFalse(is_reached)
            self.assertFalse(json.loads(shown["json"])["bindings"][0]["reached"])
            self.assertIn(":120:no:ok\n", shown["colons"])
            self.assertIn("not reached, because of --strict", shown["tree"])
            self.assertNotRegex(shown["tree"], "(?m)^ *120 ")
        done = run([COMMAND, *self.words("--strict", "identify", key.fpr)])
        self.assertEqual((done.returncode, done.stderr), (1, b""))

    @unittest.skipUnless(os.access(DEBIAN, os.R_OK), "debian-keyring isn't installed")
    def test_a_key_of_debian_s(self):
        """It is taken out of the keyring by gpg, which also says when it expired."""
        home = folder() / "debian"
        home.mkdir(mode=0o700)
        gpg = ["gpg", "--homedir", home, "--no-default-keyring", "--keyring", DEBIAN]
        exported = run([*gpg, "--export", DEBIANS]).stdout
        if not exported:
            self.skipTest("this debian-keyring hasn't the key")
        listed = run([*gpg, "--with-colons", "--list-keys", DEBIANS]).stdout.decode().splitlines()
        public = next(line.split(":") for line in listed if line.startswith("pub:"))
        (home / "key.pgp").write_bytes(exported)
        done = run([COMMAND, "--no-service", "--no-cache", "--keyring", home / "key.pgp", "--verifier", TRUSTING,
                    "--root", DEBIANS, "--format", "json", "identify", DEBIANS])
        bindings = json.loads(done.stdout)["bindings"]
        reached = [one for one in bindings if one["reached"]]
        self.assertGreater(len(reached), 0)
        self.assertEqual({one["expired_elsewhere"]["since"] for one in reached}, {int(public[6])})
