"""Where trust roots come from: gpg's owner trust, a certificate directory, and sq's own directory. What gpg takes as
valid is asked of gpg."""

import functools
import json
import os
import re
import shutil
import subprocess
import unittest

from asking import DECEMBER, Asking
from friends import PEOPLE
from outside import COMMAND, TRUSTING, folder, needs_engine, needs_gpg, run, verifier_built

# Who certifies whom; the last certification is for the issuer's own keyring alone.
CERTIFIED = [("Me", "Full"), ("Me", "M1"), ("Me", "M2"), ("Me", "M3"), ("Full", "Second"), ("Second", "Far"),
             ("M1", "Three"), ("M2", "Three"), ("M3", "Three"), ("M1", "Two"), ("M2", "Two"), ("Stranger", "Lost")]
TRUST = {"Me": 6, "Full": 5, "Second": 5, "Stranger": 5, "M1": 4, "M2": 4, "M3": 4}


class Home:
    """A home of gpg's, with keys, certifications and owner trust."""

    def __init__(self, name="home", trust=None, others=("Far", "Three", "Two", "Lost", "Local"), certified=None):
        self.path = folder() / name
        self.trust = TRUST if trust is None else trust
        self.path.mkdir(mode=0o700)
        subprocess.run(["gpg-agent", "--homedir", str(self.path), "--daemon"], stdin=subprocess.DEVNULL,
                       stdout=subprocess.DEVNULL, stderr=subprocess.DEVNULL, timeout=600, check=True)
        self.fpr = {name: self._make(name) for name in [*self.trust, *others]}
        for issuer, target in CERTIFIED if certified is None else certified:
            self.gpg("-u", self.fpr[issuer], "--quick-sign-key", self.fpr[target])
        if "Local" in others:
            self.gpg("-u", self.fpr["Me"], "--quick-lsign-key", self.fpr["Local"])

    def take_trust(self):
        # A key that gpg makes has ultimate trust; 2 is none.
        trust = "".join(f"{fpr.upper()}:{self.trust.get(name, 2)}:\n" for name, fpr in self.fpr.items())
        self.gpg("--import-ownertrust", typed=trust.encode())
        self.gpg("--check-trustdb")
        return self

    def trust_half(self, issuer, target):
        """A trust signature of amount 60 and depth 1, as gpg makes it: its first choice is marginal trust."""
        self.gpg("-u", self.fpr[issuer], "--command-fd", "0", "--edit-key", self.fpr[target],
                 typed=b"tsign\n1\n1\n\ny\nsave\n", batch=False)

    def gpg(self, *words, typed=b"", batch=True):
        options = ["--homedir", str(self.path), *["--batch"] * batch, "--quiet", "--no-tty", "--yes"]
        done = subprocess.run(["gpg", *options, *words], input=typed, capture_output=True, timeout=600, check=False)
        if done.returncode:
            raise RuntimeError(f"gpg {words}: {done.stderr.decode(errors='replace')}")
        return done.stdout

    def _make(self, name):
        said = self.gpg("--status-fd", "1", "--passphrase", "", "--quick-gen-key",
                        f"{name} <{name.lower()}@example.org>", "ed25519", "cert,sign", "never")
        return re.search(rb"KEY_CREATED P ([0-9A-F]{40})", said).group(1).decode().lower()

    def valid(self):
        """The names whose user ID gpg takes as fully or ultimately valid."""
        lines = [line.split(":") for line in self.gpg("--with-colons", "--list-keys").decode().splitlines()]
        return {line[9].split(" ")[0] for line in lines if line[0] == "uid" and line[1] in ("f", "u")}


@functools.cache
def home():
    return Home().take_trust()


@functools.cache
def mixed_home():
    """Where trust signatures and owner trust meet."""
    made = Home("mixed", {"Me": 6, "Full": 5, "HalfFull": 5, "Both": 4, "M": 4},
                ["Half", "Half2", "ByHalfFull", "TwoHalves", "Twice", "Once"],
                [("Me", "Full"), ("Me", "M"), ("Full", "Both"), ("HalfFull", "ByHalfFull"), ("Half", "TwoHalves"),
                 ("Half2", "TwoHalves"), ("Both", "Twice"), ("M", "Twice"), ("Both", "Once")])
    for target in "Half", "Half2", "HalfFull", "Both":
        made.trust_half("Me", target)
    return made.take_trust()


@needs_engine
@needs_gpg
class OfGpg(unittest.TestCase):
    def ask(self, *words, gnupg=None):
        environment = {**os.environ, "GNUPGHOME": str(gnupg or home().path)}
        return run([COMMAND, "--no-service", "--no-cache", "--verifier", TRUSTING, *words], env=environment)

    def listed(self, *words):
        done = self.ask("--format", "json", *words, "list")
        self.assertEqual(done.stderr, b"")
        report = json.loads(done.stdout)
        names = {fpr: name for name, fpr in home().fpr.items()}
        return ({one["user_id"].split(" ")[0] for one in report["bindings"]},
                {names[root["fingerprint"]]: root["amount"] for root in report["roots"]})

    def test_the_command_finds_what_gpg_finds(self):
        expected = {"Me", "Full", "M1", "M2", "M3", "Second", "Far", "Three", "Local"}
        self.assertEqual(home().valid(), expected)
        listed, roots = self.listed("--gpg")
        self.assertEqual(listed, expected)
        self.assertEqual(roots, {"Me": 120, "Full": 120, "Second": 120, "M1": 40, "M2": 40, "M3": 40})

    def test_where_trust_signatures_and_owner_trust_meet(self):
        """It is as USING.md says: gpg finds a key valid that half a trust signature certifies, needs three signers of
        marginal trust where two amounts of 60 are enough here, and takes a signer once that counts here by its owner
        trust and by a trust signature."""
        at_gpg = mixed_home().valid()
        done = self.ask("--gpg", "--format", "json", "list", gnupg=mixed_home().path)
        here = {one["user_id"].split(" ")[0] for one in json.loads(done.stdout)["bindings"]}
        both = {"Me", "Full", "M", "Both"}
        self.assertEqual(at_gpg, both | {"Half", "Half2", "HalfFull", "ByHalfFull"})
        self.assertEqual(here, both | {"TwoHalves", "Twice"})

    def test_two_of_marginal_trust_are_not_enough(self):
        done = self.ask("--gpg", "--format", "json", "identify", home().fpr["Two"])
        self.assertEqual(json.loads(done.stdout)["bindings"][0]["amount"], 80)

    def test_the_keyring_without_the_owner_trust(self):
        listed, roots = self.listed("--gpg-keyring", "--root", home().fpr["Full"])
        self.assertEqual((listed, roots), ({"Full", "Second"}, {"Full": 120}))

    def test_without_a_keyring_or_a_root(self):
        nowhere = self.ask("--gpg", "list", gnupg=folder() / "nowhere")
        self.assertEqual((nowhere.returncode, nowhere.stdout), (3, b""))
        self.assertRegex(nowhere.stderr.decode(), r"\Atukyamid: gpg has no keyring: \S+ isn't there\n\Z")
        self.assertFalse((folder() / "nowhere").exists())
        empty = folder() / "empty-home"
        empty.mkdir(mode=0o700)
        said = self.ask("--gpg", "list", gnupg=empty).stderr.decode()
        self.assertRegex(said, r"\Atukyamid: gpg's keyring in \S+ is empty\n\Z")
        self.assertEqual(os.listdir(empty), [])  # gpg would have made a keyring.

    def test_a_keyring_without_a_trust_database(self):
        copied = folder() / "copied-home"
        copied.mkdir(mode=0o700)
        shutil.copy(home().path / "pubring.kbx", copied)
        said = self.ask("--gpg", "list", gnupg=copied).stderr.decode()
        self.assertIn("gpg trusts no key ultimately", said)
        self.assertEqual(os.listdir(copied), ["pubring.kbx"])


@needs_engine
@needs_gpg
class OfDirectories(Asking):
    def directory(self, name):
        return self.friends.as_directory(folder() / name, "Alice")

    def asked(self, path, *words, verifier=TRUSTING, environment=None):
        done = run([COMMAND, "--no-service", "--no-cache", "--directory", path, "--verifier", verifier, "--time",
                    DECEMBER, "--format", "json", *words, "authenticate", self.fpr["Carol"], PEOPLE["Carol"]],
                   env=environment)
        return done.returncode, json.loads(done.stdout) if done.stdout else done.stderr.decode()

    def test_the_root_of_a_directory(self):
        status, report = self.asked(self.directory("plain"))
        self.assertEqual((status, report["roots"]), (0, [{"fingerprint": self.fpr["Alice"], "amount": 120}]))

    def test_sq_s_own_root(self):
        """If no root is given, it is that of the user's own directory."""
        own = folder() / "sq"
        self.friends.as_directory(own / "pgp.cert.d", "Alice")
        words = self.words("--format", "json", "authenticate", self.fpr["Carol"], PEOPLE["Carol"], root=None)
        for environment in {"XDG_DATA_HOME": str(own)}, {"PGP_CERT_D": str(own / "pgp.cert.d")}:
            done = run(words, env={**os.environ, **environment})
            report = json.loads(done.stdout)
            roots = [{"fingerprint": self.fpr["Alice"], "amount": 120}]
            self.assertEqual((done.returncode, report["roots"]), (0, roots))
            self.assertIn("the root is sq's own", report["notes"][0])

    def test_a_root_that_is_armored_or_has_secret_parts(self):
        """As the draft of the shared certificate directory has it. Only the real verifier reads these."""
        built = verifier_built()
        if built is None:
            self.skipTest("the verifier isn't built")
        armored, secret = self.directory("armored"), self.directory("secret")
        (armored / "trust-root").write_bytes(self.friends.armored_alice(False))
        (secret / "trust-root").write_bytes(self.friends.armored_alice(True))
        for path, notes in (armored, []), (secret, [f"the secret parts of {secret}/trust-root were left out"]):
            shutil.rmtree(path / self.fpr["Alice"][:2])  # It is there as the root alone, as sq has it.
            status, report = self.asked(path, verifier=built)
            self.assertEqual((status, report["notes"]), (0, notes), report)

    def test_a_root_that_is_nothing(self):
        path = self.directory("damaged")
        (path / "trust-root").write_bytes(b"nothing")
        status, said = self.asked(path)
        self.assertEqual(status, 3)
        self.assertRegex(said, r"\Atukyamid: [^\n]*\n\Z")
