"""Listings of keys for programs, and the gpgconf in front of the real one."""

import subprocess

from case import Case
from host import PROGRAM

CASES = ("alice", "bob", "sub", "marg", "carol", "dave", "eve")


class Listing(Case):
    def listed(self, *words, program=PROGRAM):
        run = subprocess.run([program, "--with-colons", *words], capture_output=True, text=True, check=False,
                             env=self.host.environment, stdin=subprocess.DEVNULL)
        # The line about the trust database says when gpg last looked at it.
        return run.returncode, [line.split(":") for line in run.stdout.splitlines() if not line.startswith("tru:")]

    def validities(self, *words):
        """The validity of each key and user ID, by the kind of line."""
        return {(line[0], line[1]) for line in self.listed("--list-keys", *words)[1] if line[0] in ("pub", "uid")}

    def test_beside_gpg(self):
        """gpg has the same trust here, so that its listing is the same."""
        for words in (["--list-keys", "--", self.fpr["bob"]], ["--list-keys", *(self.fpr[name] for name in CASES)],
                      ["--fixed-list-mode", "--with-fingerprint", "-k", "sub@example.org"], ["--list-keys", "nobody"]):
            self.assertEqual(self.listed(*words), self.listed(*words, program="/usr/bin/gpg"), words)

    def test_the_roots_decide(self):
        self.host.configure(roots=("carol",))
        self.assertEqual(self.validities("carol@example.org"), {("pub", "u"), ("uid", "u")})
        self.assertEqual(self.validities("bob@example.org"), {("pub", "-"), ("uid", "-")})
        self.host.configure(roots=())
        self.assertEqual(self.validities("alice@example.org"), {("pub", "-"), ("uid", "-")})

    def test_the_service_is_away(self):
        self.host.configure('socket = "/nonexistent"\n')
        exit_, lines = self.listed("--list-keys", "bob@example.org")
        self.assertEqual((exit_, {line[1] for line in lines if line[0] in ("pub", "uid")}), (2, {"-"}))

    def test_with_signatures(self):
        for words in (["--list-sigs", self.fpr["marg"]], ["--check-sigs", self.fpr["eve"]], ["--fingerprint", "bob"]):
            self.assertEqual(self.listed(*words), self.listed(*words, program="/usr/bin/gpg"), words)
        self.host.configure(roots=("carol",))
        self.assertIn(("uid", "-"), {(line[0], line[1]) for line in self.listed("--list-sigs", self.fpr["bob"])[1]})

    def test_gpgconf(self):
        """It names ours for gpg, and whatever the real one names for the others."""
        ours, theirs = (subprocess.run([program, "--list-components"], capture_output=True, text=True, check=True,
                                       env=self.host.environment).stdout.splitlines()
                        for program in (self.host.folder / "bin/gpgconf", "/usr/bin/gpgconf"))
        changed = [(one, other) for one, other in zip(ours, theirs, strict=True) if one != other]
        self.assertEqual(len(changed), 1)
        self.assertEqual(changed[0][0].split(":")[2], str(PROGRAM.resolve()))
        self.assertTrue(changed[0][1].startswith("gpg:"))


class ForPeople(Case):
    """gpg's listing for people, which has the trust in brackets."""

    def shown(self, *words, program=PROGRAM, status=0, environment=None):
        run = subprocess.run([program, *words], capture_output=True, check=False, stdin=subprocess.DEVNULL,
                             env=self.host.environment | (environment or {}))
        self.assertEqual(run.returncode, status, run.stderr)
        return run.stdout.decode("utf-8", "replace")

    def both(self, *words, **how):
        """Our listing, which is gpg's, since gpg has the same trust here."""
        ours = self.shown(*words, **how)
        self.assertEqual(ours, self.shown(*words, program="/usr/bin/gpg", **how), words)
        return ours

    def test_beside_gpg(self):
        fprs = [self.fpr[name] for name in CASES]
        said = self.both("--list-keys", *fprs)
        for validity in ("[ultimate]", "[  full  ]", "[marginal]", "[ unknown]", "[ expired]", "[ revoked]"):
            self.assertIn(validity, said)
        for words in (["-k", *fprs], ["--keyid-format", "long", "--list-keys", *fprs],
                      ["--keyid-format=0xshort", "-k", *fprs], ["--fingerprint", *fprs], ["--list-sigs", *fprs],
                      ["--check-sigs", "--with-fingerprint", *fprs], ["--list-public-keys", "--", "bob@example.org"],
                      ["--list-options", "no-show-uid-validity", "-k", *fprs],
                      ["--list-options", "show-unusable-uids", "-k", *fprs], ["--with-keygrip", "-k", *fprs]):
            with self.subTest(words):
                self.both(*words)
        self.both("--list-keys", "nobody", status=2)

    def test_the_roots_decide(self):
        self.host.configure(roots=("carol",))
        both = [self.fpr["carol"], self.fpr["bob"]]
        theirs = self.shown("-k", *both, program="/usr/bin/gpg")
        self.assertEqual(theirs.count("[ unknown] Carol"), 1)
        expected = theirs.replace("[ unknown] Carol", "[ultimate] Carol").replace("[  full  ] Bob", "[ unknown] Bob")
        self.assertEqual(self.shown("-k", *both), expected)

    def test_another_language(self):
        """gpg's words for a validity may be others; ours are in English."""
        with_ = {"LANGUAGE": "de", "LC_ALL": "C.UTF-8"}
        self.assertIn("[  full  ] Bob", self.shown("-k", "bob@example.org", environment=with_))

    def test_the_service_is_away(self):
        self.host.configure('socket = "/nonexistent"\n')
        said = self.shown("-k", self.fpr["alice"], self.fpr["bob"], self.fpr["eve"], status=2)
        self.assertEqual([line.split("]")[0].split("[")[1] for line in said.splitlines() if line.startswith("uid")],
                         [" unknown", " unknown", " revoked"])

    def test_a_user_id_that_shows_a_validity(self):
        """What a user ID has in brackets stays its own."""
        name = "[  full  ] Mallory\\ <m@example.org>"
        home = self.folder / "home"
        home.mkdir(mode=0o700)
        made = ["--batch", "--passphrase", "", "--quick-generate-key", name, "ed25519", "sign"]
        subprocess.run(["gpg", "--homedir", home, *made], check=True, capture_output=True, stdin=subprocess.DEVNULL)
        self.addCleanup(subprocess.run, ["gpgconf", "--homedir", home, "--kill", "all"], check=False)
        self.host.configure(f'homes = ["{home}"]\n')
        said = self.shown("--homedir", home, "-k")
        self.assertIn("[ unknown] [  full  ] Mallory", said)
        self.assertEqual(said.count("[ultimate]"), 0)
