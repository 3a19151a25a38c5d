"""Messages that hold what is signed, decrypted ones, keyrings that are named, and keys that gpg alone has: the content
is gpg's, and trust is by the engine."""

import subprocess

from case import Case
from host import PROGRAM
from people import DATA

CASES = ("alice", "bob", "sub", "marg", "carol", "dave", "eve", "mia")
STRIPPED = b"first line\n- second line\nthird line with spaces behind it\n"


def plain(lines):
    """Status lines of which PLAINTEXT has neither time nor name."""
    return [b" ".join([*line.split(b" ")[:2], b"0", b""]) if line.startswith(b"PLAINTEXT ") else line
            for line in lines]


class Content(Case):
    def both(self, *words, **how):
        ours, theirs = self.host.ours(*words, **how), self.host.theirs(*words, **how)
        self.assertEqual(plain(ours.lines), plain(theirs.lines), words)
        self.assertEqual((ours.exit, ours.output), (theirs.exit, theirs.output), words)
        return ours

    def test_signed_messages(self):
        """With `--output`, with no command at all, and by standard input, as dscverify, GPGME and mutt ask."""
        for name in CASES:
            for how, content in ("opaque", DATA), ("clear", STRIPPED):
                file = f"{name}.{how}"
                octets = (self.people.folder / file).read_bytes()
                with self.subTest(file):
                    self.assertEqual(self.both("--output", "-", "--", file).output, content)
                    self.both("--verify", "--output", "-", file)
                    self.both("--verify", "--output", "-", given=octets)
                    self.both("--output", "-", given=octets)
                    self.both("--decrypt", file)

    def test_a_file_for_the_content(self):
        place = self.folder / "content"
        answer = self.host.ours("--output", str(place), "--verify", "bob.opaque")
        self.assertEqual((answer.exit, place.read_bytes()), (0, DATA))
        answer = self.host.ours("--output", str(place), "--verify", "bob.clear")
        self.assertEqual((answer.exit, place.read_bytes()), (2, DATA), "without --yes nothing is replaced")
        answer = self.host.ours("--yes", "--output", str(place), "--verify", "bob.clear")
        self.assertEqual((answer.exit, place.read_bytes()), (0, STRIPPED))

    def test_strict(self):
        """What isn't reached has no content."""
        self.host.configure("strict = true\n")
        for words in (["--output", "-", "{}.opaque"], ["--output", "-", "--verify", "{}.clear"]):
            filled = lambda name: [word.format(name) for word in words]  # noqa: E731
            good, refused = self.host.ours(*filled("bob")), self.host.ours(*filled("carol"))
            self.assertEqual((good.exit, good.output[:10]), (0, DATA[:10]))
            self.assert_refused(refused)
            self.assertEqual(refused.output, b"")

    def test_status_lines_among_the_content(self):
        """Whoever has both on one stream gets whole lines of each."""
        run = subprocess.run([PROGRAM, "--status-fd", "1", "--output", "-", "bob.opaque"], capture_output=True,
                             env=self.host.environment, cwd=self.people.folder, stdin=subprocess.DEVNULL, check=True)
        lines = run.stdout.splitlines(keepends=True)
        self.assertEqual(b"".join(line for line in lines if not line.startswith(b"[GNUPG:] ")), DATA)
        self.assertIn(b"[GNUPG:] TRUST_FULLY 0 pgp\n", lines)


class Decrypted(Case):
    @classmethod
    def setUpClass(cls):
        super().setUpClass()
        for name in CASES:
            cls.people.write(f"{name}.secret", cls.people.sign(name, how=("--sign", "--encrypt"),
                                                               options=("-r", "reader@example.org")))
        cls.people.write("unsigned.secret", cls.people.gpg("-r", "reader@example.org", "--output", "-", "--encrypt",
                                                           str(cls.people.folder / "data")))

    def test_beside_gpg(self):
        for name in (*CASES, "unsigned"):
            for words in (["--decrypt", f"{name}.secret"], ["--batch", "--output", "-", f"{name}.secret"]):
                with self.subTest(words):
                    ours, theirs = self.host.ours(*words), self.host.theirs(*words)
                    self.assertEqual(ours.lines, theirs.lines)
                    self.assertEqual((ours.exit, ours.output), (theirs.exit, theirs.output))
                    self.assertEqual(ours.output, DATA)

    def test_from_standard_input(self):
        answer = self.host.ours("--decrypt", given=(self.people.folder / "bob.secret").read_bytes())
        self.assertEqual((answer.exit, answer.output), (0, DATA))
        self.assertIn("TRUST_FULLY", answer.words)
        self.assertIn("DECRYPTION_OKAY", answer.words)

    def test_the_roots_decide(self):
        """gpg's own trust has no part in it."""
        self.host.configure(roots=("carol",))
        self.assertIn("TRUST_ULTIMATE", self.host.ours("--decrypt", "carol.secret").words)
        self.assertIn("TRUST_UNDEFINED", self.host.ours("--decrypt", "bob.secret").words)

    def test_strict(self):
        self.host.configure("strict = true\n")
        for name in ("bob", "unsigned"):
            answer = self.host.ours("--decrypt", f"{name}.secret")
            self.assertEqual((answer.exit, answer.output), (0, DATA))
        for name in ("marg", "carol", "dave", "eve", "mia"):
            answer = self.host.ours("--decrypt", f"{name}.secret")
            self.assert_refused(answer)
            self.assertEqual((answer.output, "Good signature" in answer.text), (b"", False))

    def test_the_service_is_away(self):
        self.host.configure('socket = "/nonexistent"\n')
        answer = self.host.ours("--decrypt", "bob.secret")
        self.assert_refused(answer)
        self.assertIn("FAILURE", answer.words)


class Keyrings(Case):
    """With a strict policy the engine has to reach whoever is in a keyring that is named."""

    def setUp(self):
        super().setUp()
        self.host.configure("strict = true\n")

    def test_of_gpg(self):
        ring = ["--no-default-keyring", "--keyring", str(self.people.ring)]
        for name, words in ((name, [*ring, "--verify", f"{name}.detached", "data"]) for name in CASES):
            answer = self.host.ours(*words)
            if name in ("alice", "bob", "sub"):
                self.assertEqual((answer.exit, answer.words[:4]), (0, ["NEWSIG", "SIG_ID", "GOODSIG", "VALIDSIG"]),
                                 answer)
            else:
                self.assert_refused(answer)

    def test_of_gpgv(self):
        gpgv = self.host.folder / "bin/gpgv"
        ring = ["--keyring", str(self.people.ring)]
        answer = self.host.run(*ring, "bob.detached", "data", program=gpgv)
        self.assertEqual((answer.exit, answer.words[1:4]), (0, ["SIG_ID", "GOODSIG", "VALIDSIG"]))
        for name in ("carol", "dave", "eve", "mia"):
            self.assert_refused(self.host.run(*ring, f"{name}.detached", "data", program=gpgv))
        answer = self.host.run(*ring, "bob.detached", "altered", program=gpgv)
        self.assertEqual((answer.exit, answer.words), (1, ["NEWSIG", "BADSIG"]))

    def test_a_key_outside_the_keyring(self):
        """It has to be in both."""
        empty = self.write("empty.gpg", b"")
        answer = self.host.run("--keyring", str(empty), "bob.detached", "data", program=self.host.folder / "bin/gpgv")
        self.assert_refused(answer)


class GpgsOwn(Case):
    """A key that gpg's own keyring has, and the service hasn't: the signature is good, and nobody's."""

    def check(self, *words, **how):
        answer = self.host.ours(*words, **how)
        self.assertEqual((answer.exit, answer.words),
                         (0, ["NEWSIG", "SIG_ID", "GOODSIG", "VALIDSIG", "TRUST_UNDEFINED"]), words)

    def test_from_files_and_standard_input(self):
        folder = self.people.folder
        self.check("--verify", "reader.detached", "data")
        self.check("--verify", "reader.detached", "-", given=(folder / "data").read_bytes())
        self.check("--verify", "-", "data", given=(folder / "reader.detached").read_bytes())
        self.check("--verify", given=(folder / "reader.clear").read_bytes())

    def test_strict(self):
        self.host.configure("strict = true\n")
        answer = self.host.ours("--verify", "reader.detached", "data")
        self.assertEqual((answer.exit, answer.words), (2, ["NEWSIG", "ERRSIG", "NO_PUBKEY"]))
