"""Signatures on data: the status lines and exit status of the real gpg on the same files, case by case."""

from case import Case
from host import key_id

# What is other than gpg's: no level above UNDEFINED stands after anything but GOODSIG.
LOWERED = {"expiring": ("TRUST_FULLY 0 pgp", "TRUST_UNDEFINED 0 pgp")}
CASES = ("alice", "bob", "sub", "marg", "carol", "dave", "eve", "mia")


class Beside(Case):
    """Beside gpg, which has the same keyring, owner trust for the root, and marginal trust for the introducer."""

    def check(self, *words, name="", **how):
        ours, theirs = self.host.ours(*words, **how), self.host.theirs(*words, **how)
        # Of a bad signature gpg also says that the key has expired which it names.
        is_bad = "BADSIG" in theirs.words
        lines = [line.decode() for line in theirs.lines if not (is_bad and line.startswith(b"KEYEXPIRED "))]
        before, after = LOWERED.get(name, ("", ""))
        self.assertEqual([line.decode() for line in ours.lines],
                         [after if line == before else line for line in lines], words)
        self.assertEqual(ours.exit, theirs.exit, words)
        return ours

    def test_detached(self):
        for name in (*CASES, "expiring", "two", "half", "sender"):
            with self.subTest(name):
                self.check("--verify", f"{name}.detached", "data", name=name)

    def test_armored_and_textual(self):
        for name in CASES:
            for how in ("armored", "textual"):
                with self.subTest(name, how=how):
                    self.check("--verify", f"{name}.{how}", "data")

    def test_clear_and_opaque(self):
        for name in CASES:
            for how in ("clear", "opaque"):
                with self.subTest(name, how=how):
                    self.check("--verify", f"{name}.{how}")

    def test_bad(self):
        for name in CASES:
            with self.subTest(name):
                self.check("--verify", f"{name}.detached", "altered")
                self.check("--batch", "--verify", f"{name}.detached", "altered")

    def test_from_standard_input(self):
        data = (self.people.folder / "data").read_bytes()
        self.check("--verify", "bob.detached", "-", given=data)
        self.check("--verify", "bob.detached", "-", given=data + b"x")
        self.check("--verify", given=(self.people.folder / "bob.clear").read_bytes())
        self.check("--verify", "-", "data", given=(self.people.folder / "carol.detached").read_bytes())

    def test_data_in_several_files(self):
        data = (self.people.folder / "data").read_bytes()
        front, rest = self.write("front", data[:20]), self.write("rest", data[20:])
        self.check("--verify", "bob.detached", str(front), str(rest))
        self.check("--verify", "bob.detached", str(rest), str(front))

    def test_the_name_of_the_data(self):
        """It is the signature's without its ending, unless gpg runs in batch mode."""
        data = (self.people.folder / "data").read_bytes()
        self.write("thing", data)
        signature = self.write("thing.sig", (self.people.folder / "bob.detached").read_bytes())
        self.assertEqual(self.check("--verify", str(signature)).exit, 0)
        self.assertEqual(self.host.ours("--batch", "--verify", str(signature)).exit, 2)

    def test_options_in_any_order(self):
        """Commands and options stand in any order before the files, joined with their values or not, and shortened."""
        for words in (["--verify", "--batch", "bob.detached", "data"],
                      ["--batch", "--verify", "--no-tty", "--", "bob.detached", "data"],
                      ["--keyid-format=long", "--verify", "--keyid-format", "short", "carol.detached", "data"],
                      ["-qv", "--verify", "--lc-messages=C", "-q", "marg.detached", "data"],
                      ["--no-greet", "--verify", "--exit-on-status-w", "bob.detached", "data"],
                      ["--output", "/nowhere/x", "--verify", "bob.detached", "data"]):
            self.check(*words)

    def test_the_best_user_id(self):
        """That which is authenticated stands in GOODSIG, and one that the sender names counts alone."""
        bob = key_id(self.fpr["bob"])
        answer = self.host.ours("--sender", "bob@example.org", "--verify", "bob.detached", "data")
        self.assertEqual(answer.line("GOODSIG"), f"{bob} Bob <bob@example.org>")
        self.assertIn("TRUST_FULLY", answer.words)
        answer = self.host.ours("--sender", "mallory@example.org", "--verify", "bob.detached", "data")
        self.assertEqual(answer.line("GOODSIG"), f"{bob} Bob <bob@example.org>")
        self.assertIn("TRUST_UNDEFINED", answer.words)


class Levels(Case):
    """Trust by amounts, roots and policies."""

    def level(self, name, *words):
        answer = self.host.ours(*words, "--verify", f"{name}.detached", "data")
        self.assertEqual(answer.exit, 0, answer)
        levels = [word for word in answer.words if word.startswith("TRUST_")]
        self.assertEqual(len(levels), 1, answer)
        return levels[0].removeprefix("TRUST_")

    def test_roots(self):
        for roots, expected in (((), "UNDEFINED"), (("alice",), "FULLY"), (("bob",), "ULTIMATE"),
                                (("carol",), "UNDEFINED")):
            self.host.configure(roots=roots)
            self.assertEqual(self.level("bob"), expected, roots)

    def test_amounts(self):
        self.host.configure("amount = 60\n")
        self.assertEqual(self.level("marg"), "FULLY")
        self.host.configure("amount = 240\n")
        self.assertEqual(self.level("bob"), "MARGINAL")

    def test_whom(self):
        for whom, expected in (("@example.org", "FULLY"), ("@example.net", "UNDEFINED"), ("bob@example.org", "FULLY"),
                               ("alice@example.org", "UNDEFINED")):
            self.host.configure(f'for = ["{whom}"]\n')
            self.assertEqual(self.level("bob"), expected, whom)

    def test_thresholds(self):
        self.host.configure("threshold = 2\n")
        self.assertEqual(self.level("bob"), "MARGINAL")
        data = (self.people.folder / "data").read_bytes()
        both = self.write("both", self.people.sign("bob", "sub", data=data))
        twice = self.write("twice", (self.people.folder / "bob.detached").read_bytes() * 2)
        answer = self.host.ours("--verify", str(both), "data")
        self.assertEqual(answer.words.count("TRUST_FULLY"), 2)
        answer = self.host.ours("--verify", str(twice), "data")
        self.assertEqual((answer.words.count("GOODSIG"), answer.words.count("TRUST_MARGINAL")), (2, 2))

    def test_callers(self):
        self.host.configure('amount = 240\n[caller.git]\namount = 120\n')
        data = ["--verify", "bob.detached", "data"]
        words = lambda **environment: self.host.ours(*data, environment=environment).words  # noqa: E731
        self.assertIn("TRUST_MARGINAL", words())
        self.assertIn("TRUST_FULLY", words(TUKYAMID_CALLER="git"))
        self.assertIn("TRUST_MARGINAL", words(TUKYAMID_CALLER="apt"))
        self.assertEqual(self.host.ours(*data, environment={"TUKYAMID_CALLER": "a b"}).exit, 2)

    def test_a_key_that_was_certified_since(self):
        """At the time of signing nobody had certified Bob's key yet, and the text says why it isn't trusted."""
        early = self.write("early", self.people.sign("bob", at=1700000100))
        answer = self.host.ours("--verify", str(early), "data")
        self.assertEqual((answer.exit, answer.words[-1]), (0, "TRUST_UNDEFINED"))
        why = "It is certified now, but it wasn't when this was signed."
        self.assertIn(why, answer.text)
        self.assertNotIn(why, self.host.ours("--verify", "carol.detached", "data").text)
