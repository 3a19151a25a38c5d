"""Strict policies: what the engine doesn't reach is refused in the way that every program takes for a refusal."""

from case import Case

REACHED = ("alice", "bob", "sub")
NOT_REACHED = ("marg", "carol", "dave", "eve", "mia")


class Strict(Case):
    def setUp(self):
        super().setUp()
        self.host.configure("strict = true\n")

    def verify(self, *words):
        return self.host.ours("--verify", *words)

    def test_who_is_reached(self):
        for name in REACHED:
            for words in ((f"{name}.detached", "data"), (f"{name}.clear",), (f"{name}.opaque",)):
                answer = self.verify(*words)
                self.assertEqual(answer.exit, 0, answer)
                self.assertIn("VALIDSIG", answer.words)

    def test_who_isnt_reached(self):
        for name in NOT_REACHED:
            for words in ((f"{name}.detached", "data"), (f"{name}.clear",), (f"{name}.opaque",)):
                with self.subTest(name, words=words):
                    self.assert_refused(self.verify(*words))
        self.assert_refused(self.verify("expiring.detached", "data"))

    def test_bad_stays_bad(self):
        answer = self.verify("bob.detached", "altered")
        self.assertEqual((answer.exit, answer.words), (1, ["NEWSIG", "BADSIG"]))

    def test_two_signatures(self):
        """Each is answered by itself, and the exit status is the worse one, as gpg's is with an unknown key."""
        answer = self.verify("two.detached", "data")
        self.assertEqual(answer.exit, 2)
        self.assertEqual(answer.words, ["NEWSIG", "SIG_ID", "GOODSIG", "VALIDSIG", "TRUST_FULLY", "NEWSIG", "ERRSIG"])

    def test_thresholds_and_whom(self):
        self.host.configure("strict = true\nthreshold = 2\n")
        self.assert_refused(self.verify("bob.detached", "data"))
        self.host.configure('strict = true\nfor = ["@example.net"]\n')
        self.assert_refused(self.verify("bob.detached", "data"))
        self.host.configure('strict = true\nfor = ["@example.org"]\n')
        self.assertEqual(self.verify("bob.detached", "data").exit, 0)

    def test_without_roots(self):
        self.host.configure("strict = true\n", roots=())
        self.assert_refused(self.verify("alice.detached", "data"))

    def test_for_one_program(self):
        self.host.configure("[caller.apt]\nstrict = true\n")
        self.assertEqual(self.verify("carol.detached", "data").exit, 0)
        answer = self.host.ours("--verify", "carol.detached", "data", environment={"TUKYAMID_CALLER": "apt"})
        self.assert_refused(answer)

    def test_what_isnt_known_here_is_refused(self):
        """gpg would answer it by its own trust."""
        for words in (["--skip-verify", "--verify", "bob.detached", "data"],
                      ["--faked-system-time", "1", "--verify", "bob.detached", "data"],
                      ["--no-such-option", "--verify", "bob.detached", "data"],
                      ["--verif", "bob.detached", "data"]):
            answer = self.host.ours(*words)
            self.assertEqual((answer.exit, answer.words), (2, ["FAILURE"]), words)
