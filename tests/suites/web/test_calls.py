"""What the page's calls return, over six people whose answers are known in advance (see `friends`)."""

import json
import time

from page import DECEMBER, HOSTILE, Served, needs_page

CAROL, DAVE, FRANK = "Carol <carol@example.org>", "Dave <dave@example.net>", "Frank <frank@example.org>"
FEBRUARY, MARCH = 1739577600, 1740787200  # 15 February 2025; the day on which Bob certified Carol.


@needs_page
class Calls(Served):
    def answer(self, *words, **more):
        return self.page.call("answer", **self.subject(*words, **more))

    def chains(self, reply):
        names = {fpr: name for name, fpr in self.fpr.items()}
        return [(path["amount"], [names[path["root"]], *(names[step["target"]] for step in path["steps"])])
                for path in reply["paths"]]

    def without(self, *names):
        return [{"key": self.fpr[name]} for name in names]

    def test_an_answer(self):
        reply = self.answer("Carol", CAROL)
        self.assertEqual((reply["amount"], reply["reached"], reply["word"]), (120, True, "ok"))
        self.assertEqual(self.chains(reply), [(60, ["Alice", "Carol"]), (60, ["Alice", "Bob", "Carol"])])
        bob = reply["paths"][1]["steps"][0]
        self.assertEqual((bob["depth"], bob["amount"], bob["made"], bob["ends"], bob["scopes"]),
                         (1, 120, 1738368000, None, [r"<[^>]+[@.]example\.org>$"]))
        self.assertEqual([(one["word"], one["count"]) for one in reply["others"]], [("edge", 1)])

    def test_why_others_do_not_count(self):
        counts = {one["word"]: one["count"] for one in self.answer("Frank", FRANK)["others"]}
        self.assertEqual(counts, {"edge": 1, "expired": 1, "issuer-hard": 1})
        reply = self.page.call("reasons", **self.subject("Frank", FRANK, word="issuer-hard", begin=0))
        self.assertEqual([(one["issuer"], one["meaning"]) for one in reply["items"]],
                         [(self.fpr["Erin"], "the issuer's key is revoked, with effect at all times")])
        self.assertEqual(reply["names"][self.fpr["Erin"]], "Erin <erin@example.org>")
        self.assertEqual(self.page.call("reasons", **self.subject("Frank", FRANK, word="edge", begin=1))["items"], [])

    def test_at_other_times_and_from_other_roots(self):
        self.assertEqual(self.answer("Carol", CAROL, time=FEBRUARY)["amount"], 60)
        self.assertEqual(self.answer("Carol", CAROL, time=MARCH)["amount"], 120)
        self.assertEqual(self.answer("Carol", CAROL, time=MARCH - 1)["amount"], 60)
        self.assertEqual(self.answer("Carol", CAROL, roots={"Alice": 40})["amount"], 40)
        self.assertEqual(self.chains(self.answer("Carol", CAROL, roots={"Bob": 100})), [(100, ["Bob", "Carol"])])
        nothing = self.answer("Carol", CAROL, roots={})
        self.assertEqual((nothing["amount"], nothing["paths"]), (0, []))

    def test_without_a_key(self):
        self.assertEqual(self.chains(self.answer("Carol", CAROL, without=self.without("Bob"))),
                         [(60, ["Alice", "Carol"])])
        self.assertEqual(self.answer("Carol", CAROL, without=self.without("Alice"))["amount"], 0)
        self.assertEqual(self.answer("Dave", DAVE, without=self.without("Carol"))["amount"], 0)
        self.assertEqual(self.chains(self.answer("Dave", DAVE, without=self.without("Bob"))),
                         [(60, ["Alice", "Carol", "Dave"])])

    def test_why_others_do_not_count_without_a_key(self):
        """The copy has the issuers that no root leads to, so nothing is said of them that isn't so."""
        for root in "Alice", "Carol":
            with self.subTest(root):
                reply = self.answer("Frank", FRANK, roots={root: 120}, without=self.without("Dave"))
                counts = {one["word"]: one["count"] for one in reply["others"]}
                self.assertEqual(counts, {"edge": 1, "expired": 1, "issuer-hard": 1})

    def test_without_a_certification(self):
        direct, by_bob = self.answer("Carol", CAROL)["paths"]
        left = self.answer("Carol", CAROL, without=[{"signature": direct["steps"][0]["signature"]}])
        self.assertEqual(self.chains(left), [(120, ["Alice", "Bob", "Carol"])])
        left = self.answer("Carol", CAROL, without=[{"signature": by_bob["steps"][0]["signature"]}])
        self.assertEqual(self.chains(left), [(60, ["Alice", "Carol"])])
        self.assertEqual(self.answer("Carol", CAROL)["amount"], 120)  # Nothing of it is kept.

    def test_the_moments(self):
        reply = self.page.call("moments", **self.subject("Carol", CAROL))
        said = {(one["time"], one["sort"], one["what"]) for one in reply["moments"]}
        for wanted in (
            (1735689600, "begins", "The key of Bob <bob@example.org> is created"),
            (1738368000, "begins", "The certification of Bob <bob@example.org> by Alice <alice@example.net> begins"),
            (1738454400, "begins", f"The certification of {CAROL} by Alice <alice@example.net> begins"),
            (MARCH, "begins", f"The certification of {CAROL} by Bob <bob@example.org> begins"),
        ):
            self.assertIn(wanted, said)
        self.assertEqual([one["time"] for one in reply["moments"]], sorted(one["time"] for one in reply["moments"]))
        frank = {(one["sort"], one["what"]) for one in
                 self.page.call("moments", **self.subject("Frank", FRANK))["moments"]}
        self.assertIn(("ends", f"The certification of {FRANK} by Bob <bob@example.org> ends"), frank)
        self.assertIn(("revoked", "The key of Erin <erin@example.org> is revoked"), frank)

    def test_what_changed_between_two_moments(self):
        reply = self.page.call("changes", **self.subject("Carol", CAROL, since=FEBRUARY))
        self.assertEqual((reply["before"], reply["after"]), (60, 120))
        self.assertEqual((reply["paths_before"], reply["paths_after"]), (1, 2))
        self.assertEqual([(one["issuer"], one["before"], one["after"]) for one in reply["items"]],
                         [(self.fpr["Bob"], "it wasn't created yet", "is on a path")])
        young = self.page.call("changes", **self.subject("Carol", CAROL, since=0))
        self.assertEqual((young["before"], young["word_before"]), (0, "standing"))

    def test_search(self):
        found = self.page.call("search", text="CAROL@")["found"]
        self.assertEqual([(one["fingerprint"], one["user_id"]) for one in found], [(self.fpr["Carol"], CAROL)])
        for text in self.fpr["Dave"], "0x" + self.fpr["Dave"][-16:].upper():
            self.assertEqual([one["user_id"] for one in self.page.call("search", text=text)["found"]], [DAVE])
        for text in "", "x", "zz" * 9, "\u202e", "\x00\x01":
            self.assertIsInstance(self.page.call("search", text=text)["found"], list)

    def test_names_of_others_are_shown_as_escapes(self):
        for one, user_id in zip(self.hostile, HOSTILE):
            found = self.page.call("search", text=one.fpr)["found"]
            self.assertEqual(len(found), 1)
            shown = found[0]["user_id"]
            self.assertTrue(shown.isprintable(), shown)
            for sign in "\u202e", "\u2066", "\u200b":
                self.assertNotIn(sign, shown)
            asked = {**self.subject("Alice", ""), "fingerprint": one.fpr, "user_id": found[0]["spelled"]}
            self.assertEqual(self.page.call("answer", **asked)["amount"], 120)
        self.assertIn(r"Mallory\x1b[2J\x07\x0d\x0a\x00 <m@example.net>",
                      [self.page.call("search", text=one.fpr)["found"][0]["user_id"] for one in self.hostile])

    def test_the_overview(self):
        asked = self.subject("Carol", CAROL)
        for _ in range(1200):
            reply = self.page.call("overview", **asked)
            if "progress" not in reply:
                break
            time.sleep(0.25)
        tables = {one["name"]: one for one in reply["tables"]}
        strange = len(HOSTILE)
        self.assertEqual(tables["bindings"]["rows"], [
            ["full", "120 or more", 3 + strange], ["partial", "40 to 119", 1], ["less", "1 to 39", 0],
            ["none", "0", 2]])
        introducers = {row[0]: row[1:5] for row in tables["introducers"]["rows"]}
        # Without Alice nobody is reached; without Bob Carol has 60; without Carol Dave has nothing.
        self.assertEqual(introducers, {
            "Alice <alice@example.net>": ["root", 3 + strange, 2 + strange, 3 + strange],
            "Bob <bob@example.org>": ["introducer", 1, 1, 0], "Carol <carol@example.org>": ["introducer", 1, 0, 1]})
        # All certifications by gpg and by hand are by SHA2-256.
        self.assertEqual([row[0] for row in tables["hashes"]["rows"]], ["SHA2-256"])
        self.assertEqual(self.page.call("overview", **asked), reply)
        json.dumps(reply)

    def test_a_proof_is_about_all_that_is_held(self):
        asked = self.subject("Carol", CAROL, without=self.without("Bob"))
        status, _, octets = self.page.send("proof", json.dumps(asked).encode())
        self.assertEqual(status, 400)
        self.assertIn("left out first", json.loads(octets)["error"])

    def test_a_key_that_is_not_there(self):
        asked = {**self.subject("Carol", CAROL), "fingerprint": "aa" * 20}
        reply = self.page.call("answer", **asked)
        self.assertEqual((reply["amount"], reply["word"]), (0, "absent"))
        self.assertEqual(self.page.send("proof", json.dumps(asked).encode())[0], 400)
        self.assertEqual(self.page.call("moments", **asked)["moments"][:1], [])

    def test_the_hour_is_that_of_the_words(self):
        self.assertEqual(self.page.call("begin")["time"], DECEMBER)
