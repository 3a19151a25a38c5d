"""The command, over a keyring that gpg made. What is expected is known from who certified whom."""

import shutil
import time
import unittest

from asking import APRIL, DECEMBER, FEBRUARY, Asking
from friends import PEOPLE, friends
from outside import TRUSTING, needs_engine, needs_gpg, run, verifier_built
from tukyamid import Engine
from tukyamid.protocol.reasons import TargetWord
from tukyamid.protocol.refusals import RefusedAbsent, RefusedView


@needs_engine
@needs_gpg
class Loop(unittest.TestCase):
    def test_what_is_pending_is_judged_and_then_listed_and_explained(self):
        fpr = friends().fpr
        with Engine() as engine:
            engine.import_certificates(friends().keyring.read_bytes())
            engine.open_view("v", 1764547200)
            engine.set_root("v", fpr["Alice"])
            pending = list(engine.pending())
            self.assertEqual({one.fpr for one in pending}, set(fpr.values()))
            self.assertEqual(list(engine.list("v", 1)), [])
            for one in pending:
                engine.judge_good(one.number, one.hint)
            self.assertEqual(list(engine.pending()), [])
            listed = {one.user_id.decode(): one.amount for one in engine.list("v", 60)}
            amounts = {"Alice": 120, "Bob": 120, "Carol": 60, "Dave": 60}
            self.assertEqual(listed, {PEOPLE[name]: amount for name, amount in amounts.items()})
            erin = engine.explain("v", fpr["Erin"], PEOPLE["Erin"])
            self.assertEqual(erin.word, TargetWord.HARD)
            self.assertEqual(sorted((one.word, one.issuer) for one in erin.reasons if one.issuer),
                             sorted([("edge", fpr["Alice"]), ("edge", fpr["Bob"])]))
            self.assertRaises(RefusedAbsent, engine.explain, "v", fpr["Erin"], PEOPLE["Bob"])
            self.assertRaises(RefusedView, engine.list, "w", 60)


@needs_engine
@needs_gpg
class Questions(Asking):
    def test_authenticate(self):
        table = [
            ("Alice", DECEMBER, 0, [(120, ["Alice", "Alice"])]),
            ("Bob", DECEMBER, 0, [(120, ["Alice", "Bob"])]),
            ("Carol", DECEMBER, 0, [(60, ["Alice", "Carol"]), (60, ["Alice", "Bob", "Carol"])]),
            ("Carol", FEBRUARY, 1, [(60, ["Alice", "Carol"])]),
            ("Dave", DECEMBER, 1, [(60, ["Alice", "Carol", "Dave"])]),
            ("Erin", DECEMBER, 1, []),
            ("Frank", DECEMBER, 1, []),
            ("Frank", APRIL, 0, [(120, ["Alice", "Bob", "Frank"])]),
        ]
        for name, at, status, chains in table:
            with self.subTest(name, time=at):
                got, report = self.answer("authenticate", self.fpr[name], PEOPLE[name], time=at)
                (binding,) = report["bindings"]
                self.assertEqual((got, self.chains(binding)), (status, chains))
                self.assertEqual(binding["amount"], sum(amount for amount, _ in chains))
                self.assertEqual((report["reached"], binding["reached"]), (status == 0,) * 2)

    def test_the_facts_of_each_step(self):
        _, report = self.answer("authenticate", self.fpr["Carol"], PEOPLE["Carol"])
        short, long = report["bindings"][0]["paths"]
        facts = [(step["amount"], step["depth"], step["made"], step["ends"], step["scopes"], step["user_id"])
                 for path in (short, long) for step in path["steps"]]
        self.assertEqual(facts, [
            (60, 1, 1738454400, None, [], PEOPLE["Carol"]),
            (120, 1, 1738368000, None, [r"<[^>]+[@.]example\.org>$"], PEOPLE["Bob"]),
            (120, 0, 1740787200, None, [], PEOPLE["Carol"])])
        self.assertTrue(all(len(step["signature"]) == 64 for path in (short, long) for step in path["steps"]))

    def test_why_others_do_not_count(self):
        table = [
            ("Frank", DECEMBER, "ok", {("Bob", "expired"), ("Erin", "issuer-hard"), ("Frank", "edge")}),
            ("Frank", "2025-01-10", "ok", {("Bob", "early"), ("Erin", "early"), ("Frank", "edge")}),
            ("Erin", DECEMBER, "hard", {("Alice", "edge"), ("Bob", "edge"), ("Erin", "issuer-hard")}),
            ("Dave", DECEMBER, "ok", {("Bob", "edge"), ("Dave", "edge")}),
        ]
        names = {fpr: name for name, fpr in self.fpr.items()}
        for name, at, word, others in table:
            with self.subTest(name, time=at):
                (binding,) = self.answer("authenticate", self.fpr[name], PEOPLE[name], time=at)[1]["bindings"]
                got = {(names[other["issuer"]], other["word"]) for other in binding["others"]}
                self.assertEqual((binding["target"], got), (word, others))

    def test_wanted_amounts_and_roots(self):
        dave = self.fpr["Dave"], PEOPLE["Dave"]
        for amount, status in ("partial", 0), ("60", 0), ("61", 1), ("full", 1), ("double", 1):
            with self.subTest(amount):
                self.assertEqual(self.ask("--amount", amount, "authenticate", *dave).returncode, status)
        # Two roots: the fewest steps first, from Carol with 90 of her 120; then through her from Alice, with 30 left of
        # what she said of Dave.
        got, report = self.answer("--root", self.fpr["Carol"] + ":90", "authenticate", *dave)
        self.assertEqual((got, self.chains(report["bindings"][0])),
                         (0, [(90, ["Carol", "Dave"]), (30, ["Alice", "Carol", "Dave"])]))

    def test_lookup_and_identify(self):
        for words, status, found in [
            (["lookup", PEOPLE["Carol"]], 0, ["Carol"]), (["lookup", "--email", "CAROL@Example.ORG"], 0, ["Carol"]),
            (["lookup", "carol@example.org"], 1, []), (["lookup", "--email", "erin@example.org"], 1, ["Erin"]),
            (["identify", self.fpr["Bob"]], 0, ["Bob"]), (["identify", self.fpr["Dave"].upper()], 1, ["Dave"]),
            (["identify", "00" * 20], 1, []),
        ]:
            with self.subTest(words):
                got, report = self.answer(*words)
                uids = [one["user_id"] for one in report["bindings"]]
                self.assertEqual((got, uids), (status, [PEOPLE[name] for name in found]))

    def test_list(self):
        for words, status, found in [
            (["list"], 0, {"Alice": 120, "Bob": 120, "Carol": 120}),
            (["--amount", "partial", "list"], 0, {"Alice": 120, "Bob": 120, "Carol": 60, "Dave": 60}),
            (["list", "EXAMPLE.org"], 0, {"Bob": 120, "Carol": 120}), (["list", "dave"], 1, {}),
        ]:
            with self.subTest(words):
                got, report = self.answer(*words)
                listed = {one["user_id"]: one["amount"] for one in report["bindings"]}
                self.assertEqual((got, listed), (status, {PEOPLE[name]: amount for name, amount in found.items()}))

    def test_path(self):
        for names, status, amount, broken in [
            (["Alice", "Bob", "Carol"], 0, 120, None), (["Alice", "Carol"], 1, 60, None),
            (["Alice", "Carol", "Dave"], 1, 60, None), (["Bob", "Carol"], 0, 120, None), (["Carol"], 0, 120, None),
            (["Alice", "Bob", "Dave"], 1, 0,
             (1, r"its scope, <[^>]+[@.]example\.org>$, doesn't include " + PEOPLE["Dave"])),
            (["Bob", "Carol", "Dave"], 1, 0, (1, "its depth is 0, and it would need 1")),
            (["Alice", "Dave"], 1, 0, (1, "no certification")),
            (["Alice", "Bob", "Frank"], 1, 0, (2, "none of its certifications counts")),
        ]:
            with self.subTest(names):
                got, report = self.answer("path", *(self.fpr[name] for name in names), PEOPLE[names[-1]], root=None)
                self.assertEqual((got, report["bindings"][0]["amount"]), (status, amount))
                self.assertEqual(len(report["notes"]), len(names) - 1)
                breaks = [note for note in report["notes"] if "breaks" in note]
                self.assertEqual(len(breaks), 0 if broken is None else 1, report["notes"])
                for note in breaks:
                    self.assertIn(f"step {broken[0]} breaks the path: ", note)
                    self.assertIn(broken[1], note)

    def test_a_path_begins_at_its_first_certificate(self):
        words = ["path", self.fpr["Bob"], self.fpr["Carol"], PEOPLE["Carol"]]
        for roots, amount in ([], 120), (["--root", self.fpr["Bob"] + ":70"], 70), (["--root", self.fpr["Dave"]], 120):
            _, report = self.answer(*roots, *words, root=None)
            self.assertEqual(report["bindings"][0]["amount"], amount)
            self.assertEqual([root["fingerprint"] for root in report["roots"]], [self.fpr["Bob"]])
        absent = self.answer("path", self.fpr["Alice"], "00" * 20, "nobody", root=None)[1]
        self.assertIn("step 1 breaks the path", absent["notes"][0])
        self.assertIn("isn't in the keyring", absent["notes"][0])

    def test_explain(self):
        names = {fpr: name for name, fpr in self.fpr.items()}
        for name, status, target, said in [
            ("Carol", 0, "ok", {("Alice", "edge", 60, 1), ("Bob", "edge", 120, 0), ("Carol", "edge", 120, 0)}),
            ("Frank", 1, "ok", {("Bob", "expired", 120, 0), ("Erin", "issuer-hard", 120, 0),
                                ("Frank", "edge", 120, 0)}),
            ("Erin", 1, "hard", {("Alice", "edge", 120, 1), ("Bob", "edge", 120, 0),
                                 ("Erin", "issuer-hard", 120, 0)}),
        ]:
            with self.subTest(name):
                got, report = self.answer("explain", self.fpr[name], PEOPLE[name])
                (binding,) = report["bindings"]
                others = [(names[one["issuer"]], one["word"], one["amount"], one["depth"]) for one in binding["others"]]
                self.assertEqual((got, binding["target"], set(others)), (status, target, said))
                self.assertEqual((len(others), report["notes"], binding["reasons_by"]), (3, [], "engine"))
        for target, *words in ("no-uid", self.fpr["Bob"], PEOPLE["Carol"]), ("absent", "00" * 20, PEOPLE["Carol"]):
            got, report = self.answer("explain", *words)
            self.assertEqual((got, report["bindings"][0]["target"], report["bindings"][0]["others"]), (1, target, []))

    def test_the_tree(self):
        shown = self.ask("authenticate", self.fpr["Dave"], PEOPLE["Dave"]).stdout.decode()
        lines = [line.strip(" │├└─") for line in shown.splitlines()]
        for line in ("[✗] Dave <dave@example.net>", "amount 60 of 120 (50%): not reached",
                     "path 1: amount 60, 2 steps",
                     f"{self.fpr['Alice']} Alice <alice@example.net> (root, amount 120)",
                     "certified with amount 60, depth 1, made 2025-02-02",
                     f"by {self.fpr['Bob']} Bob <bob@example.org>, made 2025-03-02"):
            self.assertIn(line, lines)

    def test_colons(self):
        done = self.ask("--format", "colons", "authenticate", self.fpr["Frank"], PEOPLE["Frank"], time=APRIL)
        lines = [line.split(":") for line in done.stdout.decode().splitlines()]
        alice, bob, frank = (self.fpr[name] for name in ("Alice", "Bob", "Frank"))
        self.assertEqual([line for line in lines if line[0] in ("tkd", "rot", "bnd", "pth")], [
            ["tkd", "1", "authenticate", "120", "1744675200", "yes"], ["rot", alice, "120"],
            ["bnd", frank, PEOPLE["Frank"], "120", "yes", "ok"], ["pth", "1", "120", "2", alice]])
        steps = [line for line in lines if line[0] == "stp"]
        self.assertEqual([line[1:8] for line in steps], [["1", "1", alice, bob, "1", "120", "1738368000"],
                                                         ["1", "2", bob, frank, "0", "120", "1743552000"]])
        self.assertEqual([line[8] for line in steps], ["", str(1743552000 + 30 * 86400)])

    def test_the_word_of_the_target_comes_first(self):
        """Of a revoked key, and of one that has expired, no certification is said to be held back by its issuer."""
        (erin,) = self.answer("explain", self.fpr["Erin"], PEOPLE["Erin"])[1]["bindings"]
        meanings = {one["meaning"] for one in erin["others"] if one["word"] == "edge"}
        self.assertEqual(meanings, {"counts, but no path may end here: the key is revoked, with effect at all times"})

    def test_beside_sq_wot(self):
        """Both find the same at 120 and at 40, at the current time: another program says what is expected."""
        sq_wot = shutil.which("sq-wot")
        if sq_wot is None:
            self.skipTest("sq-wot isn't installed")
        for name, uid in PEOPLE.items():
            for amount in "40", "120":
                with self.subTest(name, amount=amount):
                    theirs = run([sq_wot, "-k", self.friends.keyring, "-r", self.fpr["Alice"], "authenticate",
                                  "-a", amount, uid, self.fpr[name]])
                    now = str(int(time.time()))
                    ours = self.ask("--amount", amount, "authenticate", self.fpr[name], uid, time=now)
                    self.assertEqual(ours.returncode, theirs.returncode)

    def test_with_the_verifier(self):
        """The verifier that stands in the repository says the same as gpg, who made the signatures: all are good."""
        built = verifier_built()
        if built is None:
            self.skipTest("verifier can't be built: packages are missing")
        said = [run([words, "--", self.friends.keyring]).stdout.splitlines() for words in (built, TRUSTING)]
        verdicts = [{line for line in lines if line.startswith(b"verdict ")} for lines in said]
        self.assertEqual(verdicts[0], verdicts[1])
        for name, status in ("Carol", 0), ("Dave", 1), ("Erin", 1):
            done = self.ask("--no-cache", "--verifier", built, "authenticate", self.fpr[name], PEOPLE[name])
            self.assertEqual((done.returncode, done.stderr), (status, b""))
