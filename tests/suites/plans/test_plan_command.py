"""The command `tukyamid plan`, and plans that gpg carries out: its signatures give exactly the amounts that were
printed."""

import json
import shutil
import subprocess
import unittest

from asking import DECEMBER, Asking
from friends import PEOPLE
from outside import COMMAND, TRUSTING, folder, needs_engine, needs_gpg, run, verifier_built
from test_service import Services


class Planning(Asking):
    def plan(self, name, *words, status=0, **more):
        done = self.ask("plan", "--format", "json", self.fpr[name], PEOPLE[name], *words, **more)
        self.assertEqual((done.returncode, done.stderr), (status, b""), done.stderr)
        return json.loads(done.stdout)

    def said(self, plan):
        """Each proposal as its amount and its certifications: (issuer, target, depth, amount)."""
        names = {fpr: name for name, fpr in self.fpr.items()}
        return [(one["amount"], [(names[each["issuer"]], names[each["target"]], each["depth"], each["amount"])
                                 for each in one["certifications"]]) for one in plan["proposals"]]


@needs_engine
@needs_gpg
class Plans(Planning):
    def test_proposals(self):
        """By hand: Dave is certified by Bob (for example.org alone) and by Carol (60, depth 1), Frank by nobody now."""
        for name, words, status, said in [
            ("Dave", [], 0, [(120, [("Alice", "Dave", 0, 120)]), (120, [("Alice", "Bob", 1, 60)]),
                             (120, [("Alice", "Carol", 1, 120)])]),
            ("Dave", ["--by", self.fpr["Carol"]], 1, []),  # Her amount of 60 is all that she can pass on.
            ("Dave", ["--amount", "60"], 0, []),
            ("Frank", ["--by", self.fpr["Bob"]], 0, [(120, [("Bob", "Frank", 0, 120)])]),
            ("Frank", ["--by", self.fpr["Carol"], "--amount", "60"], 0, [(60, [("Carol", "Frank", 0, 120)])]),
            ("Frank", ["--by", self.fpr["Erin"]], 1, []), ("Erin", [], 1, []),
            ("Carol", ["--suppose", f"without {self.fpr['Bob']}"], 0, [(120, [("Alice", "Carol", 0, 120)])]),
        ]:
            with self.subTest(name, words=words):
                self.assertEqual(self.said(self.plan(name, *words, status=status)), said)

    def test_what_cannot_be_done_is_proved(self):
        plan = self.plan("Dave", "--by", self.fpr["Carol"], status=1)
        self.assertEqual((plan["absence"]["amount"], plan["absence"]["checked"], plan["complete"]), (60, True, True))
        plan = self.plan("Dave", "--by", self.fpr["Erin"], "--by", self.fpr["Frank"], status=1)
        self.assertEqual(sorted(plan["useless"]), sorted([self.fpr["Erin"], self.fpr["Frank"]]))
        self.assertIn("none of those who may certify is a root or an introducer", plan["note"])

    def test_more_than_one_certification(self):
        """Without Bob, Alice's 70 and Dave's 50 are enough for Carol only together; at most one is none."""
        more = ["--root", f"{self.fpr['Dave']}:50", "--root", f"{self.fpr['Alice']}:70"]
        plan = self.plan("Carol", *more, root=None, keyring=self.friends.without("Bob"))
        self.assertEqual(plan["amount"], 60)
        self.assertIn((120, [("Alice", "Carol", 0, 120), ("Dave", "Carol", 0, 120)]),
                      [(amount, sorted(ones)) for amount, ones in self.said(plan)])
        for one in plan["proposals"]:
            self.assertEqual((one["amount"], len(one["certifications"])), (120, 2))
        plan = self.plan("Carol", *more, "--most", "1", root=None, keyring=self.friends.without("Bob"), status=1)
        self.assertEqual((plan["proposals"], plan["absence"]["amount"]), ([], 120))
        self.assertIn("--most may help", plan["absence"]["said"])

    def test_an_introducer_who_may_certify_too(self):
        """Dave may certify Frank, but isn't trusted to: Alice makes him an introducer."""
        plan = self.plan("Frank", "--by", self.fpr["Dave"], "--by", self.fpr["Alice"], "--amount", "100")
        self.assertIn((120, [("Alice", "Frank", 0, 120)]), self.said(plan))
        plan = self.plan("Frank", "--by", self.fpr["Dave"], "--by", self.fpr["Carol"], "--amount", "50")
        self.assertEqual(self.said(plan), [(60, [("Carol", "Frank", 0, 120)])])

    def test_an_introducer_for_a_domain_alone(self):
        """Frank has certified nobody, so whom he makes an introducer for Dave counts for example.net alone. Alice has
        made Bob one before: for others that would be less than he was."""
        scope = r"<[^>]+[@.]example\.net>$"
        plan = self.plan("Dave", root="Frank")
        self.assertEqual(self.said(plan), [(120, [("Frank", "Dave", 0, 120)]),
                                           *((120, [("Frank", name, 1, 120)]) for name in self.by_fpr("Bob", "Carol"))])
        self.assertEqual([(one["certifications"][0]["scopes"], one["certifications"][0]["domains"])
                          for one in plan["proposals"]], [([], []), *[([scope], ["example.net"])] * 2])
        text = self.ask("plan", self.fpr["Dave"], PEOPLE["Dave"], root="Frank").stdout.decode()
        for line in (f"   {PEOPLE['Frank']} certifies {PEOPLE['Bob']} with depth 1 and amount 120, for addresses at "
                     "example.net", f"      gpg -u {self.fpr['Frank']} --edit-key {self.fpr['Bob']}",
                     f"         select {PEOPLE['Bob']} by `uid`, then `tsign` with trust 2, depth 1 and domain "
                     "example.net, then `save`"):
            self.assertIn(line + "\n", text)
        self.assertEqual([one["certifications"][0]["scopes"] for one in self.plan("Dave")["proposals"]], [[], [], []])

    def by_fpr(self, *names):
        return sorted(names, key=lambda name: self.fpr[name])

    def test_what_people_read(self):
        text = self.ask("plan", self.fpr["Dave"], PEOPLE["Dave"]).stdout.decode()
        alice, bob, dave = (self.fpr[name] for name in ("Alice", "Bob", "Dave"))
        for line in ("amount 60 of 120: not reached", "1. gives 120",
                     f"   {PEOPLE['Alice']} certifies {PEOPLE['Dave']}",
                     f"      gpg -u {alice} --quick-sign-key {dave} '{PEOPLE['Dave']}'",
                     f"   {PEOPLE['Alice']} certifies {PEOPLE['Bob']} with depth 1 and amount 60, in place of an older "
                     "certification", f"      gpg --expert -u {alice} --edit-key {bob}"):
            self.assertIn(line + "\n", text)
        done = self.ask("plan", self.fpr["Carol"], PEOPLE["Carol"])
        self.assertEqual(done.returncode, 0)
        self.assertIn(b"there is nothing to certify", done.stdout)
        self.assertEqual(self.ask("plan", "--quiet", self.fpr["Dave"], PEOPLE["Dave"]).stdout, b"")

    def test_wrong_words(self):
        dave = [self.fpr["Dave"], PEOPLE["Dave"]]
        for words, status, said in [
            (["plan"], 2, "plan takes"), (["plan", dave[0]], 2, "plan takes"), (["plan", *dave, "x"], 2, "plan takes"),
            (["plan", "--most", "0", *dave], 2, "threshold"), (["plan", "--by", "x", *dave], 2, "fingerprint"),
            (["plan", "--format", "dot", *dave], 2, "invalid choice"),
            (["plan", "00" * 20, "x"], 3, "isn't in the keyring"), (["plan", dave[0], "x"], 3, "no such user ID"),
            (["plan", "--by", "00" * 20, *dave], 3, "isn't in the keyring"),
        ]:
            with self.subTest(words):
                self.fails(self.ask(*words), status, said)


@needs_engine
@needs_gpg
class OverTheService(Services):
    def test_a_plan_over_the_service_and_one_of_a_local_engine(self):
        added = run([COMMAND, "keyring", "add", self.friends.keyring], env=self.environment)
        self.assertEqual(added.returncode, 0, added.stderr)
        for words in ([], ["--by", self.fpr["Bob"]], ["--by", self.fpr["Carol"], "--by", self.fpr["Alice"]],
                      ["--suppose", f"without {self.fpr['Carol']}"]):
            plans = [run([COMMAND, *more, f"--root={self.fpr['Alice']}", "--time", DECEMBER, "plan", "--format", "json",
                          self.fpr["Dave"], PEOPLE["Dave"], *words], env=self.environment)
                     for more in ([], ["--no-service", "--no-cache", "--keyring", self.friends.keyring])]
            self.assertEqual(*((done.returncode, done.stdout, done.stderr) for done in plans))
            self.assertTrue(plans[0].stdout)


@needs_engine
@needs_gpg
class Signed(Planning):
    """Each proposal, made with gpg at the time that was asked about, gives the amount that was printed."""

    def check(self, name, *words, by=(), root="Alice", keyring=None):
        plan = self.plan(name, *words, *by, root=root, keyring=keyring)
        self.assertTrue(plan["proposals"])
        for number, one in enumerate(plan["proposals"]):
            with self.subTest(name, words=words, proposal=self.said(plan)[number]):
                home = folder() / f"signing-{self.id().rpartition('.')[2]}-{number}"
                shutil.copytree(self.friends.home, home, ignore=lambda _, names: [
                    each for each in names if each.startswith("S.") or each.endswith(".lock")])
                self.addCleanup(subprocess.run, ["gpgconf", "--homedir", home, "--kill", "all"], check=False)
                for each in one["certifications"]:
                    self.sign(home, each)
                signed = home / "signed.pgp"
                kept = [fpr for who, fpr in self.fpr.items() if keyring is None or who != "Bob"]
                signed.write_bytes(self.gpg(home, "--export", *kept))
                done = self.ask(*words, "--verifier", verifier_built() or TRUSTING, "--no-cache", "--format", "json",
                                "authenticate", self.fpr[name], PEOPLE[name], root=root, keyring=signed)
                self.assertEqual(json.loads(done.stdout)["bindings"][0]["amount"], one["amount"], done.stderr)

    def gpg(self, home, *words, typed=b""):
        done = subprocess.run(["gpg", "--homedir", home, "--quiet", "--no-tty", "--yes", "--expert",
                               "--faked-system-time", "20251201T000000!", *words], input=typed, capture_output=True,
                              timeout=600, check=False)
        self.assertEqual(done.returncode, 0, done.stderr)
        return done.stdout

    def sign(self, home, one):
        """As the plan's text says."""
        if not one["depth"] and not one["replaces"]:
            self.gpg(home, "--batch", "-u", one["issuer"], "--quick-sign-key", one["target"], one["user_id"])
            return
        again = "y\n" if one["replaces"] else ""
        said = 1 if one["amount"] == 60 else 2, one["depth"], "".join(one["domains"])
        trust = "".join(f"{each}\n" for each in said) if one["depth"] else ""
        self.gpg(home, "--command-fd", "0", "--status-fd", "2", "-u", one["issuer"], "--edit-key", one["target"],
                 "tsign" if one["depth"] else "sign", typed=f"{again}{trust}y\nsave\n".encode())

    def test_one_certification(self):
        self.check("Dave")

    def test_introducers_for_a_domain(self):
        self.check("Dave", root="Frank")

    def test_by_an_introducer(self):
        self.check("Frank", "--amount", "60", by=["--by", self.fpr["Carol"]])

    def test_two_certifications(self):
        self.check("Carol", "--root", f"{self.fpr['Dave']}:50", "--root", f"{self.fpr['Alice']}:70", root=None,
                   keyring=self.friends.without("Bob"))


if __name__ == "__main__":
    unittest.main()
