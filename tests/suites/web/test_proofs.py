"""`tukyamid check`: what the page writes holds, and whatever was changed in it doesn't, or is no proof."""

import copy
import json
import os

from outside import COMMAND, TRUSTING, run, verifier_built
from page import DECEMBER, Served, needs_page

CAROL, DAVE = "Carol <carol@example.org>", "Dave <dave@example.net>"
HOLDS, FAILS, NO_PROOF = 0, 1, 3


@needs_page
class Proofs(Served):
    def proof(self, *words, **more):
        return self.page.call("proof", **self.subject(*words, **more))

    def check(self, proof, *words, verifier=TRUSTING):
        """The status of the command, and what it says."""
        path = self.page.own / "proof.json"
        path.write_bytes(proof if isinstance(proof, bytes) else json.dumps(proof).encode())
        done = run([COMMAND, "check", *words, path], env={**self.page.environment, "TUKYAMID_VERIFIER": str(verifier)})
        if done.returncode in (HOLDS, FAILS):
            self.assertEqual(done.stderr, b"")
        else:
            self.assertEqual(done.stdout, b"")
            self.assertRegex(done.stderr.decode(), r"\Atukyamid: [^\n]+\n\Z")
        return done.returncode, (done.stdout or done.stderr).decode()

    def changed(self, proof, **changes):
        made = copy.deepcopy(proof)
        made.update(changes)
        return made

    def test_an_answer_holds(self):
        proof = self.proof("Carol", CAROL)
        self.assertEqual((proof["claim"], proof["amount"], len(proof["certificates"])), ("answer", 120, 3))
        status, said = self.check(proof)
        self.assertEqual(status, HOLDS, said)
        for part in ("the claim holds", CAROL, self.fpr["Carol"], "amount 120 of 120, as of 2025-12-01 00:00:00 UTC",
                     f"root: {self.fpr['Alice']}, amount 120", "3 certificates in the file", "2 paths",
                     "own answer over these certificates: amount 120"):
            self.assertIn(part, said)

    def test_an_absence_holds(self):
        for name, user_id, amount in ("Dave", DAVE, 60), ("Frank", "Frank <frank@example.org>", 0):
            proof = self.proof(name, user_id)
            self.assertEqual((proof["claim"], proof["amount"]), ("absence", amount))
            status, said = self.check(proof)
            self.assertEqual(status, HOLDS, said)
            self.assertIn(f"no path is left beyond amount {amount}", said)

    def test_what_was_changed_does_not_hold(self):
        answer, absence = self.proof("Carol", CAROL), self.proof("Dave", DAVE)
        bob_first = answer["paths"][::-1]
        longer = copy.deepcopy(answer["paths"])
        longer[0]["amount"] = 61
        renamed = copy.deepcopy(answer["paths"])
        renamed[1]["steps"][0]["user_id"] = "Bob <bob@example.com>"
        cases = {
            "without its certificates": self.changed(answer, certificates=[]),
            "without one certificate": self.changed(answer, certificates=answer["certificates"][1:]),
            "another amount": self.changed(answer, amount=121, wanted=121),
            "less than is wanted": self.changed(answer, wanted=240),
            "an earlier time": self.changed(answer, time=1739577600),
            "no root": self.changed(answer, roots=[]),
            "a root of less": self.changed(answer, roots=[{"fingerprint": self.fpr["Alice"], "amount": 60}]),
            "no paths": self.changed(answer, paths=[]),
            "one path": self.changed(answer, paths=answer["paths"][:1]),
            "the paths the other way": self.changed(answer, paths=bob_first),
            "a path of more": self.changed(answer, paths=longer),
            "a user ID that isn't there": self.changed(answer, paths=renamed),
            "another user ID": self.changed(answer, user_id=DAVE),
            "an answer as an absence": self.changed(answer, claim="absence"),
            "an absence as an answer": self.changed(absence, claim="answer"),
            "an absence without labels or paths": self.changed(absence, labels={}, paths=[]),
            "an absence of less": self.changed(absence, amount=0, paths=[]),
            "an absence that wants less": self.changed(absence, wanted=60),
        }
        for name, proof in cases.items():
            with self.subTest(name):
                status, said = self.check(proof)
                self.assertEqual(status, FAILS, said)
                self.assertIn("does not hold", said)

    def test_what_is_no_proof(self):
        good = self.proof("Carol", CAROL)
        cases = [b"", b"{", b"[]", b"7", b"\xff\xfe", b"[" * 100000, self.changed(good, version=2),
                 self.changed(good, format="other"), self.changed(good, claim="perhaps"),
                 self.changed(good, wanted="1"), self.changed(good, wanted=0), self.changed(good, time=-1),
                 self.changed(good, amount=True),
                 self.changed(good, fingerprint="x"), self.changed(good, user_id="\\q"), self.changed(good, roots={}),
                 self.changed(good, paths=[{"amount": 1, "steps": []}]), self.changed(good, certificates=[7]),
                 self.changed(good, certificates=["zz"]), self.changed(good, labels=[]), self.changed(good, paths=None),
                 {name: value for name, value in good.items() if name != "certificates"}]
        for proof in cases:
            with self.subTest(str(proof)[:80]):
                status, said = self.check(proof)
                self.assertEqual(status, NO_PROOF, said)

    def test_a_file_that_is_not_there_and_words_that_are_wrong(self):
        done = run([COMMAND, "check", self.page.own / "nothing"], env=self.page.environment)
        self.assertEqual((done.returncode, done.stdout), (3, b""))
        self.assertRegex(done.stderr.decode(), r"\Atukyamid: [^\n]*nothing: No such file[^\n]*\n\Z")
        self.assertEqual(run([COMMAND, "check"], env=self.page.environment).returncode, 2)
        self.assertEqual(self.check(self.proof("Carol", CAROL), "--verifier", "/bin/false")[0], 3)

    def test_roots_that_are_trusted(self):
        proof = self.proof("Carol", CAROL)
        for root, status in ((self.fpr["Alice"], HOLDS), (self.fpr["Alice"][-16:], HOLDS), (self.fpr["Bob"], FAILS),
                             (f"{self.fpr['Alice']}:119", FAILS)):
            self.assertEqual(self.check(proof, "--root", root)[0], status, root)

    def test_names_of_others_steer_no_terminal(self):
        one = self.hostile[4]
        (found,) = self.page.call("search", text=one.fpr)["found"]
        proof = self.page.call("proof", fingerprint=one.fpr, user_id=found["spelled"], wanted=120, time=DECEMBER,
                               roots=[{"fingerprint": self.fpr["Alice"], "amount": 120}])
        status, said = self.check(proof)
        self.assertEqual(status, HOLDS, said)
        self.assertIn(r"Mallory\x1b[2J\x07\x0d\x0a\x00", said)

    def test_signatures_are_verified_by_the_real_verifier(self):
        verifier = verifier_built()
        if verifier is None or not os.access(verifier, os.X_OK):
            self.skipTest("the verifier can't be built: packages are missing")
        for name, user_id in ("Carol", CAROL), ("Dave", DAVE):
            status, said = self.check(self.proof(name, user_id), verifier=verifier)
            self.assertEqual(status, HOLDS, said)
        proof = self.proof("Carol", CAROL)
        armored = [self.friends.armored_alice(secret=False).decode() if self.is_of(one, "Alice") else one
                   for one in proof["certificates"]]
        self.assertEqual(self.check(self.changed(proof, certificates=armored), verifier=verifier)[0], HOLDS)
        self.assertIn("signatures found good by wot-verdicts", self.check(proof, verifier=verifier)[1])
        self.assertEqual(self.check(self.changed(proof, certificates=[]), verifier=verifier)[0], FAILS)
        # The last octets of a certificate are those of a signature's material, which no longer verifies.
        place = next(at for at, one in enumerate(proof["certificates"]) if self.is_of(one, "Bob"))
        whole = proof["certificates"][place]
        proof["certificates"][place] = whole[:-2] + f"{int(whole[-2:], 16) ^ 1:02x}"
        status, said = self.check(proof, verifier=verifier)
        self.assertEqual(status, FAILS, said)

    def is_of(self, certificate, name):
        from tukyamid.openpgp.certificates import read_certificate
        return read_certificate(bytes.fromhex(certificate)).fpr == self.fpr[name]
