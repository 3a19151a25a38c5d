"""What the page's calls return if something is supposed, over six people whose answers are known in advance."""

import json
import time

from page import Served, needs_page

CAROL, DAVE = "Carol <carol@example.org>", "Dave <dave@example.net>"


@needs_page
class Supposed(Served):
    def certifies(self, issuer, target, user_id, **more):
        return {"kind": "certifies", "issuer": self.fpr[issuer], "target": self.fpr[target],
                "user_id_spelled": user_id, "depth": 0, "amount": 120, "scopes": [], **more}

    def answer(self, name, user_id, **more):
        return self.page.call("answer", **self.subject(name, user_id, **more))

    def test_an_answer_with_a_certification_that_nobody_has_made(self):
        plain = self.answer("Dave", DAVE)
        self.assertEqual((plain["amount"], plain["supposed"]), (60, []))
        made = self.certifies("Alice", "Dave", DAVE)
        reply = self.answer("Dave", DAVE, suppose=[made])
        (step,) = reply["paths"][0]["steps"]
        self.assertEqual((reply["amount"], step["issuer"], step["supposed"]), (120, self.fpr["Alice"], True))
        (said,) = reply["supposed"]
        self.assertEqual((said["kind"], said["said"]), ("certifies", f"Alice <alice@example.net> certifies {DAVE}"))
        # What a reply says of a supposition can be supposed as it stands.
        self.assertEqual(self.answer("Dave", DAVE, suppose=[said])["amount"], 120)
        self.assertEqual(self.answer("Dave", DAVE), plain)

    def test_introducers_revocations_and_what_is_left_out(self):
        bob = "Bob <bob@example.org>"
        wider = self.certifies("Alice", "Bob", bob, depth=1, amount=90, scopes=["@example\\.(org|net)>$"])
        self.assertEqual(self.answer("Dave", DAVE, suppose=[wider])["amount"], 120)
        self.assertEqual(self.answer("Dave", DAVE, suppose=[wider], without=[{"key": self.fpr["Carol"]}])["amount"], 90)
        revoked = {"kind": "revokes", "issuer": self.fpr["Bob"], "target": self.fpr["Carol"], "user_id_spelled": CAROL}
        self.assertEqual(self.answer("Carol", CAROL, suppose=[revoked])["amount"], 60)

    def test_reasons_and_changes(self):
        made = self.certifies("Erin", "Dave", DAVE)
        reply = self.page.call("reasons", **self.subject("Dave", DAVE, suppose=[made], word="issuer-hard", begin=0))
        self.assertEqual([(one["issuer"], one["supposed"]) for one in reply["items"]], [(self.fpr["Erin"], True)])
        made = self.certifies("Alice", "Dave", DAVE)
        reply = self.page.call("changes", **self.subject("Dave", DAVE, suppose=[made], since=1739577600))
        self.assertEqual((reply["before"], reply["after"]), (0, 120))

    def test_what_is_refused(self):
        made = self.certifies("Alice", "Dave", DAVE)
        self.assertEqual(self.page.send("proof", json.dumps(self.subject("Dave", DAVE, suppose=[made])).encode())[0],
                         400)
        for wrong in ({**made, "kind": "likes"}, {**made, "depth": 256}, {**made, "amount": 0}, {**made, "issuer": "x"},
                      {**made, "scopes": "x"}, {**made, "scopes": ["x" * 1025]}, {**made, "scopes": [1]},
                      {**made, "target": "aa" * 20}, {**made, "user_id_spelled": "\\y"}, 7):
            status, _, said = self.page.send("answer", json.dumps(self.subject("Dave", DAVE, suppose=[wrong])).encode())
            self.assertEqual(status, 400, (wrong, said))
        many = self.page.send("answer", json.dumps(self.subject("Dave", DAVE, suppose=[made] * 65)).encode())
        self.assertEqual(many[0], 400)


@needs_page
class Planned(Served):
    def plan(self, name, user_id, **more):
        return self.page.call("plan", **self.subject(name, user_id, **more))

    def test_what_alice_could_certify(self):
        """Herself, or whom of Dave's certifiers she could make an introducer: Bob without a scope, or Carol with
        more."""
        reply = self.plan("Dave", DAVE)
        names = {fpr: name for name, fpr in self.fpr.items()}
        said = [[(names[one["issuer"]], names[one["target"]], one["depth"], one["amount"])
                 for one in proposal["certifications"]] for proposal in reply["proposals"]]
        self.assertEqual((reply["amount"], reply["reached"], reply["complete"], reply["absence"]),
                         (60, False, True, None))
        self.assertEqual(said, [[("Alice", "Dave", 0, 120)], [("Alice", "Bob", 1, 60)], [("Alice", "Carol", 1, 120)]])
        for proposal in reply["proposals"]:
            self.assertEqual((proposal["amount"], proposal["gain"]), (120, 60))
            answer = self.page.call("answer", **self.subject("Dave", DAVE, suppose=proposal["certifications"]))
            self.assertEqual(answer["amount"], 120)

    def test_who_cannot(self):
        others = sorted([self.fpr["Erin"], self.fpr["Bob"]])
        reply = self.plan("Dave", DAVE, by=others)
        self.assertEqual((reply["proposals"], sorted(reply["useless"])), ([], others))
        self.assertEqual((reply["absence"]["amount"], reply["absence"]["checked"]), (60, True))
        reply = self.plan("Carol", CAROL)
        self.assertEqual((reply["reached"], reply["proposals"]), (True, []))
        reply = self.plan("Erin", "Erin <erin@example.org>")
        self.assertEqual((reply["proposals"], reply["target"]), ([], "hard"))
        for wrong in ({"by": "x"}, {"by": ["x"]}, {"by": ["aa" * 20]}, {"most": 0}, {"most": 9}):
            self.assertEqual(self.page.send("plan", json.dumps(self.subject("Dave", DAVE, **wrong)).encode())[0], 400)

    def test_two_certifications_together(self):
        """Alice has 70 to give, and Dave is root of another 50: neither alone is enough."""
        reply = self.plan("Carol", CAROL, roots={"Alice": 70, "Dave": 50}, without=[{"key": self.fpr["Bob"]}])
        self.assertEqual(reply["amount"], 60)
        (proposal, *_) = reply["proposals"]
        names = {fpr: name for name, fpr in self.fpr.items()}
        self.assertEqual(sorted((names[one["issuer"]], one["target"], one["amount_alone"])
                                for one in proposal["certifications"]),
                         [("Alice", self.fpr["Carol"], 70), ("Dave", self.fpr["Carol"], 110)])
        self.assertEqual(proposal["amount"], 120)


@needs_page
class Longer(Served):
    """What takes long is asked for again until it is done."""

    def done(self, name, **asked):
        for _ in range(1200):
            reply = self.page.call(name, **asked)
            if "progress" not in reply:
                return reply
            time.sleep(0.25)
        raise AssertionError(reply)

    def test_what_is_fragile(self):
        subject = self.subject("Carol", CAROL)
        asked = {"time": 1744675200, "roots": subject["roots"]}
        tables = {one["name"]: one for one in self.done("fragile", **asked)["tables"]}
        self.assertEqual([row[0] for row in tables["fragile-falls"]["rows"]], ["2025-05-02"])
        self.assertIn("Bob <bob@example.org>", [row[0] for row in tables["fragile-keys"]["rows"]])
        self.assertIn("without a root", self.done("fragile", time=1744675200, roots=[])["error"])

    def test_a_meeting(self):
        subject = self.subject("Carol", CAROL)
        asked = {"time": subject["time"], "roots": subject["roots"],
                 "who": [self.fpr[name] for name in ("Alice", "Dave", "Frank")]}
        reply = self.done("meeting", **asked)
        names = {fpr: name for name, fpr in self.fpr.items()}
        self.assertEqual({(names[one["issuer"]], names[one["target"]], one["gain"]) for one in reply["steps"]},
                         {("Alice", "Dave", 1), ("Alice", "Frank", 1)})
        self.assertEqual((reply["before"], reply["after"]), (1, 3))
        for wrong in ({"who": []}, {"who": ["x"]}, {"who": [self.fpr["Alice"]] * 201}, {"depth": 256}, {"wanted": 0}):
            self.assertEqual(self.page.send("meeting", json.dumps({**asked, **wrong}).encode())[0], 400)
        self.assertEqual(self.page.send("fragile", json.dumps({**asked, "days": 0}).encode())[0], 400)
