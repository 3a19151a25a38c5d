"""The verifier and the engine together: the engine accepts the verifier's lines, and the verifier reads what is
pending."""

import gnupg
from program import Script, engine, needs_engine, told
from ring import OverRing


class WithEngine(OverRing):
    def questions(self):
        """A view and a question for each of the five, and how far each is known: Alice, a root of amount 120, certifies
        herself and all others; a revoked key is no target."""
        alice = self.ring.fingerprints["alice"]
        asks = [f"ask v {of} 240 {self.ring.user_ids[name]}" for name, of in self.ring.fingerprints.items()]
        amounts = [0 if name == "erin" else 120 for name in self.ring.fingerprints]
        return [f"view v time {gnupg.NOW}", f"view v root {alice} 120", *asks], amounts

    @needs_engine
    def test_the_engine_takes_the_script(self):
        script = Script(self.file)
        questions, amounts = self.questions()
        replies = engine(*script.lines, *questions)
        changes = replies[:len(script.lines) + 2]
        self.assertEqual([reply for reply in changes if not reply.startswith("ok")], [])
        self.assertEqual(told(replies, "amount"), amounts)

    @needs_engine
    def test_what_is_pending_is_verified_and_asked(self):
        """Certificates without verdicts, then what the engine says of them is verified, and its lines are fed."""
        imports = [line for line in Script(self.file).lines if line.startswith("import ")]
        questions, amounts = self.questions()
        reply = engine(*imports, "pending")[len(imports):]
        expected = {(s.number, s.owner, self.ring.by_id[s.issuer]) for s in self.signatures}
        self.assertEqual(reply[0], f"pending {len(expected)}")
        self.assertEqual({tuple(line.split(" ")[1:]) for line in reply[1:]}, expected)
        self.assertEqual(told(engine(*imports, *questions), "amount"), [0] * 5)
        given = "\n".join([*reply, ""]).encode()
        for words, left in (["--all"], set()), ([], {2, 3}):
            script = Script(*words, "--pending", self.file, given=given)
            self.assertEqual((script.imports, script.verdicts), ([], self.expected({0, 1, 2, 3} - left)))
            replies = engine(*imports, *script.lines, "pending", *questions)
            self.assertEqual(told(replies, "pending"), [sum(s.place in left for s in self.signatures)])
            self.assertEqual(told(replies, "amount"), amounts)

    @needs_engine
    def test_a_certificate_that_comes_later_is_verified_alone(self):
        """Bob's comes when the others have verdicts: pending are the signatures on his, and those by him."""
        bob = self.ring.fingerprints["bob"]
        others = self.write("others.gpg", b"".join(t for name, t in self.ring.texts.items() if name != "bob"))
        before = [*Script("--all", others).lines, f"import {self.ring.texts['bob'].hex()}"]
        reply = engine(*before, "pending")[len(before):]
        new = [s for s in self.signatures if bob in (s.owner, self.ring.by_id[s.issuer])]
        self.assertEqual(sorted(line.split(" ")[1] for line in reply[1:]), sorted(s.number for s in new))
        script = Script("--all", "--pending", self.file, given="\n".join([*reply, ""]).encode())
        self.assertEqual(script.verdicts, self.expected({0, 1, 2, 3}, new))
        questions, amounts = self.questions()
        replies = engine(*before, *script.lines, "pending", *questions)
        self.assertEqual((told(replies, "pending"), told(replies, "amount")), ([0], amounts))
