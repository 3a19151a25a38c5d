"""What would be if: the command and the service's keyring, over six people whose answers are known (see `friends`)."""

import json
import unittest

from asking import DECEMBER, FEBRUARY, Asking, in_every_form
from friends import PEOPLE
from outside import COMMAND, needs_engine, needs_gpg, run
from test_service import Services
from tukyamid.formats import FORMS


def supposed(*texts):
    return [word for text in texts for word in ("--suppose", text)]


@needs_engine
@needs_gpg
class Suppositions(Asking):
    def says(self, text):
        """A supposition by people's names: a name in braces is a key, in angles a user ID."""
        for name, fpr in self.fpr.items():
            text = text.replace(f"{{{name}}}", fpr).replace(f"<{name}>", PEOPLE[name])
        return text

    def asked(self, name, *texts, time=DECEMBER, words=("authenticate",)):
        status, report = self.answer(*supposed(*map(self.says, texts)), *words, self.fpr[name], PEOPLE[name], time=time)
        (binding,) = report["bindings"]
        self.assertEqual(status, 0 if binding["reached"] else 1)
        return report, binding

    def test_amounts_and_paths(self):
        """By hand, from who certified whom: Alice's edge to Carol has depth 1 and amount 60, Bob's scope is
        example.org, and a newer certification takes the place of an older one."""
        dave = [(60, ["Alice", "Carol", "Dave"])]
        for name, texts, chains in [
            ("Dave", [], dave),
            ("Dave", ["{Alice} certifies {Dave} <Dave>"], [(120, ["Alice", "Dave"])]),
            ("Dave", ["{Alice} certifies {Dave} <Dave> depth 0 amount 50"],
             [(50, ["Alice", "Dave"]), (60, ["Alice", "Carol", "Dave"])]),
            ("Dave", ["{Alice} certifies {Carol} <Carol> depth 1"], [(120, ["Alice", "Carol", "Dave"])]),
            ("Dave", ["{Alice} certifies {Carol} <Carol>"], []),  # It has depth 0, so Carol is no introducer now.
            ("Dave", ["{Alice} certifies {Bob} <Bob> depth 1"], [(120, ["Alice", "Bob", "Dave"])]),
            ("Dave", ["{Alice} certifies {Bob} <Bob> depth 1 for @example\\.org>$"], dave),
            ("Dave", ["{Alice} certifies {Bob} <Bob> depth 1 amount 90 for @example\\.(org|net)>$"],
             [(90, ["Alice", "Bob", "Dave"]), (30, ["Alice", "Carol", "Dave"])]),
            ("Dave", ["{Bob} certifies {Dave} <Dave>"], dave),
            ("Dave", ["{Erin} certifies {Dave} <Dave>"], dave),  # Her key is revoked.
            ("Carol", ["{Bob} revokes {Carol} <Carol>"], [(60, ["Alice", "Carol"])]),
            ("Carol", ["without {Bob}"], [(60, ["Alice", "Carol"])]),
            ("Dave", ["without {Carol}"], []),
            ("Frank", ["{Alice} certifies {Dave} <Dave> depth 2 amount 70", "{Dave} certifies {Frank} <Frank>"],
             [(70, ["Alice", "Dave", "Frank"])]),
            ("Carol", ["{Bob} revokes {Carol} <Carol>", "{Alice} certifies {Carol} <Carol> depth 1"],
             [(120, ["Alice", "Carol"])]),
        ]:
            with self.subTest(name, texts=texts):
                report, binding = self.asked(name, *texts)
                self.assertEqual((self.chains(binding), binding["amount"]),
                                 (chains, sum(amount for amount, _ in chains)))
                self.assertEqual(len(report["supposed"]), len(texts))

    def test_a_signature_is_left_out_by_its_number(self):
        _, plain = self.asked("Carol")
        direct, by_bob = (path["steps"] for path in plain["paths"])
        for number, chains in ((direct[0]["signature"], [(120, ["Alice", "Bob", "Carol"])]),
                               (by_bob[1]["signature"], [(60, ["Alice", "Carol"])])):
            _, binding = self.asked("Carol", f"without {number}")
            self.assertEqual(self.chains(binding), chains)

    def test_it_is_made_at_the_time_that_is_asked_about(self):
        """In February Carol has 60 of Alice. A supposition takes the place of a certification of the same second."""
        made = "1738454400"  # When Alice certified Carol.
        for time, amount in (FEBRUARY, 120), (made, 120):
            report, binding = self.asked("Carol", "{Alice} certifies {Carol} <Carol> depth 1", time=time)
            step = binding["paths"][0]["steps"][0]
            self.assertEqual((binding["amount"], step["made"], step["supposed"]), (amount, int(time), True))
        _, binding = self.asked("Carol", time=FEBRUARY)
        self.assertEqual((binding["amount"], binding["paths"][0]["steps"][0]["supposed"]), (60, False))

    def test_each_question(self):
        dave = supposed(self.says("{Alice} certifies {Dave} <Dave>"))
        for words, user_ids in [
            (["lookup", PEOPLE["Dave"]], ["Dave"]), (["--email", "lookup", "dave@example.net"], ["Dave"]),
            (["identify", self.fpr["Dave"]], ["Dave"]), (["list"], ["Alice", "Bob", "Carol", "Dave"]),
            (["list", "dave"], ["Dave"]), (["--paths", "list", "dave"], ["Dave"]),
            (["explain", self.fpr["Dave"], PEOPLE["Dave"]], ["Dave"]),
            (["path", self.fpr["Alice"], self.fpr["Dave"], PEOPLE["Dave"]], ["Dave"]),
        ]:
            with self.subTest(words):
                status, report = self.answer(*dave, *words, root=None if words[0] == "path" else "Alice")
                self.assertEqual((status, sorted(one["user_id"] for one in report["bindings"])),
                                 (0, [PEOPLE[name] for name in user_ids]))
                self.assertTrue(all(one["reached"] for one in report["bindings"]))
                self.assertEqual([one["said"] for one in report["supposed"]],
                                 [f"{PEOPLE['Alice']} certifies {PEOPLE['Dave']}"])

    def test_why_others_do_not_count(self):
        report, binding = self.asked("Dave", "{Erin} certifies {Dave} <Dave>", words=("explain",))
        names = {fpr: name for name, fpr in self.fpr.items()}
        words = {(names[one["issuer"]], one["word"], one["supposed"]) for one in binding["others"]}
        self.assertEqual(words, {("Erin", "issuer-hard", True), ("Carol", "edge", False), ("Bob", "edge", False),
                                 ("Dave", "edge", False)})
        _, binding = self.asked("Carol", "{Alice} certifies {Carol} <Carol> depth 1", words=("explain",))
        words = {(names[one["issuer"]], one["word"], one["supposed"]) for one in binding["others"]}
        self.assertEqual(words, {("Alice", "edge", True), ("Alice", "older", False), ("Bob", "edge", False),
                                 ("Carol", "edge", False)})

    def test_every_format_says_that_it_is_supposed(self):
        ask = self.words("authenticate", self.fpr["Dave"], PEOPLE["Dave"])[1:]
        plain, _ = in_every_form(ask)
        texts, is_reached = in_every_form([*supposed(self.says("{Alice} certifies {Dave} <Dave>")), *ask])
        self.assertTrue(is_reached)
        said = f"{PEOPLE['Alice']} certifies {PEOPLE['Dave']}"
        for form in FORMS:
            self.assertIn("supposed", texts[form].lower(), form)
            self.assertNotIn("supposed", plain[form].lower().replace('"supposed": []', "").replace(
                '"supposed": false', ""), form)
        self.assertIn(f"supposed: {said}\n", texts["tree"])
        self.assertIn("certified with amount 120, depth 0, supposed\n", texts["tree"])
        self.assertIn(f"sup:{said}\n".replace("<", "<"), texts["colons"])
        lines = texts["colons"].splitlines()
        self.assertTrue(lines[0].endswith(":yes:supposed"), lines[0])
        self.assertTrue(any(line.startswith("stp:") and line.endswith(":supposed") for line in lines))
        self.assertIn("style=dashed", texts["dot"])
        self.assertIn("stroke-dasharray", texts["html"])
        self.assertEqual(json.loads(texts["json"])["supposed"][0]["kind"], "certifies")

    def test_wrong_suppositions(self):
        absent = "00" * 20
        for text, status, said in [
            ("", 2, "supposes nothing"), ("{Alice} certifies {Dave}", 2, "supposes nothing"),
            ("{Alice} likes {Dave} <Dave>", 2, "supposes nothing"), ("without", 2, "supposes nothing"),
            ("Alice certifies {Dave} <Dave>", 2, "neither a fingerprint"),
            ("{Alice} certifies {Dave} <Carol>", 2, "has no such user ID"),
            ("{Alice} certifies {Dave} <Dave> depth 1 depth 2", 2, "has no such user ID"),
            ("{Alice} certifies {Dave} dave@example.net deep", 2, "can't follow"),
            ("{Alice} certifies {Dave} <Dave> depth 256", 2, "at most 255"),
            ("{Alice} certifies {Dave} <Dave> amount 0", 2, "from 1 to 255"),
            ("{Alice} certifies {Dave} <Dave> depth 1 for " + "x" * 1025, 2, "more than 1024 characters"),
            (absent + " certifies {Dave} <Dave>", 3, "isn't in the keyring"),
            ("{Alice} certifies " + absent + " <Dave>", 3, "isn't in the keyring"),
            ("without " + absent, 3, "can't be left out"),
        ]:
            with self.subTest(text):
                done = self.ask(*supposed(self.says(text)), "authenticate", self.fpr["Dave"], PEOPLE["Dave"])
                self.fails(done, status, said)

    def test_a_user_id_by_its_address(self):
        for rest in ("dave@example.net", "DAVE@example.net depth 0", PEOPLE["Dave"]):
            with self.subTest(rest):
                _, binding = self.asked("Dave", "{Alice} certifies {Dave} " + rest)
                self.assertEqual(binding["amount"], 120)


@needs_engine
@needs_gpg
class OverTheService(Services):
    """The service's keyring stays what it is, and so do its log and what other clients are answered."""

    QUESTIONS = [["authenticate", "Dave"], ["explain", "Dave"], ["identify", "Dave"], ["lookup", "Dave"], ["list"]]

    def setUp(self):
        super().setUp()
        added = run([COMMAND, "keyring", "add", self.friends.keyring], env=self.environment)
        self.assertEqual(added.returncode, 0, added.stderr)

    def words_of(self, question, *names):
        named = [self.fpr[name] for name in names] + [PEOPLE[name] for name in names]
        return [question, *{"identify": named[:1], "lookup": named[1:]}.get(question, named)]

    def test_nothing_supposed_reaches_the_service(self):
        from tukyamid import connect
        (path,) = self.sockets()
        texts = supposed(f"{self.fpr['Alice']} certifies {self.fpr['Dave']} {PEOPLE['Dave']} depth 2",
                         f"{self.fpr['Bob']} revokes {self.fpr['Carol']} {PEOPLE['Carol']}",
                         f"without {self.fpr['Frank']}")
        with connect(path) as other:
            other.open_view("v", 1764547200)
            other.set_root("v", self.fpr["Alice"])
            amounts = {name: other.watch(name.lower(), "v", self.fpr[name], 120, PEOPLE[name])
                       for name in ("Dave", "Carol")}
            before = list(other.dump()), [str(one) for one in other.log(1000)], other.status()["change"]
            plain = {words[0]: self.asked(*self.words_of(*words), status=0 if words[0] == "list" else 1)
                     for words in self.QUESTIONS}
            for words in self.QUESTIONS:
                answer = self.asked(*texts, *self.words_of(*words))
                self.assertEqual(len(answer["supposed"]), 3)
                self.assertIn(PEOPLE["Dave"], [one["user_id"] for one in answer["bindings"] if one["reached"]])
                self.assertEqual({name: other.ask("v", self.fpr[name], 120, PEOPLE[name]).amount for name in amounts},
                                 {"Dave": 60, "Carol": 120})
            self.assertEqual((list(other.dump()), [str(one) for one in other.log(1000)], other.status()["change"]),
                             before)
            self.assertEqual(other.told(), [])
            for words in self.QUESTIONS:
                again = self.asked(*self.words_of(*words), status=0 if words[0] == "list" else 1)
                self.assertEqual(again, plain[words[0]])

    def test_the_service_answers_as_an_engine_of_its_own(self):
        local = ["--no-service", "--no-cache", "--keyring", self.friends.keyring]
        for text in (f"{self.fpr['Alice']} certifies {self.fpr['Dave']} {PEOPLE['Dave']}",
                     f"{self.fpr['Alice']} certifies {self.fpr['Bob']} {PEOPLE['Bob']} depth 2 amount 100",
                     f"without {self.fpr['Carol']}",
                     f"{self.fpr['Erin']} certifies {self.fpr['Dave']} {PEOPLE['Dave']}"):
            for words in self.QUESTIONS:
                with self.subTest(text, words=words):
                    asked = [run([COMMAND, *more, f"--root={self.fpr['Alice']}", "--time", DECEMBER, "--format", "json",
                                  *supposed(text), *self.words_of(*words)], env=self.environment)
                             for more in ([], local)]
                    self.assertEqual(*((done.returncode, done.stdout, done.stderr) for done in asked))
                    self.assertTrue(asked[0].stdout)


if __name__ == "__main__":
    unittest.main()
