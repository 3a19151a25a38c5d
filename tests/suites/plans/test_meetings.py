"""Plans for a meeting: over six people by hand, and over random networks against everything that could be certified."""

import json
import unittest
from html.parser import HTMLParser

from asking import Asking
from friends import PEOPLE
from outside import folder, needs_engine, needs_gpg
from random_networks import NOW, Everything, Network
from tukyamid.planning.meeting_making import meeting_of
from tukyamid.planning.meeting_text import grouped


class Texts(HTMLParser):
    """What a page has for people, and what it would load."""

    def __init__(self):
        super().__init__()
        self.texts, self.loads = [], []

    def handle_starttag(self, tag, attrs):
        self.loads += [value for name, value in attrs if name in ("src", "href")]

    def handle_data(self, data):
        self.texts.append(data)


@needs_engine
@needs_gpg
class Meetings(Asking):
    def file(self, *names, more=""):
        path = folder() / f"comers-{self.id().rpartition('.')[2]}"
        path.write_text("# who comes\n\n" + "".join(f"{self.fpr[name].upper()} {name}\n" for name in names) + more)
        return path

    def meeting(self, *names, words=(), status=0, more="", **options):
        done = self.ask("plan", "--meeting", self.file(*names, more=more), "--format", "json", *words, **options)
        self.assertEqual((done.returncode, done.stderr), (status, b""), done.stderr)
        return json.loads(done.stdout)

    def steps(self, meeting):
        names = {fpr: name for name, fpr in self.fpr.items()}
        return [(names[one["issuer"]], names[one["target"]], one["gain"], one["total"]) for one in meeting["steps"]]

    def test_who_certifies_whom(self):
        """Alice and Bob are reached, Dave and Frank aren't. Bob's scope doesn't include Dave."""
        found = self.meeting("Alice", "Bob", "Dave", "Frank", more="00" * 20 + "\n")
        self.assertEqual((found["before"], found["after"], found["missing"]), (2, 4, ["00" * 20]))
        self.assertEqual({step[1] for step in self.steps(found)}, {"Dave", "Frank"})
        self.assertIn(("Alice", "Dave"), {step[:2] for step in self.steps(found)})
        self.assertEqual([step[2:] for step in self.steps(found)], [(1, 3), (1, 4)])
        found = self.meeting("Bob", "Dave", "Frank")
        self.assertEqual(self.steps(found), [("Bob", "Frank", 1, 2)])
        self.assertEqual((found["before"], found["after"]), (1, 2))

    def test_two_certifications_for_one_binding(self):
        """From two roots of 60, Frank needs both of their certifications: the first gains nothing yet."""
        roots = ["--root", f"{self.fpr['Carol']}:60", "--root", f"{self.fpr['Dave']}:60"]
        found = self.meeting("Carol", "Dave", "Frank", words=roots, root=None)
        steps = [step for step in self.steps(found) if step[1] == "Frank"]
        self.assertEqual({step[0] for step in steps}, {"Carol", "Dave"})
        self.assertEqual([step[2] for step in steps], [0, 1])

    def test_nothing_to_gain(self):
        """Erin's key is revoked, and of the other two all is reached."""
        for names in ("Erin", "Frank"), ("Alice", "Bob"):
            found = self.meeting(*names, status=1)
            self.assertEqual((found["steps"], found["before"]), ([], found["after"]))
            self.assertIn("no certification among those who come gains anything", found["note"])

    def test_introducers(self):
        """With depth 1 Carol's certification of Dave counts for the whole amount once Alice has made her one."""
        found = self.meeting("Alice", "Carol", words=["--depth", "1"])
        self.assertEqual(self.steps(found), [("Alice", "Carol", 1, 4)])
        self.assertEqual([one["user_id"] for one in found["steps"][0]["gained"]], [PEOPLE["Dave"]])

    def test_the_most_steps(self):
        self.assertEqual(len(self.meeting("Alice", "Dave", "Frank", words=["--most", "1"])["steps"]), 1)

    def test_lists_and_sheets(self):
        words = ["plan", "--meeting", self.file("Alice", "Dave", "Frank")]
        text = self.ask(*words).stdout.decode()
        self.assertIn("1 now, 3 after 2 certifications", text)
        self.assertIn(f"{PEOPLE['Alice']} certifies, after comparing:\n", text)
        page = Texts()
        page.feed(self.ask(*words, "--format", "html").stdout.decode())
        shown = " ".join(page.texts)
        self.assertEqual(page.loads, [])
        for name in ("Alice", "Dave", "Frank"):
            self.assertIn(grouped(self.fpr[name]), shown)
            self.assertIn(PEOPLE[name], shown)
            self.assertIn(grouped(self.fpr[name]).split()[3], text if name != "Alice" else shown)
        self.assertEqual(grouped(self.fpr["Dave"]).replace(" ", "").lower(), self.fpr["Dave"])

    def test_wrong_words_and_files(self):
        empty, wrong = self.file(), folder() / "wrong"
        wrong.write_text("carol\n")
        for words, status, said in [
            (["plan", "--meeting", empty], 2, "from 1 to 200"), (["plan", "--meeting", wrong], 2, "line 1: 'carol'"),
            (["plan", "--meeting", folder() / "absent"], 3, "No such file"),
            (["plan", "--meeting", wrong, "x"], 2, "plan takes"), (["plan", "--depth", "1", "x", "y"], 2, "go with"),
            (["plan", "--meeting", wrong, "--by", self.fpr["Bob"]], 2, "go with"),
            (["plan", "--meeting", wrong, "--depth", "256"], 2, "no depth"),
        ]:
            with self.subTest(words):
                self.fails(self.ask(*words), status, said)


@needs_engine
class Compared(unittest.TestCase):
    """Over random networks: what each step gains is what the engine answers if it is really made, and in the end no
    further certification among those who come gains anything."""

    def check(self, seed, depth):
        network = Network(seed, 14, 2.0)
        picked = network.random.sample(network.fprs, 6)
        roots = {picked[0]: 120, picked[1]: 60}
        every = [(fpr, user_id) for fpr in (network.fprs if depth else picked) for user_id in network.user_ids[fpr]]
        everything = Everything(network, roots)
        self.addCleanup(everything.close)

        def reached(made):
            return {one for one in every if everything.amount(*one, 120, made) >= 120}
        with network.keyring() as keyring:
            meeting = meeting_of(keyring, picked, NOW, roots, 120, depth)
        made, before = [], reached([])
        self.assertEqual(meeting.before, len(before))
        for step in meeting.steps:
            made += [(one.issuer, one.target, one.user_id, one.depth, one.amount) for one in step.certifications]
            after = reached(made)
            self.assertEqual(set(step.gained), after - before)
            before = after
        self.assertEqual(meeting.after, len(before))
        done = {(step.issuer, step.target) for step in meeting.steps}
        for issuer in picked:
            for target in picked:
                if issuer != target and (issuer, target) not in done:
                    more = [(issuer, target, user_id, depth, 120) for user_id in network.user_ids[target]]
                    self.assertFalse(reached([*made, *more]) - before, (issuer, target))
        return len(meeting.steps)

    def test_plain_certifications(self):
        self.assertGreater(sum(self.check(seed, 0) for seed in range(6)), 6)

    def test_introducers(self):
        self.assertGreater(sum(self.check(seed, 2) for seed in range(4)), 4)


if __name__ == "__main__":
    unittest.main()
