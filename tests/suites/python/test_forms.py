"""The forms of an answer, compared with one another; and what user IDs of others can't do in any of them."""

import functools
import html.parser
import json
import re
import shutil
import unicodedata
import unittest
import xml.etree.ElementTree as ElementTree

from asking import DECEMBER, Asking, in_every_form
from friends import PEOPLE
from made import CREATED, Made, trust
from outside import TRUSTING, folder, needs_engine, needs_gpg, run
from tukyamid.formats import form
from tukyamid.keyrings.assessment import Assessment, Certification, Report, ShownPath
from tukyamid.protocol.reasons import TargetWord
from tukyamid.protocol.spelling import for_people

DAY = 86_400
FORMS = ("tree", "json", "colons", "dot", "html")
SVG = "{http://www.w3.org/2000/svg}"
EVIL = [
    b"&lt;b&gt; &#8238;&amp;\\N\\l \"quoted\" <script>alert(1)</script> <evil@example.org>",
    b"\x1b[2J\x07\r\n--> ]]> '; " + "\u202e\u2066\u200f\u2028\x9b".encode() + b"<b@example.org>",
    b"\xff\xfe|{}<TABLE>%s%n",
]


class Page(html.parser.HTMLParser):
    """The text of a page, the names of its elements, and its tables' rows."""

    def __init__(self, page):
        super().__init__()
        self.text, self.elements, self.rows = [], set(), []
        self.feed(page)

    def handle_starttag(self, tag, attributes):
        self.elements.add(tag)
        if tag == "tr":
            self.rows.append([])
        if tag == "td":
            self.rows[-1].append("")

    def handle_data(self, data):
        self.text.append(data)
        if self.rows and self.rows[-1]:
            self.rows[-1][-1] += data


class Drawn:
    """A picture, as Graphviz reads it: its texts, and its edges by the names of their ends."""

    def __init__(self, source):
        done = run(["dot", "-Tsvg"], input=source)
        if done.returncode:
            raise AssertionError(done.stderr)
        picture = ElementTree.fromstring(done.stdout)
        self.texts = ["".join(one.itertext()).replace("\u00a0", " ") for one in picture.iter(SVG + "text")]
        titles = [one.text for one in picture.iter(SVG + "title")]
        self.edges = sorted(tuple(title.split("->")) for title in titles if "->" in title)


def read_colons(text):
    def octets(field):
        return re.sub(r"\\x(..)", lambda octet: chr(int(octet[1], 16)), field).encode("latin-1")
    return [[octets(field) for field in line.split(":")] for line in text.splitlines()]


@needs_engine
@needs_gpg
class Compared(Asking):
    QUESTIONS = [
        ["authenticate", "Carol", PEOPLE["Carol"]], ["authenticate", "Dave", PEOPLE["Dave"]],
        ["authenticate", "Erin", PEOPLE["Erin"]], ["explain", "Frank", PEOPLE["Frank"]], ["identify", "Bob"],
        ["lookup", PEOPLE["Carol"]], ["lookup", "nobody"], ["list"], ["list", "--partial"], ["list", "--paths"],
        ["list", "nobody"], ["path", "Alice", "Bob", "Carol", PEOPLE["Carol"]],
        ["path", "Alice", "Dave", PEOPLE["Dave"]],
    ]

    def forms(self, words):
        return in_every_form(self.words(*(self.fpr.get(word, word) for word in words))[1:])

    def test_the_command_shows_these_forms(self):
        """For the other tests, which start no process for each form."""
        words = self.fpr["Carol"], PEOPLE["Carol"]
        shown, _ = self.forms(["authenticate", *words])
        for name in FORMS:
            self.assertEqual(self.ask("--format", name, "authenticate", *words).stdout.decode(), shown[name])

    def test_every_form_says_the_same(self):
        for words in self.QUESTIONS:
            with self.subTest(words):
                shown, is_reached = self.forms(words)
                report = json.loads(shown["json"])
                self.assertEqual(report["reached"], is_reached)
                self.check_colons(report, read_colons(shown["colons"]))
                self.check_tree(report, shown["tree"])
                self.check_page(report, Page(shown["html"]), words)

    @unittest.skipUnless(shutil.which("dot"), "Graphviz isn't installed")
    def test_the_picture_says_the_same(self):
        for words in self.QUESTIONS:
            with self.subTest(words):
                shown, _ = self.forms(words if words[0] != "list" else [*words, "--paths"])
                report, drawn = json.loads(shown["json"]), Drawn(shown["dot"].encode())
                steps = {(step["issuer"], step["target"], step["user_id_spelled"], step["signature"])
                         for one in report["bindings"] for path in one["paths"] for step in path["steps"]}
                self.assertEqual(drawn.edges, sorted((issuer, target) for issuer, target, *_ in steps))
                for one in report["bindings"]:
                    self.assertIn(one["user_id"], drawn.texts)
                    self.assertIn(f"amount {one['amount']} of {report['wanted']}", drawn.texts)

    def check_colons(self, report, lines):
        bindings = [(one["fingerprint"], one["user_id"], one["amount"], one["reached"], one["target"])
                    for one in report["bindings"]]
        said = [(line[1].decode(), line[2].decode(), int(line[3]), line[4] == b"yes", line[5].decode())
                for line in lines if line[0] == b"bnd"]
        self.assertEqual(said, bindings)
        counts = {kind: sum(line[0] == kind for line in lines) for kind in (b"pth", b"stp", b"oth", b"nte", b"rot")}
        self.assertEqual(counts, {
            b"pth": sum(len(one["paths"]) for one in report["bindings"]),
            b"stp": sum(len(path["steps"]) for one in report["bindings"] for path in one["paths"]),
            b"oth": sum(len(one["others"]) for one in report["bindings"]),
            b"nte": len(report["notes"]), b"rot": len(report["roots"])})

    def check_tree(self, report, text):
        reached = sum(one["reached"] for one in report["bindings"])
        if "path 1:" in text or "[" in text:
            self.assertEqual((text.count("[✓]"), text.count("[✗]")), (reached, len(report["bindings"]) - reached))
        self.assertEqual("nothing was found" in text, not report["bindings"])
        self.assertEqual(text.count("path from a root"), text.count("no path from a root"))
        for one in report["bindings"]:
            self.assertIn(one["user_id"], text)
            self.assertIn(one["fingerprint"], text)
        for note in report["notes"]:
            self.assertIn(f"note: {note}\n", text)

    def check_page(self, report, page, words):
        text = "".join(page.text)
        for one in report["bindings"]:
            self.assertIn(one["user_id"], text)
            self.assertIn(one["fingerprint"], text)
        is_brief = words[0] == "list" and "--paths" not in words
        without = [one for one in report["bindings"] if not one["paths"] and one["target"] == "ok" and not is_brief]
        self.assertEqual(text.count("No path from a root"), len(without))
        self.assertEqual("Nothing was found" in text, not report["bindings"])
        for note in report["notes"]:
            self.assertIn(f"Note: {note}", text)
        if is_brief and report["bindings"]:
            listed = [(int(row[0]), row[1], row[2]) for row in page.rows if len(row) == 4]
            bindings = [(one["amount"], one["user_id"], one["fingerprint"]) for one in report["bindings"]]
            self.assertEqual(listed, bindings)


@needs_engine
class Others(unittest.TestCase):
    """User IDs of others, in every form and in every place where they are shown."""

    @classmethod
    def setUpClass(cls):
        root, evil, end = Made(1), Made(2), Made(3)
        root.certified(EVIL[0], root, CREATED)
        for user_id in EVIL:
            evil.certified(user_id, evil, CREATED).certified(user_id, root, CREATED + DAY, trust(1, 120))
        end.certified(b"End", end, CREATED).certified(b"End", evil, CREATED + 2 * DAY)
        cls.evil, cls.end = evil.fpr, end.fpr
        keyring = folder() / "evil.pgp"
        keyring.write_bytes(root.octets + evil.octets + end.octets)
        cls.words = ["--no-service", "--no-cache", "--keyring", keyring, "--verifier", TRUSTING, "--root", root.fpr,
                     "--time", DECEMBER]

    def shown(self, form):
        """The texts of some questions in a form."""
        return [shown[form] for shown in self.all_shown()]

    @classmethod
    @functools.cache
    def all_shown(cls):
        return [in_every_form([*cls.words, *words])[0] for words in (
            ["identify", cls.evil], ["authenticate", cls.end, "End"], ["list"], ["list", "--paths"],
            ["path", cls.evil, cls.end, "End"], ["lookup", EVIL[0].decode()])]

    def test_nothing_steers_a_terminal_or_turns_the_direction_of_writing(self):
        for name in FORMS:
            for text in self.shown(name):
                kinds = {unicodedata.category(character) for character in text if character != "\n"}
                self.assertEqual(kinds & {"Cc", "Cf", "Cs", "Zl", "Zp"}, set(), name)

    def test_all_user_ids_are_there_as_they_stand(self):
        names = [for_people(user_id) for user_id in EVIL]
        self.assertIn(r"\x1b[2J\x07\x0d\x0a--> ]]> '; \xe2\x80\xae", names[1])
        page = Page(self.shown("html")[0])
        self.assertTrue(all(name in "".join(page.text) for name in names))
        self.assertEqual(page.elements & {"script", "b"}, {"b"})  # The page's own.
        self.assertNotIn("alert", "".join(re.findall(r"<[^>]*>", self.shown("html")[0])))
        report = json.loads(self.shown("json")[0])
        self.assertEqual(sorted(one["user_id"] for one in report["bindings"]), sorted(names))
        said = sorted(line[2] for line in read_colons(self.shown("colons")[0]) if line[0] == b"bnd")
        self.assertEqual(said, sorted(EVIL))

    @unittest.skipUnless(shutil.which("dot"), "Graphviz isn't installed")
    def test_graphviz_draws_them_as_they_stand(self):
        """All user IDs of a key that was asked about are drawn, and none forms an entity or an escape."""
        for text in self.shown("dot"):
            drawn = Drawn(text.encode())
            self.assertTrue(set(drawn.texts) & {for_people(user_id) for user_id in EVIL}, drawn.texts)
        drawn = Drawn(self.shown("dot")[0].encode())
        self.assertEqual({for_people(user_id) for user_id in EVIL} - set(drawn.texts), set())
        self.assertEqual(len(drawn.edges), len(EVIL))


class LongUserIds(unittest.TestCase):
    """A user ID may have 64 kB; people see its beginning, and programs all of it."""

    def test_they_are_cut_for_people(self):
        user_id = b"Carol " + b"x" * 60_000 + b" <carol@example.org>"
        fpr = "ab" * 20
        step = Certification("cd" * 20, fpr, user_id, 0, 120)
        found = Assessment(fpr, user_id, 120, 120, (ShownPath(120, "cd" * 20, (step,)),), TargetWord.OK, ())
        report = Report("authenticate", 120, 0, {"cd" * 20: 120}, (found,), {fpr: user_id})
        for name in "tree", "dot":
            text = form(name, False)(report)
            self.assertLess(len(text), 3000, name)
            self.assertIn("(60026 octets)", text)
        self.assertEqual(json.loads(form("json", False)(report))["bindings"][0]["user_id"], user_id.decode())
