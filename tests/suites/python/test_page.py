"""The page for an auditor, as a headless Chromium shows it."""

import re
import shutil
import unittest
from html.parser import HTMLParser

from friends import PEOPLE, friends
from outside import COMMAND, TRUSTING, folder, needs_engine, needs_gpg, run
from test_command import DECEMBER
from tukyamid.formats import html_form, tree
from tukyamid.keyrings.assessment import Assessment, Certification, Other, Report
from tukyamid.protocol.reasons import ReasonWord, TargetWord


class Text(HTMLParser):
    """The text of a page, of each cell of its tables, and the names of what it would fetch."""

    def __init__(self, page):
        super().__init__()
        self.text, self.rows, self.fetched, self._hidden, self._cell = [], [], [], 0, False
        self.feed(page)

    def handle_starttag(self, tag, attributes):
        self._hidden += tag in ("style", "script")
        if tag == "tr":
            self.rows.append([])
        if tag in ("td", "th"):
            self.rows[-1].append("")
            self._cell = True
        if tag == "br" and self._cell:
            self.rows[-1][-1] += " "
        self.fetched += [value for name, value in attributes if name in ("src", "href", "srcset", "data")]

    def handle_endtag(self, tag):
        self._hidden -= tag in ("style", "script")
        self._cell &= tag not in ("td", "th")

    def handle_data(self, data):
        if not self._hidden:
            self.text.append(data)
            if self._cell:
                self.rows[-1][-1] += data


@needs_engine
@needs_gpg
class Page(unittest.TestCase):
    @classmethod
    def setUpClass(cls):
        cls.fpr = friends().fpr
        cls.words = [COMMAND, "--keyring", friends().keyring, "--cache", folder() / "cache", "--verifier", TRUSTING,
                     "--root", cls.fpr["Alice"], "--time", DECEMBER, "--format", "html", "--no-service"]

    def page(self, name):
        done = run([*self.words, "authenticate", self.fpr[name], PEOPLE[name]])
        path = folder() / f"{name}.html"
        path.write_bytes(done.stdout)
        return path

    def check(self, page):
        """What the page on Carol must say."""
        text = " ".join(page.text)
        for said in ("amount 120 reached", "Amount 120 of 120 (100%)", "As of 2025-12-01 00:00:00 UTC", "2 paths"):
            self.assertIn(said, re.sub(r"\s+", " ", text))
        self.assertEqual(page.fetched, [])
        steps = [row[:8] for row in page.rows if len(row) == 10][1:]
        alice, bob, carol = (f"{PEOPLE[name]} {self.fpr[name]}" for name in ("Alice", "Bob", "Carol"))
        self.assertEqual(steps, [
            ["1 (amount 60)", "1", alice, carol, "60", "1", "2025-02-02", "never"],
            ["2 (amount 60)", "1", alice, bob, "120", "1", "2025-02-01", "never"],
            ["2 (amount 60)", "2", bob, carol, "120", "0", "2025-03-01", "never"]])
        numbers = [row[9] for row in page.rows if len(row) == 10][1:]
        self.assertTrue(all(re.fullmatch(r"[0-9a-f]{64}", number) for number in numbers))
        self.assertEqual(sum(part in ("amount 60, depth 1", "amount 120, depth 1", "amount 120, depth 0")
                             for part in page.text), 3)

    def test_the_page_as_written(self):
        self.check(Text(self.page("Carol").read_text()))

    def test_why_others_do_not_count(self):
        rows = Text(self.page("Frank").read_text()).rows
        others = {row[0].split(":")[0]: row[1].split(" ")[0] for row in rows if len(row) == 8 and row[0] != "why"}
        self.assertEqual(others, {"issuer-hard": "Erin", "expired": "Bob", "edge": "Frank"})

    def test_a_name_is_no_markup(self):
        fpr, uid = "aa" * 20, b"<script>alert(1)</script> & <b@example.org> \xe2\x80\xae"
        one = Assessment(fpr, uid, 120, 0, (), TargetWord.OK, ())
        page = html_form.show(Report("authenticate", 120, 0, {fpr: 120}, (one,), {fpr: uid}))
        self.assertNotIn("<script", page)
        self.assertIn(r"\xe2\x80\xae", page)

    def test_the_page_in_a_browser(self):
        chromium = shutil.which("chromium")
        if chromium is None:
            self.skipTest("chromium isn't installed")
        options = [chromium, "--headless", "--no-sandbox", "--disable-gpu", "--disable-dev-shm-usage",
                   "--hide-scrollbars", "--window-size=1250,1400"]
        page, picture = self.page("Carol"), folder() / "page.png"
        # A profile for each run: one that has just ended may still be locked.
        read = run([*options, f"--user-data-dir={folder() / 'chromium-reads'}", "--dump-dom", page.as_uri()])
        self.check(Text(read.stdout.decode()))
        run([*options, f"--user-data-dir={folder() / 'chromium-draws'}", f"--screenshot={picture}", page.as_uri()])
        octets = picture.read_bytes()
        self.assertEqual(octets[:8], b"\x89PNG\r\n\x1a\n")
        size = int.from_bytes(octets[16:20], "big"), int.from_bytes(octets[20:24], "big")
        self.assertEqual(size, (1250, 1400))
        self.assertGreater(len(octets), 20_000)


class Tree(unittest.TestCase):
    def test_many_certifications_are_counted_by_their_reasons(self):
        fpr, uid = "aa" * 20, b"Alice"
        others = tuple(Other(Certification("bb" * 20, fpr, uid, 0, 120), word, word + "!")
                       for word in [ReasonWord.POLICY] * 7 + [ReasonWord.BAD] * 2)
        one = Assessment(fpr, uid, 120, 0, (), TargetWord.OK, others)
        shown = {question: tree.Tree().show(Report(question, 120, 0, {fpr: 120}, (one,), {fpr: uid}))
                 for question in ("authenticate", "explain")}
        self.assertIn("├─ 7 policy: policy!\n", shown["authenticate"])
        self.assertIn("├─ 2 bad: bad!\n", shown["authenticate"])
        self.assertNotIn("by bb", shown["authenticate"])
        self.assertEqual(shown["explain"].count("by bb"), 9)
