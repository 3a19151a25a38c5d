"""Answers that aren't reached: how far they get, where they break, and what would be enough. And answers with many
paths."""

from types import SimpleNamespace
from urllib.parse import quote_plus

from browser import Browser, needs_browser
from made import Made, trust
from outside import folder
from page import Page, Served, needs_page
from test_browser import CAROL, DAVE
from test_places import ALICE, ERIN, FRANK, OVERLAPS, Places

MADE = 1_700_000_000
PATHS = 50


@needs_page
@needs_browser
class Negative(Places):
    def open_answer(self, name, user_id):
        self.browser.open(f"{self.page.address}#ask?key={self.fpr[name]}&uid={quote_plus(user_id)}")
        self.browser.wait("return document.querySelector('.verdict') && document.querySelector('#moments li')"
                          "&& !document.querySelector('#ask .waiting')")

    def drawn(self):
        """What the boxes of the drawing say, in the order of the letters."""
        return sorted(self.browser.run(
            "return [...document.querySelectorAll('#reach .tree a')].map((one) => one.getAttribute('aria-label'))"))

    def test_where_it_breaks(self):
        """Erin, whose key is revoked, and Bob, for 30 days, have certified Frank."""
        self.open_answer("Frank", FRANK)
        self.browser.wait_text("#reach", "Alice <alice@example.net> → Erin <erin@example.org> → Frank")
        ways = self.lines("#reach .breaks li")
        self.assertEqual(len(ways), 2)
        for why in ("Erin says of Frank doesn’t count: the issuer’s key is revoked, with effect at all times.",
                    "Bob says of Frank doesn’t count: it has expired."):
            self.assertIn(f"✗ What {why}", ways[0] + ways[1])
        self.assertEqual(self.drawn(), sorted([
            "Alice: root, amount 120", "Bob: ✓ so far", "Erin: ✓ so far", "Frank: ✗ it has expired",
            "Frank: ✗ the issuer’s key is revoked, with effect at all times"]))
        self.assertEqual(self.browser.run("return document.querySelectorAll('#reach .line.broken').length"), 2)
        self.assertEqual(self.browser.run(OVERLAPS, "#reach .tree a"), 0)

    def test_a_scope_that_breaks_it(self):
        self.open_answer("Dave", DAVE)
        self.browser.wait_text("#reach", "60 are missing.")
        (way,) = self.lines("#reach .breaks li")
        self.assertIn(f"✗ Alice relies on Bob only for anyone at example.org, and {DAVE} isn’t.", way)
        self.assertEqual(self.drawn(),
                         ["Alice: root, amount 120", "Bob: ✗ outside of the scope", "Dave: ○ not reached"])

    def test_what_would_be_enough_is_supposed_by_one_click(self):
        """Alice can vouch for Dave herself. It is drawn dashed, and the keyring stays as it is."""
        self.open_answer("Dave", DAVE)
        self.browser.wait_text("#enough", "60 of 120: 60 are missing.")
        self.browser.click(f"#enough button[aria-label='Suppose it: {ALICE} certifies {DAVE}']")
        self.browser.wait_text(".verdict", "120 of 120, by one path from Alice")
        self.browser.wait_text("#answer", "Supposed, and in no keyring")
        self.assertEqual(self.browser.run("return getComputedStyle(document.querySelector('.edge.supposed path'))"
                                          ".strokeDasharray"), "7px, 5px")
        self.assertEqual(self.page.call("answer", **self.subject("Dave", DAVE))["amount"], 60)
        self.browser.click("#if button[aria-label^='No longer suppose']")
        self.browser.wait_text(".verdict", "60 of 120")
        self.browser.driver.back()
        self.browser.wait_text(".verdict", "120 of 120")

    def test_a_key_that_nobody_can_vouch_for(self):
        self.open_answer("Erin", ERIN)
        self.browser.wait_text("#reach", "Nobody can vouch for it now: the key is revoked, with effect at all times.")

    def test_a_depth_and_a_root_that_lead_nowhere(self):
        """From Bob, who makes nobody an introducer, and from Frank, who has certified nobody."""
        self.browser.open(f"{self.page.address}#ask?key={self.fpr['Dave']}&uid={quote_plus(DAVE)}"
                          f"&roots={self.fpr['Frank']}:120")
        self.browser.wait_text("#reach", "No certification leads from your roots to ")
        self.browser.open(f"{self.page.address}#ask?key={self.fpr['Frank']}&uid={quote_plus(FRANK)}"
                          f"&roots={self.fpr['Bob']}:120&time=1746000000")
        self.browser.wait_text(".verdict", "120 of 120")
        self.assertFalse(self.browser.element("#reach-box").is_displayed())

    def test_names_of_others_are_text_alone(self):
        """Where an answer breaks, in what would be enough, and in what would be lost without Alice."""
        for one in self.hostile:
            found = self.page.call("search", text=one.fpr)["found"][0]["user_id"]
            self.browser.open(f"{self.page.address}#ask?key={one.fpr}&uid={quote_plus(found)}"
                              f"&roots={self.fpr['Frank']}:120")
            self.browser.wait("return document.querySelector('#reach .tree a')"
                              "&& document.querySelector('#enough .cards li')")
            self.nothing_runs(found)
        self.browser.open(f"{self.page.address}#key?key={self.fpr['Alice']}")
        self.at_key(ALICE)
        self.browser.click("#if-gone")
        self.browser.wait_text("#key-gone", found)
        self.nothing_runs(found)

    def nothing_runs(self, shown):
        self.assertIn(shown, self.browser.run("return document.querySelector('main').textContent"))
        self.assertEqual(self.browser.run("return [window.owned ?? null, document.querySelectorAll("
                                          "'main img, main script, [onerror]').length]"), [None, 0])

    def test_an_answer_that_is_reached_has_none_of_it(self):
        self.open_answer("Carol", CAROL)
        self.assertFalse(self.browser.element("#reach-box").is_displayed())


@needs_page
@needs_browser
class ManyPaths(Served):
    """A root that makes fifty introducers, each of whom certifies one key with amount 3."""

    @classmethod
    def setUpClass(cls):
        root, cls.target = Made(1).direct(MADE), Made(2).direct(MADE)
        root.certified(b"Root <root@example.org>", root, MADE)
        others = [Made(number).direct(MADE) for number in range(10, 10 + PATHS)]
        for number, one in enumerate(others):
            one.certified(b"Person %d <p%d@example.net>" % (number, number), root, MADE + 1, trust(1, 120))
            cls.target.certified(b"Famous <famous@example.org>", SimpleNamespace(fpr=one.fpr), MADE + 2, trust(0, 2))
        path = folder() / "many-paths.pgp"
        path.write_bytes(b"".join(one.octets for one in (root, cls.target, *others)))
        cls.page = Page([path], [root.fpr])
        cls.addClassCleanup(cls.page.close)
        cls.browser = Browser()
        cls.addClassCleanup(cls.browser.close)

    def test_they_are_folded_and_unfolded(self):
        self.browser.open(f"{self.page.address}#ask?key={self.target.fpr}"
                          f"&uid={quote_plus('Famous <famous@example.org>')}")
        self.browser.wait_text(".verdict", f"{2 * PATHS} of 120")
        fold = self.browser.wait("return document.querySelector('#picture .fold')")
        self.assertEqual(fold.get_attribute("aria-label"), f"{PATHS} keys side by side: show each")
        labels = "return [...document.querySelectorAll('#picture .label')].map((one) => one.textContent)"
        self.assertEqual(self.browser.run(labels), [f"{PATHS} certificationstogether {2 * PATHS}"] * 2)
        self.browser.run("arguments[0].focus()", fold)
        self.browser.keys("ENTER")
        self.browser.wait("return document.querySelectorAll('#picture .key').length === arguments[0]", PATHS + 2)
        self.assertEqual(len(self.browser.run(labels)), 2 * PATHS)
        self.assertEqual(self.browser.run(OVERLAPS, "#picture .label"), 0)
        self.assertEqual(self.browser.run(OVERLAPS, "#picture .key"), 0)
        self.browser.click("#picture-fit")
        self.assertLessEqual(*self.browser.run(
            "const area = document.querySelector('#picture-area'); return [area.scrollWidth, area.clientWidth]"))

    def test_the_list_lights_up_the_picture(self):
        self.browser.open(f"{self.page.address}#ask?key={self.target.fpr}"
                          f"&uid={quote_plus('Famous <famous@example.org>')}")
        self.browser.wait("return document.querySelector('#picture .fold')")
        self.browser.click("#steps-box summary")
        self.browser.run("document.querySelector('#steps .path:nth-child(3) a').focus()")
        self.assertEqual(self.browser.run("return document.querySelectorAll('#picture .edge.lit').length"), 2)
        self.browser.run("document.activeElement.blur()")
        self.assertEqual(self.browser.run("return document.querySelectorAll('#picture .edge.lit').length"), 0)
