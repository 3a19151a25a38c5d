"""The places of the page: the network at the start, a key's own page, and how one begins. They are reached by the
mouse, by the keyboard, on a phone, in dark mode and as a screen reader has them."""

import shutil
import unittest
from pathlib import Path

from browser import needs_browser
from page import HOSTILE, Page, needs_page
from test_access import CONTRASTS
from test_browser import CAROL, DAVE, InBrowser

ALICE, BOB, ERIN, FRANK = (f"{name} <{name.lower()}@example.{domain}>" for name, domain in
                           (("Alice", "net"), ("Bob", "org"), ("Erin", "org"), ("Frank", "org")))
# Two boxes of a picture that lie on one another, or one that reaches out of it.
OVERLAPS = """
const boxes = [...document.querySelectorAll(arguments[0])].map((one) => one.getBoundingClientRect());
const whole = document.querySelector(arguments[0]).closest('svg').getBoundingClientRect();
return boxes.flatMap((one, at) => boxes.slice(at + 1).filter((other) => one.left < other.right && other.left < one.right
  && one.top < other.bottom && other.top < one.bottom)).length
  + boxes.filter((one) => one.left < whole.left || one.right > whole.right + 1).length;
"""


class Places(InBrowser):
    def start(self):
        self.browser.open(self.page.address)
        self.browser.wait("return document.querySelector('.tree a') && document.querySelector('#unreached li a')")

    def follow(self, name, within="main"):
        """Clicks a name as somebody does who looks for it: the first one with that text."""
        link = self.browser.wait(
            "return [...document.querySelectorAll(`${arguments[1]} a`)].find((one) => one.checkVisibility()"
            "&& (one.getAttribute('aria-label') ?? one.textContent).startsWith(arguments[0]))", name, within)
        self.browser.run("arguments[0].scrollIntoView({block: 'center'})", link)
        link.click()

    def at_key(self, name):
        self.browser.wait("return document.querySelector('#key-title').textContent === arguments[0]"
                          "&& !document.querySelector('#key').hidden"
                          "&& document.querySelector('#vouches-for li') && document.querySelector('#vouched-by li')"
                          "&& !document.querySelector('#key .waiting') && document.querySelector('#life li')", name)

    def lines(self, selector):
        return self.browser.run("return [...document.querySelectorAll(arguments[0])].map((one) => one.innerText)",
                                selector)


@needs_page
@needs_browser
class Start(Places):
    def test_who_is_authenticated_and_through_whom(self):
        """Alice vouches for Bob and Carol, and for all with hostile names; Carol for Dave, with 60. Erin's key is
        revoked, and what Bob said of Frank has expired."""
        self.start()
        self.assertEqual([text.split("\n")[0] for text in self.lines("#counts .count")], [
            f"✓ {3 + len(HOSTILE)} fully authenticated", "◐ 1 partly authenticated", "✗ 2 not authenticated"])
        labels = self.browser.run(
            "return [...document.querySelectorAll('.tree a')].map((one) => one.getAttribute('aria-label'))")
        self.assertEqual(len(labels), 4 + len(HOSTILE))
        for wanted in (f"{ALICE}: root, amount 120, leads to {3 + len(HOSTILE)}", f"{BOB}: 120 of 120",
                       f"{CAROL}: 120 of 120, leads to 1", f"{DAVE}: 60 of 120"):
            self.assertIn(wanted, labels)
        said = self.browser.run(
            "return [...document.querySelectorAll('.tree .line title')].map((one) => one.textContent)")
        for wanted in (f"{ALICE} vouches for {BOB}", f"{ALICE} vouches for {CAROL}", f"{BOB} vouches for {CAROL}",
                       f"{CAROL} vouches for {DAVE}"):
            self.assertIn(wanted, said)
        self.assertFalse([one for one in said if "Erin" in one or "Frank" in one])
        self.assertEqual(sorted(self.lines("#unreached li")), [ERIN, FRANK])
        self.assertEqual(self.browser.run(OVERLAPS, ".tree a"), 0)
        self.assertIsNone(self.browser.run("return window.owned ?? null"))

    def test_every_name_leads_to_its_place_and_back(self):
        self.start()
        self.follow(CAROL, ".tree")
        self.at_key(CAROL)
        self.assertEqual(self.browser.driver.title, f"Tukyamid: {CAROL}")
        self.follow(DAVE, "#vouches-for")
        self.at_key(DAVE)
        self.follow(DAVE, "#key-user-ids")
        self.browser.wait_text(".verdict", "60 of 120, by one path from Alice")
        for name in DAVE, CAROL:
            self.browser.driver.back()
            self.at_key(name)
        self.browser.driver.back()
        self.browser.wait("return !document.querySelector('#start').hidden")

    def test_by_keyboard(self):
        self.start()
        for _ in range(40):
            self.browser.keys("TAB")
            if self.browser.run("return document.activeElement.getAttribute('aria-label') ?? ''").startswith(BOB):
                break
        self.browser.keys("ENTER")
        self.at_key(BOB)
        self.assertEqual(self.browser.focused()[0], "key-title")  # A screen reader says where one is.

    def test_on_a_phone_and_in_dark_mode(self):
        self.browser.size(360, 740)
        for scheme in "light", "dark":
            with self.subTest(scheme):
                self.browser.media(prefers_color_scheme=scheme)
                self.start()
                self.assertEqual(self.browser.run(OVERLAPS, ".tree a"), 0)
                self.assertLessEqual(self.browser.run("return document.documentElement.scrollWidth"), 360)
                self.assertEqual(self.browser.run(CONTRASTS), [])
                self.follow(BOB, ".tree")
                self.at_key(BOB)
                self.assertLessEqual(self.browser.run("return document.documentElement.scrollWidth"), 360)
                self.assertEqual(self.browser.run(CONTRASTS), [])

    def test_it_zooms(self):
        self.start()
        width = "return document.querySelector('.tree').getBoundingClientRect().width"
        before = self.browser.run(width)
        self.browser.click("#network-in")
        self.assertAlmostEqual(self.browser.run(width) / before, 1.25, 2)
        self.browser.click("#network-out")
        self.assertAlmostEqual(self.browser.run(width) / before, 1, 2)
        self.browser.run("document.querySelector('#network-area').focus()")
        self.browser.keys("+", "+")
        self.assertAlmostEqual(self.browser.run(width) / before, 1.25 ** 2, 2)
        self.browser.keys("0")
        self.assertLessEqual(self.browser.run(width), before)

    def test_the_picture_is_saved(self):
        self.start()
        self.browser.click("#network-svg")
        text = Path(self.browser.saved("network.svg")).read_text("utf-8")
        self.assertIn("Carol", text)
        self.assertNotIn(self.page.address, text)
        for link in "href", "<script", "onerror=":
            self.assertNotIn(link, text.replace("&lt;script", "").replace("onerror='", ""))
        self.browser.click("#network-png")
        self.assertEqual(Path(self.browser.saved("network.png")).read_bytes()[:8], b"\x89PNG\r\n\x1a\n")

    def test_words_are_explained_where_they_stand(self):
        self.start()
        self.browser.click("#counts .word")
        self.browser.wait_text("#counts .tip", "paths from your roots add up to 120")
        self.browser.keys("ESCAPE")
        self.assertFalse(self.browser.element("#counts .tip").is_displayed())
        self.browser.run("document.activeElement.blur()")
        self.browser.run("document.querySelector('#counts .word').focus()")
        self.assertTrue(self.browser.element("#counts .tip").is_displayed())
        self.browser.click("#counts .tip a")
        self.browser.wait_text("#glossary", "Every path begins at a root.")


@needs_page
@needs_browser
class Beginning(Places):
    """A page over a service that has nothing yet."""

    def setUp(self):
        super().setUp()
        self.empty = Page([], [])
        self.addCleanup(self.empty.close)

    def begin(self, said):
        """Waits until the page has settled, so that nothing moves any more."""
        self.browser.wait_text("#beginning", said)
        self.browser.wait("return document.querySelector('#begin-steps h3')"
                          "&& document.querySelector('#counts .count')"
                          "&& !document.querySelector('#network-state').innerText")

    def type_path(self, path):
        self.type("#keyring-path", path)
        self.browser.keys("ENTER")

    def test_from_nothing_to_a_network(self):
        self.browser.open(self.empty.address)
        self.begin("Two steps to begin")
        self.type_path("friends.pgp")
        self.browser.wait_text("#begin-state", "write the whole path of the keyring")
        self.type_path(str(self.friends.keyring))
        self.begin("One step before you can look")
        self.type("#first-root", "alice@")
        self.browser.wait_text("#first-root-found", ALICE)
        self.browser.keys("ENTER")
        self.browser.wait_text("#counts", "✓ 3 fully authenticated")
        self.browser.wait_text("#notes", f"tukyamid root add {self.fpr['Alice']}")

    def test_from_gpg_to_a_network_by_clicks(self):
        """gpg's keyring is offered, and then the keys that gpg trusts as the user's own."""
        shutil.copytree(self.friends.home, self.empty.own / "gnupg",
                        ignore=lambda _, names: [name for name in names if name.startswith("S.")])
        self.browser.open(self.empty.address)
        self.begin("Two steps to begin")
        self.browser.click("#add-gpg")
        self.begin("One step before you can look")
        offered = self.lines("#begin-steps button.offered")
        self.assertEqual(sorted(text.partition(">")[0] + ">" for text in offered),
                         [ALICE, BOB, CAROL, DAVE, FRANK])  # gpg takes its trust from a key that is revoked.
        self.browser.click(f"#begin-steps li:nth-child({1 + [text.startswith(ALICE) for text in offered].index(True)}) "
                           "button")
        self.browser.wait_text("#counts", "✓ 3 fully authenticated")

    def test_a_keyring_that_is_not_there(self):
        self.browser.open(self.empty.address)
        self.begin("Two steps to begin")
        self.type_path("/nothing/there.pgp")
        self.browser.wait_text("#begin-state", "It wasn’t added:")
        self.browser.wait_text("#begin-state", "No such file")


class Words(unittest.TestCase):
    def test_scopes_in_words(self):
        from tukyamid.web.said import in_words
        for pattern, words in (
                (rb"<[^>]+[@.]example\.org>$", "anyone at example.org"),
                (rb"<[^>]+@sub\.example\.org>$", "anyone at sub.example.org, but not below it"),
                (rb"<[^>]+[@.]example.org>$", None), (rb"<[^>]+[@.]example\.org>", None), (b".*", None), (b"", None),
                (rb"x<[^>]+[@.]example\.org>$", None), (rb"<[^>]+[@.]a|b>$", None)):
            self.assertEqual(in_words(pattern), words, pattern)
