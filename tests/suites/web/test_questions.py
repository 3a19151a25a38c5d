"""Five questions that people ask, answered from the start page by clicks alone, each within three: over six people and
over Debian's keyring, at a desk and on a phone, in the light and in the dark; and over six people by the keyboard."""

import unittest
from pathlib import Path

from browser import Browser, needs_browser
from outside import verifier_built
from page import Page, needs_page
from test_access import CONTRASTS, INTERACTIVE
from test_browser import CAROL, DAVE
from test_places import BOB, ERIN, FRANK, Places

MOST = 3
MOST_TABS = 120
DEBIAN = Path("/usr/share/keyrings/debian-keyring.gpg")
CHRISTMAS_2022 = 1_671_840_000
# A developer who has certified 130 others. No other key is trusted, so without it nobody is reached.
STEVE, STEVES_KEY = "Steve McIntyre <steve@einval.com>", "cebb52301d617e910390fe16587979573442684e"
ADAM = "Adam Borowski <kilobyte@angband.pl>"  # Certified by Steve in 2019.
TOMMI = "Tommi Vainikainen <thv@iki.fi>"  # Not certified by Steve.


class Clicked(Places):
    """Counts the clicks from the start page on."""

    def from_the_start(self):
        """Begins at the start page, at one width after the other. What is shown in the end can be read in the light and
        in the dark, and has names for a screen reader."""
        for width in 1280, 360:
            with self.subTest(width=width):
                self.browser.size(width)
                self.browser.media()
                self.start()
                self.clicks = 0
                yield
                self.assertIn(self.clicks, range(1, MOST + 1))
                self.assertLessEqual(self.browser.run("return document.documentElement.scrollWidth"), width)
                self.check_what_is_shown()

    def check_what_is_shown(self):
        for scheme in "dark", "light":
            self.browser.media(prefers_color_scheme=scheme)
            self.assertEqual(self.browser.run(CONTRASTS), [], scheme)
        nodes = self.browser.driver.execute_cdp_cmd("Accessibility.getFullAXTree", {})["nodes"]
        roles = [node["role"]["value"] for node in nodes if not node.get("ignored") and "role" in node
                 and not node.get("name", {}).get("value", "").strip()]
        self.assertEqual([role for role in roles if role in INTERACTIVE], [])

    def click_name(self, name, within):
        self.clicks += 1
        self.follow(name, within)

    def click_button(self, selector):
        self.clicks += 1
        self.browser.click(selector)

    def to_why_not(self, name):
        self.click_name(name, "#unreached")
        self.at_key_of(name)
        self.click_button("#key-user-ids .why")

    def at_key_of(self, name):
        self.browser.wait("return document.querySelector('#key-title').textContent === arguments[0]"
                          "&& !document.querySelector('#key').hidden && document.querySelector('#life li')"
                          "&& !document.querySelector('#key .waiting')", name)


@needs_page
@needs_browser
class SixPeople(Clicked):
    def test_is_this_carols_key(self):
        for _ in self.from_the_start():
            self.click_name(CAROL, ".tree")
            self.browser.wait_text("#key-user-ids", f"{CAROL} ✓ authenticated 120 of 120")

    def test_whom_does_bob_vouch_for(self):
        for _ in self.from_the_start():
            self.click_name(BOB, ".tree")
            self.at_key_of(BOB)
            said = self.browser.text("#vouches-for")
            for name in CAROL, DAVE, ERIN, FRANK:
                self.assertIn(name, said)

    def test_why_is_franks_not_good(self):
        for _ in self.from_the_start():
            self.to_why_not(FRANK)
            self.browser.wait_text("#reach", "✗ What Bob says of Frank doesn’t count: it has expired.")

    def test_what_if_bob_were_gone(self):
        for _ in self.from_the_start():
            self.click_name(BOB, ".tree")
            self.at_key_of(BOB)
            self.click_button("#if-gone")
            self.browser.wait_text("#key-gone", f"{CAROL} 120 → 60")

    def test_what_would_make_franks_key_good(self):
        for _ in self.from_the_start():
            self.to_why_not(FRANK)
            self.browser.wait_text("#enough", f"Alice <alice@example.net> certifies {FRANK}")
            self.browser.wait_text("#enough", "✓ 120 of 120")


class ByKeyboard(SixPeople):
    """Without a mouse: Tab until the name or the button has the focus, and then Enter."""

    def click_name(self, name, within):
        self.press("one.closest(arguments[1]) && (one.getAttribute('aria-label') ?? one.textContent)"
                   ".startsWith(arguments[0])", name, within)

    def click_button(self, selector):
        self.press("one.matches(arguments[0])", selector)

    def press(self, wanted, *arguments):
        self.clicks += 1
        self.browser.wait("return document.querySelector('#counts .count')")
        for _ in range(MOST_TABS):
            self.browser.keys("TAB")
            if self.browser.run(f"const one = document.activeElement; return {wanted}", *arguments):
                self.browser.keys("ENTER")
                return
        self.fail(f"Tab never came to {arguments[0]}")


@needs_page
@needs_browser
@unittest.skipUnless(DEBIAN.exists(), "debian-keyring isn't installed")
class Debian(Clicked):
    @classmethod
    def setUpClass(cls):
        verifier = verifier_built()
        if verifier is None:
            raise unittest.SkipTest("the verifier isn't built")
        cls.page = Page([DEBIAN], [STEVES_KEY], CHRISTMAS_2022, verifier)
        cls.addClassCleanup(cls.page.close)
        cls.browser = Browser()
        cls.addClassCleanup(cls.browser.close)

    def test_is_this_adams_key(self):
        for _ in self.from_the_start():
            self.click_name(ADAM, ".tree")
            self.browser.wait_text("#key-user-ids", f"{ADAM} ✓ authenticated 120 of 120")

    def test_whom_does_steve_vouch_for(self):
        for _ in self.from_the_start():
            self.click_name(STEVE, ".tree")
            self.at_key_of(STEVE)
            first = self.lines("#vouches-for > ul > li")[0].split("\n")
            self.assertTrue(first[0].endswith("✓ 120 of 120"), first)
            self.assertTrue(first[1].startswith("✓ adds 120"), first)

    def test_why_is_tommis_not_good(self):
        for _ in self.from_the_start():
            self.to_why_not(TOMMI)
            self.browser.wait_text(".verdict", "no path leads here from your roots")
            self.browser.wait_text("#reach", "Steve McIntyre vouches for Teemu Hukkanen, but doesn’t make it an "
                                             "introducer.")

    def test_what_if_steve_were_gone(self):
        for _ in self.from_the_start():
            self.click_name(STEVE, ".tree")
            self.at_key_of(STEVE)
            self.click_button("#if-gone")
            self.browser.wait("return document.querySelectorAll('#key-gone .gone li strong').length")
            self.assertEqual(set(self.lines("#key-gone .gone strong")), {"120 → 0"})

    def test_what_would_make_tommis_key_good(self):
        for _ in self.from_the_start():
            self.to_why_not(TOMMI)
            self.browser.wait_text("#enough", f"{STEVE} certifies {TOMMI}")
            self.browser.wait_text("#enough", "✓ 120 of 120")
