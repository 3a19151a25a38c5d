"""A key's own place: who vouches for it and for whom it vouches, its times, its fingerprint, and what rests on it."""

import shutil
import subprocess

from browser import Browser, needs_browser
from made import Made
from outside import folder
from page import HOSTILE, Page, needs_page
from test_access import INTERACTIVE
from test_browser import CAROL, DAVE
from test_places import ALICE, BOB, ERIN, FRANK, Places


@needs_page
@needs_browser
class Key(Places):
    def open_key(self, name, title):
        self.browser.open(f"{self.page.address}#key?key={self.fpr[name]}")
        self.at_key(title)

    def test_who_vouches_and_for_whom(self):
        self.open_key("Bob", BOB)
        self.assertEqual((self.browser.text("#by-count"), self.browser.text("#for-count")), ("1", "4"))
        self.browser.wait_text("#key-user-ids", "✓ authenticated 120 of 120")
        (by,) = self.lines("#vouched-by > ul > li")
        for part in ALICE, "✓ adds 120", "2025-02-01", "makes it an introducer for anyone at example.org":
            self.assertIn(part, by)
        vouched = {text.split("\n")[0]: text for text in self.lines("#vouches-for > ul > li")}
        self.assertEqual(set(vouched), {f"{CAROL} ✓ 120 of 120", f"{DAVE} ◐ 60 of 120", f"{ERIN} ✗ 0 of 120",
                                        f"{FRANK} ✗ 0 of 120"})
        self.assertIn("✗ doesn’t count it has expired; 2025-04-02 to 2025-05-02", vouched[f"{FRANK} ✗ 0 of 120"])

    def test_those_that_are_worth_most_come_first(self):
        self.open_key("Carol", CAROL)
        self.assertEqual([text.split("\n")[0] for text in self.lines("#vouched-by > ul > li")], [ALICE, BOB])
        self.open_key("Dave", DAVE)
        self.assertEqual([text.split("\n")[0] for text in self.lines("#vouched-by > ul > li")], [CAROL, BOB])

    def test_whom_it_vouches_for_is_sorted_by_what_that_is_worth(self):
        """Carol gets 60 from Bob. Dave isn't within Bob's scope, what he says of Frank has expired, and Erin's key is
        revoked. Alice gives Bob, and those with hostile names, 120 and makes them introducers, and Carol 60."""
        self.open_key("Bob", BOB)
        self.assertEqual(self.browser.text("#for-worth"), "1 of 4 gets an amount through this key; it comes first.")
        vouched = self.lines("#vouches-for > ul > li")
        self.assertTrue(vouched[0].startswith(f"{CAROL} ✓ 120 of 120\n✓ adds 60"), vouched)
        said = "\n".join(vouched[1:])
        for why in ("○ adds nothing its issuer isn’t trusted this far: a depth, a scope or what is left",
                    "✗ doesn’t count it has expired;",
                    "○ adds nothing no path may end here: the key is revoked"):
            self.assertIn(why, said)
        self.assertTrue(vouched[1].startswith(f"{DAVE} ◐ 60 of 120"), vouched)
        self.open_key("Alice", ALICE)
        self.assertEqual(self.browser.text("#for-worth"),
                         f"{2 + len(HOSTILE)} of {3 + len(HOSTILE)} get an amount through this key; these come first.")
        first = [text.split("\n")[1].split(" for ")[0] for text in self.lines("#vouches-for > ul > li")]
        self.assertEqual([text[:10].strip() for text in first],
                         ["✓ adds 120"] * (1 + len(HOSTILE)) + ["✓ adds 60", "○ adds not"])

    def test_what_adds_nothing_at_all(self):
        """Erin's key is revoked, so nobody who vouches for it adds anything, and it leads nowhere."""
        self.open_key("Erin", ERIN)
        self.assertEqual((self.browser.text("#by-worth"), self.browser.text("#for-worth")),
                         ("None of them adds to the amount.", "None of them gets an amount through this key."))

    def test_if_it_were_gone(self):
        self.open_key("Bob", BOB)
        self.browser.click("#if-gone")
        self.browser.wait_text("#key-gone", "1 user ID would no longer be fully authenticated")
        self.assertEqual(self.lines("#key-gone .gone li"), [f"{CAROL} 120 → 60"])
        self.open_key("Carol", CAROL)
        self.browser.click("#if-gone")
        self.browser.wait_text("#key-gone", "0 user IDs would no longer be fully authenticated")
        self.assertEqual(self.lines("#key-gone .gone li"), [f"{DAVE} 60 → 0"])

    def test_its_times(self):
        self.open_key("Frank", FRANK)
        self.assertEqual(self.lines("#life li"), [
            f"2025-01-01 ▲ The key of {FRANK} is created", f"2025-01-01 ▲ The self-signature of {FRANK} begins",
            f"2025-04-01 ▲ The certification of {FRANK} by {ERIN} begins",
            f"2025-04-02 ▲ The certification of {FRANK} by {BOB} begins",
            f"2025-05-02 ▼ The certification of {FRANK} by {BOB} ends"])
        self.browser.click("#life li:nth-child(4) button")
        self.browser.wait_text("#standpoint", "as of 2025-04-02.")
        self.browser.wait_text("#key-user-ids", "✓ authenticated 120 of 120")

    def test_the_fingerprint_as_digits_and_code(self):
        self.open_key("Bob", BOB)
        self.assertEqual(self.browser.text("#digits").replace(" ", ""), self.fpr["Bob"].upper())
        self.browser.click("#qr-box summary")
        self.browser.wait("return document.querySelector('.qr')")
        if not shutil.which("zbarimg"):
            self.skipTest("zbar-tools isn't installed")
        picture = self.page.own / "code.png"
        picture.write_bytes(self.browser.element(".qr").screenshot_as_png)
        read = subprocess.run(["zbarimg", "--quiet", "--raw", picture], capture_output=True, check=False)
        self.assertEqual(read.stdout.decode().strip(), f"OPENPGP4FPR:{self.fpr['Bob'].upper()}")

    def test_a_key_that_is_not_there(self):
        self.browser.open(f"{self.page.address}#key?key={'ab' * 20}")
        self.browser.wait_text("#key-summary", "This key isn’t in the keyring.")
        self.assertFalse(self.browser.element("#vouched-by").is_displayed())

    def test_names_of_others_are_text_alone(self):
        for one in self.hostile:
            self.browser.open(f"{self.page.address}#key?key={one.fpr}")
            self.browser.wait("return document.querySelector('#life li')")
            self.assertEqual(self.browser.run("return [window.owned ?? null, document.querySelectorAll("
                                              "'main img, main script, [onerror]').length]"), [None, 0])

    def test_a_screen_readers_tree(self):
        for name, title in ("Bob", BOB), ("Frank", FRANK):
            self.open_key(name, title)
            tree = self.browser.driver.execute_cdp_cmd("Accessibility.getFullAXTree", {})["nodes"]
            shown = [(node["role"]["value"], node.get("name", {}).get("value", "")) for node in tree
                     if not node.get("ignored") and "role" in node]
            self.assertEqual([role for role, text in shown if role in INTERACTIVE and not text.strip()], [])
            self.assertIn(("heading", title), shown)
            self.assertIn(("link", ALICE), shown)


@needs_page
@needs_browser
class Scripts(Places):
    """Names in other scripts are found, stand in the title and in the address, and the back button leads to them."""

    NAMES = ["\u674e\u5c0f\u9f99 <li@\u4f8b\u3048.example>", "Ren\u00e9 \u0395\u03bb\u03ad <rene@example.org>",
             "\u05d3\u05d5\u05d3 <david@example.org>"]

    @classmethod
    def setUpClass(cls):
        made = [Made(number).direct(1_700_000_000) for number in range(1, 1 + len(cls.NAMES))]
        for one, name in zip(made, cls.NAMES):
            one.certified(name.encode(), made[0], 1_700_000_000)
        path = folder() / "scripts.pgp"
        path.write_bytes(b"".join(one.octets for one in made))
        cls.page = Page([path], [made[0].fpr])
        cls.addClassCleanup(cls.page.close)
        cls.browser = Browser()
        cls.addClassCleanup(cls.browser.close)

    def test_they_are_found_and_led_back_to(self):
        self.browser.open(self.page.address)
        self.browser.wait("return document.querySelector('#held').innerText.includes('user IDs')")
        for name in self.NAMES:
            self.type("#sought", name[:3])
            self.browser.wait_text("#found", name)
            self.browser.keys("ARROW_DOWN", "ENTER")
            self.browser.wait_text("#answer-title", name)
            self.browser.wait_text(".verdict", "120 of 120")
            self.assertEqual(self.browser.driver.title, f"Tukyamid: {name}")
            self.assertEqual(self.browser.run(
                "return new URLSearchParams(location.hash.split('?')[1]).get('uid')"), name)
        for name in reversed(self.NAMES[:-1]):
            self.browser.driver.back()
            self.browser.wait_text("#answer-title", name)
        self.browser.driver.refresh()
        self.browser.wait_text("#answer-title", self.NAMES[0])
