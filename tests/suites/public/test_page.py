"""The page for everyone in a real browser, behind the real nginx: by mouse, by keyboard, on a phone and in the dark."""

import tempfile
import unittest
from pathlib import Path
from types import SimpleNamespace
from urllib.parse import urlsplit

import test_access
import test_places
from browser import Browser, needs_browser
from everyone import Everyone, shared
from outside import folder
from page import needs_page
from test_nginx import NGINX, Nginx
from test_places import ALICE, BOB, CAROL, DAVE, FRANK


class Visited(test_places.Places):
    """A browser at the page of the shared keyring; the default set of roots is Alice's, the other one Bob's."""

    @classmethod
    def setUpClass(cls):
        cls.friends, cls.service, cls.sets, _ = shared()
        cls.fpr = cls.friends.fpr
        cls.own = Path(tempfile.mkdtemp(prefix="nginx-", dir=folder()))
        cls.everyone = Everyone(cls.service, *cls.sets, "--rate", "1000", listen=f"unix:{cls.own}/behind")
        cls.addClassCleanup(cls.everyone.close)
        cls.nginx = Nginx(cls.own)
        cls.addClassCleanup(cls.nginx.close)
        cls.page = SimpleNamespace(address=cls.nginx.address)
        cls.browser = Browser()
        cls.addClassCleanup(cls.browser.close)

    def hash(self):
        return self.browser.run("return location.hash")

    def choose_set(self, name):
        self.browser.run("const one = document.querySelector('#set'); one.value = arguments[0];"
                         "one.dispatchEvent(new Event('change'))", name)


@needs_page
@needs_browser
@unittest.skipUnless(NGINX, "nginx isn't installed")
class Looking(Visited):
    def test_by_mouse(self):
        self.start()
        self.browser.wait_text("#standpoint", "Alice\nBob\nroots of your own")
        self.browser.wait_text("#standpoint", f"the root {ALICE} (amount 120), as of ")
        self.follow(CAROL, ".tree")
        self.at_key(CAROL)
        self.browser.wait_text("#key-user-ids", f"{CAROL} ✓ authenticated 120 of 120")
        self.follow("How", "#key-user-ids")
        self.browser.wait_text(".verdict", f"120 of 120, by two paths from {ALICE}.")
        self.browser.wait("return document.querySelectorAll('#picture .network .key').length === 3"
                          "&& document.querySelector('#moments li')")
        self.follow(BOB, "#picture")
        self.at_key(BOB)
        self.browser.click("#if-gone")
        self.browser.wait_text("#key-gone", f"{CAROL} 120 → 60")

    def test_why_not_and_what_if(self):
        self.start()
        self.follow(FRANK, "#unreached")
        self.at_key(FRANK)
        self.browser.click("#key-user-ids .why")
        self.browser.wait_text("#reach", "✗ What Bob says of Frank doesn’t count: it has expired.")
        self.browser.wait_text("#enough", "✓ 120 of 120")
        self.browser.click("#enough .yes button")
        self.browser.wait_text("#answer", "Supposed, and in no keyring")
        self.browser.wait_text(".verdict", "✓ fully authenticated 120 of 120")
        self.assertIn("suppose=", self.hash())

    def test_by_keyboard_alone(self):
        self.start()
        self.assertEqual(self.browser.focused()[0], "sought")
        self.browser.keys("d", "a", "v", "e")
        self.browser.wait_text("#found", DAVE)
        self.browser.keys("ARROW_DOWN", "ENTER")
        self.browser.wait_text(".verdict", "60 of 120")
        self.browser.run("document.querySelector('#sought').focus()")
        self.browser.keys("TAB")
        self.assertEqual(self.browser.focused()[0], "set")
        self.browser.keys("ARROW_DOWN")
        self.browser.wait_text(".verdict", "0 of 120")
        self.browser.wait_text("#standpoint", f"the root {BOB} (amount 120)")
        self.assertEqual(self.browser.focused()[0], "set")
        self.assertIn("set=Bob", self.hash())

    def test_a_proof_is_saved(self):
        self.browser.open(f"{self.page.address}#ask?key={self.fpr['Carol']}&uid={CAROL}")
        self.browser.wait("return document.querySelector('#save-proof')")
        self.browser.click("#save-proof")
        self.browser.wait_text("#proof-state", "Saved as proof-")
        self.browser.saved(f"proof-{self.fpr['Carol'][:16]}.json")

    def test_on_a_phone_and_in_the_dark(self):
        self.browser.size(360, 740)
        for scheme in "light", "dark":
            with self.subTest(scheme):
                self.browser.media(prefers_color_scheme=scheme)
                self.start()
                self.assertEqual(self.browser.run(test_places.OVERLAPS, ".tree a"), 0)
                test_access.Access.check_width(self, 360)
                self.assertEqual(self.browser.run(test_access.CONTRASTS), [])


@needs_page
@needs_browser
@unittest.skipUnless(NGINX, "nginx isn't installed")
class Sets(Visited):
    def test_another_set_is_in_the_address(self):
        self.start()
        self.choose_set("Bob")
        self.browser.wait_text("#standpoint", f"the root {BOB}")
        self.assertEqual(self.hash(), "#start?set=Bob")
        self.browser.open(f"{self.page.address}#start?set=Bob")
        self.browser.wait_text("#standpoint", f"the root {BOB}")
        self.browser.wait_text("#counts", "fully")
        self.browser.driver.back()
        self.browser.open(f"{self.page.address}#start?set=nobody")
        self.browser.wait_text("#notes", "There is no set of roots “nobody” here. This is seen from Alice.")

    def test_roots_of_ones_own(self):
        self.start()
        self.choose_set("")
        self.browser.wait_text("#beginning", "Choose a root")
        self.type("#first-root", "carol@")
        self.browser.wait_text("#first-root-found", CAROL)
        self.browser.keys("ENTER")
        self.browser.wait_text("#standpoint", f"the root {CAROL} (amount 120)")
        self.browser.wait("return document.querySelector('.tree a')")
        self.assertEqual(self.hash(), f"#start?roots={self.fpr['Carol']}%3A120")
        self.browser.driver.refresh()
        self.browser.wait("return document.querySelector('.tree a')")
        self.browser.wait_text("#standpoint", "(amount 120)")
        self.assertEqual(self.browser.run("return document.querySelector('#set').value"), "")
        self.follow(DAVE, ".tree")
        self.browser.wait_text("#key-user-ids", f"{DAVE} ✓ authenticated 120 of 120")

    def test_nothing_of_an_owners_is_offered(self):
        for view in "overview", "plans":
            self.browser.open(f"{self.page.address}#{view}")
            self.browser.wait("return document.querySelector('.tree a')")
            shown = self.browser.run("return [...document.querySelectorAll('nav a, #overview, #plans')]"
                                     ".filter((one) => one.checkVisibility()).map((one) => one.innerText)")
            self.assertEqual(shown, ["Network", "Words"])

    def test_it_asks_this_server_alone_and_writes_nothing(self):
        self.browser.requests()
        self.browser.faults()
        self.browser.open(f"{self.page.address}#ask?key={self.fpr['Carol']}&uid={CAROL}")
        self.browser.wait("return document.querySelector('.verdict') && document.querySelector('#moments li')")
        asked = [one for one in self.browser.requests() if not one.startswith(("about:", "data:", "blob:"))]
        self.assertGreater(len(asked), 15)
        self.assertEqual([one for one in asked if urlsplit(one).netloc != urlsplit(self.page.address).netloc], [])
        self.assertEqual(self.browser.faults(), [])
        self.assertEqual(self.browser.run("return [document.cookie, localStorage.length, sessionStorage.length]"),
                         ["", 0, 0])

    def test_names_of_others_are_text_alone(self):
        self.start()
        self.type("#sought", "mallory")
        self.browser.wait_text("#found", "<script>")
        self.assertIsNone(self.browser.run("return window.owned ?? null"))


@needs_page
@needs_browser
class Away(test_places.Places):
    """The page says in words that its server is away, and goes on once it is there again."""

    @classmethod
    def setUpClass(cls):
        cls.friends, cls.service, cls.sets, _ = shared()
        cls.fpr = cls.friends.fpr
        cls.browser = Browser()
        cls.addClassCleanup(cls.browser.close)

    def test_a_lost_connection_is_said_and_the_question_kept(self):
        everyone = Everyone(self.service, *self.sets)
        self.browser.open(everyone.address)
        self.browser.wait("return document.querySelector('.tree a')")
        port = everyone.port
        everyone.close()
        self.follow(CAROL, ".tree")
        self.browser.wait_text("#trouble", "The connection to this page’s server is lost. Trying again")
        again = Everyone(self.service, *self.sets, listen=f"127.0.0.1:{port}")
        self.addCleanup(again.close)
        self.browser.wait_text("#key-user-ids", f"{CAROL} ✓ authenticated 120 of 120")
        self.assertEqual(self.browser.text("#trouble"), "")
