"""A user ID with 2,000 certifications, and a keyring of thousands of certificates: what is seen comes at once, and
typing never waits. The bounds have room for a machine under load, and for an engine that isn't proved."""

import time
from types import SimpleNamespace
from urllib.parse import quote_plus

from browser import Browser, needs_browser
from made import Made, trust
from outside import folder
from page import Page, Served, needs_page

MADE = 1_700_000_000
CERTIFIED, KEYS = 2000, 2500
PAINT_SECONDS, KEY_SECONDS = 10.0, 1.0


def crowd():
    """A root, somebody whom 2,000 keys have certified, and keys that certify nobody. One user ID is that of all the
    2,000 together, so that each is a certificate of few octets."""
    root = Made(1).direct(MADE)
    famous = Made(2).direct(MADE)
    root.certified(b"Root <root@example.org>", root, MADE)
    famous.certified(b"Famous <famous@example.org>", root, MADE + 1, trust(0, 60))
    others = [Made(number).direct(MADE) for number in range(10, 10 + KEYS)]
    for number, one in enumerate(others):
        one.certified(b"Person %d <p%d@example.net>" % (number, number), one, MADE)
    for one in others[:CERTIFIED]:
        famous.certified(b"Famous <famous@example.org>", SimpleNamespace(fpr=one.fpr), MADE + 2)
    return root, famous, others


@needs_page
@needs_browser
class Large(Served):
    @classmethod
    def setUpClass(cls):
        root, cls.famous, others = crowd()
        path = folder() / "crowd.pgp"
        path.write_bytes(b"".join(one.octets for one in (root, cls.famous, *others)))
        cls.page = Page([path], [root.fpr])
        cls.addClassCleanup(cls.page.close)
        cls.browser = Browser()
        cls.addClassCleanup(cls.browser.close)

    def test_2000_certifications(self):
        asked = f"#ask?key={self.famous.fpr}&uid={quote_plus('Famous <famous@example.org>')}"
        self.browser.open(self.page.address + asked)
        self.browser.wait("return performance.getEntriesByName('first-contentful-paint').length")
        painted = self.browser.run("return performance.getEntriesByName('first-contentful-paint')[0].startTime") / 1000
        self.assertLess(painted, PAINT_SECONDS)
        self.browser.wait_text(".verdict", "60 of 120, by one path")
        self.browser.wait_text("#others", f"{CERTIFIED:,} certifications on no path.")
        # They come as one asks for them, and the page never has all of them.
        self.assertLess(self.browser.run("return document.querySelectorAll('*').length"), 1500)
        self.browser.click("#others summary")
        self.browser.wait_text("#others", f"Show more ({CERTIFIED - 50:,} certifications left)")
        self.browser.click("#others li button")
        self.browser.wait_text("#others", f"Show more ({CERTIFIED - 100:,} certifications left)")

    def test_typing_never_waits(self):
        """Each key is in the field before the next one, while the answer and the overview are made."""
        asked = f"#ask?key={self.famous.fpr}&uid={quote_plus('Famous <famous@example.org>')}"
        self.browser.open(self.page.address + asked)
        self.browser.wait("return document.querySelector('#held').innerText.includes('user IDs')")
        self.browser.run("""
            const field = document.querySelector('#sought');
            field.focus();
            window.waits = [];
            field.addEventListener('beforeinput', (event) => {
              const begun = event.timeStamp;
              requestAnimationFrame(() => window.waits.push((performance.now() - begun) / 1000));
            });""")
        for key in "person 1234":
            self.browser.keys("SPACE" if key == " " else key)
            time.sleep(0.05)
        self.browser.wait_text("#found", "Person 1234 <p1234@example.net>")
        waits = self.browser.run("return window.waits")
        self.assertEqual(len(waits), len("person 1234"))
        self.assertLess(sorted(waits)[len(waits) // 2], KEY_SECONDS, waits)

    def test_a_search_that_finds_thousands(self):
        self.browser.open(self.page.address)
        self.browser.wait("return document.querySelector('#held').innerText.includes('user IDs')")
        self.browser.element("#sought").send_keys("example")
        self.browser.wait_text("#search-state", "The first 30 user IDs; type more to find fewer.")
