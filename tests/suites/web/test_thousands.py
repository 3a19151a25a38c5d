"""Thousands of keys on the start page: groups with counts, which are opened one by one, and lists in pieces."""

from types import SimpleNamespace

from browser import Browser, needs_browser
from made import Made, trust
from outside import folder
from page import Page, needs_page
from test_places import OVERLAPS, Places

MADE = 1_700_000_000
INTRODUCERS, OF_EACH, DOMAINS, STRANGERS = 3, 600, 4, 70
NAMELESS = b" <no@example.org>"
REACHED = INTRODUCERS * OF_EACH + INTRODUCERS + 3


def thousands():
    """A root, three introducers, 600 keys of four domains that each of them has certified, somebody whose user ID is an
    address alone, somebody who has a name as well as such a one, and 70 strangers."""
    made = [Made(1).direct(MADE)]
    root = made[0].certified(b"Root <root@example.org>", made[0], MADE)
    made.append(Made(999).direct(MADE).certified(NAMELESS, root, MADE + 2))
    made.append(Made(998).direct(MADE).certified(b"<both@example.org>", root, MADE + 2)
                .certified(b"Both <both@example.org>", root, MADE + 2))
    for number in range(INTRODUCERS):
        introducer = Made(2 + number).direct(MADE).certified(
            b"Introducer %d <i%d@example.org>" % (number, number), root, MADE + 1, trust(1, 120))
        made.append(introducer)
        for place in range(OF_EACH):
            name = number * OF_EACH + place
            made.append(Made(1000 + name).direct(MADE).certified(
                b"Person %d <p%d@d%d.example>" % (name, name, place % DOMAINS), SimpleNamespace(fpr=introducer.fpr),
                MADE + 2))
    for number in range(STRANGERS):
        one = Made(100_000 + number).direct(MADE)
        made.append(one.certified(b"Stranger %d <s%d@example.net>" % (number, number), one, MADE))
    return made


@needs_page
@needs_browser
class Thousands(Places):
    @classmethod
    def setUpClass(cls):
        made = thousands()
        path = folder() / "thousands.pgp"
        path.write_bytes(b"".join(one.octets for one in made))
        cls.page = Page([path], [made[0].fpr])
        cls.addClassCleanup(cls.page.close)
        cls.browser = Browser()
        cls.addClassCleanup(cls.browser.close)

    def labels(self):
        return self.browser.run(
            "return [...document.querySelectorAll('.tree a')].map((one) => one.getAttribute('aria-label'))")

    def open_start(self):
        self.browser.open(self.page.address)
        self.browser.wait_text("#counts", f"✓ {REACHED:,} fully authenticated")
        self.browser.wait("return document.querySelector('#unreached li a')")

    def test_groups_are_opened_by_clicks(self):
        self.open_start()
        labels = self.labels()
        self.assertLess(len(labels), 60)
        self.assertEqual(sum(f"leads to {OF_EACH}" in label for label in labels), INTRODUCERS)
        groups = [label for label in labels if label.startswith(f"{OF_EACH} keys: ▸ click to open")]
        self.assertEqual(len(groups), INTRODUCERS, labels)
        self.follow(f"{OF_EACH} keys", ".tree")
        each = OF_EACH // DOMAINS
        self.browser.wait("return document.querySelector('.tree').textContent.includes(arguments[0])",
                          f"d0.example: {each} keys")
        self.assertEqual(sum(label.endswith(f"{each} fully authenticated") for label in self.labels()), DOMAINS)
        self.follow(f"d0.example: {each} keys", ".tree")
        self.browser.wait("return document.querySelector('.tree').textContent.includes(arguments[0])",
                          f"{each - 40} more keys")
        self.assertEqual(sum(label.startswith("Person ") for label in self.labels()), 40)
        self.assertEqual(self.browser.run(OVERLAPS, ".tree a"), 0)
        self.follow(f"{each - 40} more keys", ".tree")
        self.browser.wait("return document.querySelector('.tree').textContent.includes(arguments[0])",
                          f"{each - 80} more keys")
        self.browser.driver.back()
        self.browser.driver.back()
        self.browser.driver.back()
        self.browser.wait("return !document.querySelector('.tree').textContent.includes('d0.example')")

    def test_each_box_has_a_name(self):
        self.open_start()
        names = self.browser.run("return [...document.querySelectorAll('.tree .main')].map((one) => one.textContent)")
        self.assertIn("<no@example.org>", names)
        self.assertIn("Both", names)
        self.assertTrue(all(names), names)
        counts = self.browser.run("return [...document.querySelectorAll('.tree .group .small')]"
                                  ".map((one) => one.textContent)")
        self.assertEqual(counts, [f"▸ click to open, ✓ {OF_EACH}"] * INTRODUCERS)

    def test_on_a_phone(self):
        self.browser.size(360, 740)
        self.open_start()
        self.assertEqual(self.browser.run(OVERLAPS, ".tree a"), 0)
        self.assertLessEqual(self.browser.run("return document.documentElement.scrollWidth"), 360)

    def test_lists_come_in_pieces(self):
        self.open_start()
        self.browser.wait_text("#unreached", f"Show more ({STRANGERS - 30} keys left)")
        self.browser.click("#unreached button")
        self.browser.wait_text("#unreached", f"Show more ({STRANGERS - 60} keys left)")
        self.follow("Introducer 0", ".tree")
        self.browser.wait_text("#for-count", f"{OF_EACH}")
        self.browser.wait_text("#vouches-for", f"Show more ({OF_EACH - 20} keys left)")
        self.browser.click("#vouches-for li:last-child > button")
        self.browser.wait_text("#vouches-for", f"Show more ({OF_EACH - 70} keys left)")
