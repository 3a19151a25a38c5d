"""The page is loaded again after its command has ended: the browser says so in words, and the question stays."""

import signal

from browser import Browser, needs_browser
from friends import friends
from page import Page, needs_page
from test_browser import CAROL
from test_places import Places
from tukyamid.web.browser_opening import leading


@needs_page
@needs_browser
class Ended(Places):
    @classmethod
    def setUpClass(cls):
        people = friends()
        cls.page = Page([people.keyring], [people.fpr["Alice"]])
        cls.addClassCleanup(cls.page.close)
        cls.browser = Browser()
        cls.addClassCleanup(cls.browser.close)

    def test_it_is_said_in_words(self):
        self.start()
        self.browser.wait("return navigator.serviceWorker.controller")
        self.follow(CAROL, ".tree")
        self.at_key(CAROL)
        asked = self.browser.driver.current_url
        self.browser.driver.refresh()  # As long as the command runs, the page is there.
        self.at_key(CAROL)
        self.led_here_by_a_file()
        self.browser.open(asked)
        self.at_key(CAROL)
        self.page.process.send_signal(signal.SIGINT)
        self.assertEqual(self.page.process.wait(60), 0)
        self.browser.driver.refresh()
        self.browser.wait_text("h1", "The command has ended")
        self.browser.wait_text("main", "Start it again: it opens the page at a new address.")
        self.assertEqual(self.browser.driver.current_url, asked)
        self.assertIn("#key?key=", asked)

    def led_here_by_a_file(self):
        """Also while the worker runs: a file is of another origin, and the user goes from it to the page."""
        path = self.page.own / "leads.html"
        path.write_text(leading(self.page.address))
        self.browser.open(path.as_uri())
        self.browser.wait("return document.querySelector('#held')?.innerText.includes('user IDs')")
