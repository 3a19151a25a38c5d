"""A page of which a part doesn't come, or whose service says nothing: it says so, and can be loaded again."""

from browser import needs_browser
from page import needs_page
from test_browser import CAROL
from test_places import Places

# The command, but its server refuses these files until the page is loaded once more, and the call `begin` three times.
REFUSING = """
import sys
from tukyamid.web import http_server, page_calls, web_command
files = sys.argv[1].split(",")
class Once(dict):
    loads = 0
    def get(self, name):
        self.loads += name == ""
        return None if self.loads == 1 and name in files else super().get(name)
make, begin, left = http_server.Server.__init__, page_calls.Calls.begin, [3 if "begin" in files else 0]
def made(self, *words):
    make(self, *words)
    self._files = Once(self._files)
async def refused(self, asked):
    if left[0]:
        left[0] -= 1
        raise OSError("no service today")
    return await begin(self, asked)
http_server.Server.__init__, page_calls.Calls.begin = made, refused
sys.exit(web_command.run(sys.argv[2:]))
"""


@needs_page
@needs_browser
class Loading(Places):
    def serve(self, refused):
        """The page of the six people once more, by a server that refuses this. Returns its address."""
        return self.served_by(REFUSING, refused)[1]

    def load_again(self):
        self.browser.click("#load-again")
        self.browser.wait_text(".verdict", "120 of 120, by two paths")  # The question stays in the address.
        self.browser.wait("return document.querySelector('#loading').hidden")

    def test_a_module_that_is_missing(self):
        """Without it no module runs."""
        for name in "zoom.js", "main.js":
            with self.subTest(name):
                self.browser.open(self.serve(name) + f"#ask?key={self.fpr['Carol']}&uid={CAROL}")
                self.browser.wait_text("#loading", "A part of this page couldn’t be loaded.")
                self.load_again()

    def test_a_style_sheet_that_is_missing(self):
        """The page begins without it, and says what is missing all the same."""
        self.browser.open(self.serve("style.css") + f"#ask?key={self.fpr['Carol']}&uid={CAROL}")
        self.browser.wait_text(".verdict", "120 of 120, by two paths")
        self.browser.wait_text("#loading", "A part of this page couldn’t be loaded.")
        self.load_again()

    def test_the_script_that_says_so_is_missing(self):
        """Then the text of the page itself says it, and its link loads the page again."""
        self.browser.open(self.serve("loading.js,dom.js"))
        self.browser.wait_text("#loading", "a part of it is missing.")
        self.browser.click("#load-again")
        self.browser.wait_text("#held", "user IDs")

    def test_a_service_that_says_nothing(self):
        self.browser.open(self.serve("begin") + f"#ask?key={self.fpr['Carol']}&uid={CAROL}")
        self.browser.wait_text("#notes", "There is nothing to show: no service today.")
        self.browser.click("#start-again")
        self.browser.wait_text(".verdict", "120 of 120, by two paths")
        self.assertEqual(self.browser.text("#notes"), "")
