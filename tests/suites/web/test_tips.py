"""What the pictures say is explained beside them: by the mouse, by the keyboard and by a tap."""

from browser import needs_browser
from page import needs_page
from test_browser import CAROL, DAVE
from test_places import ALICE, BOB, Places


@needs_page
@needs_browser
class Tips(Places):
    def explained(self, *parts):
        """Waits until the tip of the pictures is there with these parts."""
        self.browser.wait("return !document.querySelector('#picture-tip').hidden")
        text = self.browser.text("#picture-tip")
        for part in parts:
            self.assertIn(part, text)

    def point(self, selector, number=0):
        """Moves the mouse to the middle of an element of a picture, or to a point of a line."""
        x, y = self.browser.run("""
            const one = document.querySelectorAll(arguments[0])[arguments[1]];
            one.scrollIntoView({block: 'center'});
            if (!one.getTotalLength) {
              const box = one.getBoundingClientRect();
              return [box.x + box.width / 2, box.y + box.height / 2];
            }
            const at = one.getPointAtLength(one.getTotalLength() / 2).matrixTransform(one.getScreenCTM());
            return [at.x, at.y];""", selector, number)
        self.browser.driver.execute_cdp_cmd("Input.dispatchMouseEvent", {"type": "mouseMoved", "x": x, "y": y})
        return x, y

    def test_what_a_picture_says_is_explained(self):
        """By the mouse and the focus; a line also by a tap."""
        self.start()
        self.point(f".tree a[aria-label^='{DAVE}']")
        self.explained(f"{CAROL} vouches for {DAVE}, with amount 120.", "60 of 120: partly authenticated.",
                       "120 is full trust", "All words")
        self.browser.keys("ESCAPE")
        self.assertFalse(self.browser.element("#picture-tip").is_displayed())
        self.browser.run("document.querySelector(`.tree a[aria-label^='${arguments[0]}']`).focus()", BOB)
        self.explained(f"{ALICE} vouches for {BOB}, with amount 120, and makes it an introducer (depth 1).",
                       "Somebody whose certifications you rely on", "How many more steps a path may take")
        self.browser.keys("ESCAPE")
        lines = self.browser.run("return [...document.querySelectorAll('.tree .line title')]"
                                 ".map((one) => one.textContent)")
        x, y = self.point(".tree .touch", lines.index(f"{CAROL} vouches for {DAVE}"))
        self.browser.driver.execute_cdp_cmd("Input.dispatchMouseEvent", {"type": "mouseMoved", "x": 0, "y": 0})
        self.browser.wait("return document.querySelector('#picture-tip').hidden")
        for touch in {"type": "touchStart", "touchPoints": [{"x": x, "y": y}]}, {"type": "touchEnd", "touchPoints": []}:
            self.browser.driver.execute_cdp_cmd("Input.dispatchTouchEvent", touch)
        self.explained(f"{CAROL} vouches for {DAVE}, with amount 120.")

    def test_the_labels_of_arrows_are_explained(self):
        """With the keyboard alone too: the Enter key goes on to the tip, and Escape back."""
        self.open("Carol", CAROL)
        labels = self.browser.run("return [...document.querySelectorAll('#picture .label')]"
                                  ".map((one) => one.getAttribute('aria-label'))")
        at = labels.index("amount 60 of 120, depth 1, made 2025-02-01, for anyone at example.org")
        self.browser.run("document.querySelectorAll('#picture .label')[arguments[0]].focus()", at)
        self.explained(f"The arrow is a certification: {ALICE} vouches for {BOB}.",
                       "Its amount is 120. These paths use 60 of it.",
                       f"Its depth is 1: it makes {BOB} an introducer for anyone at example.org.",
                       "The names for which an introducer's certifications count")
        self.browser.keys("ENTER")
        self.assertEqual(self.browser.focused()[1], "All words")
        self.browser.keys("ESCAPE")
        self.assertEqual(self.browser.run("return [document.activeElement.getAttribute('aria-label'),"
                                          "document.querySelector('#picture-tip').hidden]"), [labels[at], True])
        self.browser.keys("ENTER", "ENTER")
        self.browser.wait_text("#glossary", "Every path begins at a root.")
