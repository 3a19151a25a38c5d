"""The page's plans in a real browser: what is fragile, a meeting, and a certification supposed by hand, over six people
whose answers are known in advance."""

import json

from browser import needs_browser
from page import needs_page
from test_access import CONTRASTS
from test_browser import InBrowser

CAROL, DAVE, FRANK = "Carol <carol@example.org>", "Dave <dave@example.net>", "Frank <frank@example.org>"
PHONE = 360


@needs_page
@needs_browser
class Planned(InBrowser):
    def choose(self, field, name):
        """Types a name, and takes the first that is found, by the keyboard alone."""
        self.browser.run(f"document.querySelector('#{field}').focus()")
        self.browser.keys(name)
        self.browser.wait(f"return document.querySelectorAll('#{field}-found [role=option]').length")
        self.browser.keys("ARROW_DOWN", "ENTER")

    def show_plans(self):
        self.open(view="start")
        self.browser.click("#to-plans")
        self.browser.wait("return document.querySelector('#meet') && document.querySelector('#look')")

    def plan_meeting(self, *names):
        self.browser.run("document.querySelector('#comers').value = arguments[0]",
                         "\n".join(f"{self.fpr[name].upper()}  # {name}" for name in names))
        self.browser.click("#meet")
        self.browser.wait("return document.querySelectorAll('#meeting .person').length")

    def test_a_certification_by_hand(self):
        """Alice certifies Dave: by the keyboard, from the issuer to the answer."""
        self.open("Dave", DAVE)
        self.browser.wait_text("#answer", "60 of 120")
        self.choose("suppose-issuer", "alice@")
        self.browser.wait_text("#suppose-issuer-chosen", "Alice")
        self.browser.wait_text("#suppose-target-chosen", "Dave")
        self.browser.run("document.querySelector('#suppose-it').focus()")
        self.browser.keys("ENTER")
        self.browser.wait_text("#answer", "120 of 120")
        self.browser.wait_text("#answer", "Supposed, and in no keyring")
        dashes = self.browser.run("const edge = document.querySelector('#picture .supposed path');"
                                  "return getComputedStyle(edge).strokeDasharray")
        self.assertNotEqual(dashes, "none")
        self.browser.run("document.querySelector('[aria-label^=\"No longer suppose\"]').click()")
        self.browser.wait_text("#answer", "60 of 120")

    def test_an_introducer_by_hand(self):
        """Alice makes Bob an introducer of half the amount, for example.net, where Dave is, and then for others."""
        for scope, amount in (r"<[^>]+[@.]example\.net>$", "120 of 120"), (r"<[^>]+[@.]example\.org>$", "60 of 120"):
            self.open("Dave", DAVE)
            self.browser.wait_text("#answer", "60 of 120")
            self.choose("suppose-issuer", "alice@")
            self.choose("suppose-target", "bob@")
            self.assertTrue(self.browser.run("return !document.querySelector('#suppose-scope').checkVisibility()"))
            for field, value in ("depth", 1), ("amount", 60), ("scope", scope):
                self.browser.run("const one = document.querySelector(`#suppose-${arguments[0]}`);"
                                 "one.value = arguments[1]; one.dispatchEvent(new Event('input'))", field, value)
            self.assertTrue(self.browser.run("return document.querySelector('#suppose-scope').checkVisibility()"))
            self.browser.click("#suppose-it")
            self.browser.wait_text("#answer", "Supposed, and in no keyring")
            self.browser.wait_text("#answer", amount)
            (made,) = self.browser.run("return import(new URL('state.js', location.href).href)"
                                       ".then((one) => one.state.suppose)")
            self.assertEqual((made["issuer"], made["target"], made["depth"], made["amount"], made["scopes"]),
                             (self.fpr["Alice"], self.fpr["Bob"], 1, 60, [scope]))

    def test_what_cannot_be_supposed(self):
        self.open("Dave", DAVE)
        self.browser.wait_text("#answer", "60 of 120")
        self.browser.click("#suppose-it")
        self.browser.wait_text("#suppose-fault", "Choose who certifies")
        self.assertEqual(self.browser.focused()[0], "suppose-issuer")
        self.choose("suppose-issuer", "dave@")
        self.browser.click("#suppose-it")
        self.browser.wait_text("#suppose-fault", "can’t vouch for itself")

    def test_what_is_fragile(self):
        """Carol needs Bob for 120; if Alice certified her, she wouldn't. A click shows that."""
        self.open(view="start")
        self.browser.click("#to-overview")
        self.whole_overview()
        self.browser.click("#to-fragile")
        self.browser.click("#look")
        self.browser.wait("return document.querySelectorAll('#fragile-tables section').length === 3")
        row = self.browser.text("#fragile-tables section tbody tr")
        self.assertIn("Bob <bob@example.org>", row)
        self.assertIn(f"Alice <alice@example.net> certifies {CAROL}: all", row)
        self.browser.click("#fragile-tables section tbody button")
        self.browser.wait_text("#answer", "Supposed, and in no keyring")
        self.browser.wait_text("#answer", "120 of 120")
        self.browser.wait_text("#if-answer", "Without Bob")

    def test_a_meeting(self):
        """Alice, Dave and Frank: Alice alone is a root, and she certifies both."""
        self.show_plans()
        self.plan_meeting("Alice", "Dave", "Frank")
        self.assertEqual(self.browser.run("return document.querySelectorAll('#meeting .person').length"), 1)
        steps = self.browser.run("return [...document.querySelectorAll('#meeting .person li')].map((one) => "
                                 "one.querySelector('code').innerText)")
        self.assertEqual(sorted(step.replace(" ", "").lower() for step in steps),
                         sorted([self.fpr["Dave"], self.fpr["Frank"]]))
        self.browser.click("#sheets")
        with open(self.browser.saved("meeting.html"), encoding="utf-8") as file:
            sheet = file.read()
        self.assertEqual(sheet.count("<section>"), 3)
        self.browser.click("#meeting .person li a.suppose")
        self.browser.wait_text("#answer", "Supposed, and in no keyring")
        self.browser.wait_text("#answer", "120 of 120")

    def test_who_comes_is_chosen(self):
        self.show_plans()
        self.browser.run("document.querySelector('#comers').value = ''")
        self.choose("comer", "frank@")
        self.browser.wait("return document.querySelector('#comers').value !== ''")
        self.assertEqual(self.browser.run("return document.querySelector('#comers').value"),
                         f"{self.fpr['Frank']}  # {FRANK}\n")

    def test_a_meeting_of_nobody(self):
        self.show_plans()
        self.browser.run("document.querySelector('#comers').value = '# nobody\\n'")
        self.browser.click("#meet")
        self.browser.wait_text("#meeting", "nobody comes to this meeting")
        self.browser.run("document.querySelector('#comers').value = 'Frank'")
        self.browser.click("#meet")
        self.browser.wait_text("#meeting", "There is no plan")

    def test_a_phone_and_the_dark(self):
        """Nothing is wider than the window, and what is written differs from what it is written on."""
        self.browser.media(prefers_color_scheme="dark")
        self.browser.size(PHONE)
        self.addCleanup(self.browser.size, 1280)
        self.addCleanup(self.browser.media, prefers_color_scheme="light")
        self.show_plans()
        self.plan_meeting("Alice", "Dave", "Frank")
        self.browser.click("#look")
        self.browser.wait("return document.querySelectorAll('#fragile-tables section').length === 3")
        self.assertLessEqual(self.browser.run("return document.documentElement.scrollWidth"), PHONE)
        self.open("Dave", DAVE)
        self.browser.wait("return document.querySelector('#suppose-form')")
        self.assertLessEqual(self.browser.run("return document.documentElement.scrollWidth"), PHONE)
        paper, ink = self.browser.run(
            "const style = getComputedStyle(document.querySelector('#suppose-issuer'));"
            "return [style.backgroundColor, style.color].map((one) => one.match(/[0-9]+/g).slice(0, 3).map(Number))")
        self.assertLess(sum(paper) + 300, sum(ink))

    def test_what_is_written_can_be_read(self):
        """The plans' place and the form of a certification by hand have enough contrast in light and in the dark."""
        self.addCleanup(self.browser.media, prefers_color_scheme="light")
        for scheme in "light", "dark":
            with self.subTest(scheme):
                self.browser.media(prefers_color_scheme=scheme)
                self.show_plans()
                self.plan_meeting("Alice", "Dave", "Frank")
                self.browser.click("#look")
                self.browser.wait("return document.querySelectorAll('#fragile-tables section').length === 3")
                self.assertEqual(self.browser.run(CONTRASTS), [])
                self.open("Dave", DAVE)
                self.choose("suppose-issuer", "alice@")
                self.browser.wait_text("#suppose-issuer-chosen", "Alice")
                self.assertEqual(self.browser.run(CONTRASTS), [])

    def said(self):
        """What a screen reader has: each node's role and name."""
        nodes = self.browser.driver.execute_cdp_cmd("Accessibility.getFullAXTree", {})["nodes"]
        return [(node["role"]["value"], node.get("name", {}).get("value", "")) for node in nodes
                if not node["ignored"] and "role" in node]

    def test_what_a_screen_reader_says_of_a_certification_by_hand(self):
        self.open("Dave", DAVE)
        self.choose("suppose-issuer", "dave@")
        self.browser.click("#suppose-it")
        self.browser.wait_text("#suppose-fault", "can’t vouch for itself")
        said = self.said()
        for one in (("heading", "Suppose a certification"), ("combobox", "Who certifies"),
                    ("combobox", "Which user ID"), ("spinbutton", "Depth"), ("spinbutton", "Amount"),
                    ("button", "Suppose it")):
            self.assertIn(one, said, json.dumps(said))
        self.assertTrue(any(role == "alert" for role, _ in said), "a fault is said at once")
        self.browser.run("const one = document.querySelector('#suppose-depth'); one.value = 1;"
                         "one.dispatchEvent(new Event('input'))")
        self.assertTrue(any(role == "textbox" and name for role, name in self.said()))

    def test_what_a_screen_reader_says(self):
        """Each field and each button has a name, and the sections are headed."""
        self.show_plans()
        self.plan_meeting("Alice", "Dave", "Frank")
        said = self.said()
        for one in (("heading", "Plans"), ("heading", "What is fragile"), ("textbox", "Who comes"),
                    ("combobox", "Add somebody who comes"), ("spinbutton", "Depth of what they certify"),
                    ("button", "Plan the meeting"), ("button", "Sheets to print"),
                    ("button", "Look for what is fragile"),
                    ("link", f"Suppose it: Alice <alice@example.net> certifies {DAVE}")):
            self.assertIn(one, said, json.dumps(said))
