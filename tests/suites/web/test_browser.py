"""The page in a real browser: it is asked, the time is moved, roots are changed, and keys are left out."""

import json
from urllib.parse import quote_plus

from browser import Browser, needs_browser
from outside import COMMAND, run
from page import HOSTILE, Served, needs_page
from tukyamid.web.browser_opening import leading

CAROL, DAVE = "Carol <carol@example.org>", "Dave <dave@example.net>"


class InBrowser(Served):
    @classmethod
    def setUpClass(cls):
        super().setUpClass()
        cls.browser = Browser()
        cls.addClassCleanup(cls.browser.close)

    def setUp(self):
        self.browser.size(1280)
        self.browser.media()

    def open(self, name=None, user_id="", view="ask"):
        """Opens the page, about a binding if one is given."""
        asked = f"?key={self.fpr[name]}&uid={quote_plus(user_id)}" if name else ""
        self.browser.open(f"{self.page.address}#{view}{asked}")
        if name:
            self.browser.wait("return document.querySelector('.verdict') && document.querySelector('#moments li')")
        else:
            self.browser.wait("return document.querySelector('#held').innerText.includes('user IDs')")

    def whole_overview(self):
        """Waits until all tables are there, also those that take longest."""
        self.browser.wait("return document.querySelector('#tables').dataset.done")

    def type(self, selector, text):
        field = self.browser.element(selector)
        field.clear()
        field.send_keys(text)


@needs_page
@needs_browser
class Asked(InBrowser):
    def test_a_name_is_found_as_it_is_typed(self):
        self.open()
        self.type("#sought", "carol@")
        self.browser.wait_text("#found", CAROL)
        self.browser.keys("ARROW_DOWN", "ENTER")
        self.browser.wait_text(".verdict", "120 of 120, by two paths from Alice <alice@example.net>.")
        boxes = self.browser.wait("return [...document.querySelectorAll('.network .key')].map(one => one.textContent)")
        for part in "root, amount 120", f"Bob{self.short('Bob')}", f"Carol{self.short('Carol')}":
            self.assertTrue(any(part in box for box in boxes), boxes)
        labels = self.browser.run(
            "return [...document.querySelectorAll('.network .label')].map(one => one.textContent)")
        self.assertEqual(len(labels), 3)
        self.assertIn(r"amount 60 of 120depth 1, made 2025-02-01for anyone at example.org", labels)
        self.assertIn("amount 60 of 60depth 1, made 2025-02-02", labels)
        self.browser.wait_text("#others", "the key’s own, which only extends paths that lead to this key")

    def short(self, name):
        return f"{self.fpr[name][:8]}…{self.fpr[name][-8:]}"

    def test_a_fingerprint_is_found(self):
        self.open()
        self.type("#sought", self.fpr["Dave"].upper())
        self.browser.wait_text("#found", DAVE)
        self.browser.click("#found-0")
        self.browser.wait_text(".verdict", "60 of 120, by one path from")
        self.browser.wait_text("#others", "2 certifications on no path")

    def test_no_path(self):
        self.open("Frank", "Frank <frank@example.org>")
        self.browser.wait_text(".verdict", "0 of 120: no path leads here from your roots.")
        self.assertFalse(self.browser.element("#picture").is_displayed())
        self.browser.wait_text("#standpoint", "Seen from your root Alice <alice@example.net> (amount 120), "
                               "as of 2025-12-01.")
        self.browser.wait_text("#others", "the issuer’s key is revoked, with effect at all times")

    def test_the_time_is_moved(self):
        self.open("Carol", CAROL)
        self.set_day("2025-02-15")
        self.browser.wait_text(".verdict", "60 of 120, by one path")
        self.browser.wait_text("#changes", "From 2025-12-01 to 2025-02-15: amount 120 → 60")
        self.browser.wait_text("#changes", "The certification by Bob <bob@example.org> before: is on a path. "
                               "After: it wasn’t created yet.")
        self.browser.click("#later")
        self.browser.wait_text(".verdict", "120 of 120")
        self.browser.wait_text("#as-of", "2025-03-01 00:00:00 UTC")
        self.browser.wait_text("#changes", "From 2025-02-15 to 2025-03-01: amount 60 → 120")
        self.browser.click("#slider")
        self.browser.keys("HOME")
        self.browser.wait_text(".verdict", "✗ not authenticated")
        self.browser.wait_text("#changes", "amount 120 → 0")
        self.browser.driver.back()
        self.browser.wait_text(".verdict", "60 of 120")

    def set_day(self, day):
        self.browser.run("const day = document.querySelector('#day'); day.value = arguments[0];"
                         "day.dispatchEvent(new Event('change'))", day)

    def test_roots_and_amounts_are_changed(self):
        self.open("Carol", CAROL)
        amount = f"#amount-{self.fpr['Alice']}"
        self.browser.wait("return document.querySelector('#if .amount')")
        self.set_number(amount, 40)
        self.browser.wait_text(".verdict", "40 of 120, by one path")
        self.set_number("#wanted", 40)
        self.browser.wait_text(".verdict", "40 of 40, by one path")
        self.browser.click("#reset")
        self.browser.wait_text(".verdict", "120 of 120, by two paths")
        self.browser.click(".roots button")
        self.browser.wait_text(".verdict", "✗ not authenticated")
        self.browser.wait_text("#if", "No root yet")
        self.type("#new-root", "bob@")
        self.browser.wait_text("#new-root-found", "Bob <bob@example.org>")
        self.browser.keys("ENTER")
        self.browser.wait_text(".verdict", "120 of 120, by one path from Bob <bob@example.org>.")
        self.browser.driver.back()
        self.browser.wait_text(".verdict", "✗ not authenticated")

    def set_number(self, selector, value):
        self.browser.run("arguments[0].value = arguments[1]; arguments[0].dispatchEvent(new Event('change'))",
                         self.browser.element(selector), value)

    def test_without_a_key_or_a_certification(self):
        self.open("Carol", CAROL)
        self.browser.click("#steps-box summary")
        self.browser.click("button[aria-label='Without Bob <bob@example.org>']")
        self.browser.wait_text("#if-answer", "Without Bob <bob@example.org>, 60. With everything, 120.")
        self.browser.wait_text(".verdict", "60 of 120, by one path")
        self.browser.wait_text("#answer", "With everything included it is 120.")
        self.browser.click("#if button[aria-label^='Include Bob']")
        self.browser.wait_text(".verdict", "120 of 120, by two paths")
        self.browser.click("#steps button[aria-label^='Without this certification by Alice']")
        self.browser.wait_text(".verdict", "120 of 120, by one path")

    def test_the_overview(self):
        self.open()
        self.browser.click("#to-overview")
        self.whole_overview()
        rows = self.browser.run("return [...document.querySelectorAll('[aria-labelledby=table-bindings] tbody tr')]"
                                ".map(row => row.innerText)")
        self.assertEqual(rows[0], f"full\t120 or more\t{3 + len(HOSTILE)}")
        self.assertGreater(self.browser.run("return document.querySelectorAll('.chart .level').length"), 4)
        self.browser.click("[aria-labelledby=table-introducers] button[aria-label$=CSV]")
        with open(self.browser.saved("introducers.csv"), encoding="utf-8", newline="") as file:
            lines = file.read().split("\r\n")
        self.assertEqual(lines[0], '"user ID","as","on a path of","no longer full","no path left","key"')
        self.assertTrue(lines[1].startswith('"Alice <alice@example.net>","root","'), lines)
        self.browser.click("#json")
        with open(self.browser.saved("overview.json"), encoding="utf-8") as file:
            self.assertEqual(json.load(file)["keys"], 6 + len(HOSTILE))

    def test_a_cell_is_no_formula(self):
        self.open()
        text = self.browser.driver.execute_async_script(
            "const done = arguments[0];"
            "import(new URL('overview.js', location.href).href).then(({asCsv}) => done(asCsv("
            "{columns: ['a'], rows: [['=1+1'], ['+1'], ['-1'], ['@x'], ['\"'], [-5]]})))")
        self.assertEqual(text, '"a"\r\n"\'=1+1"\r\n"\'+1"\r\n"\'-1"\r\n"\'@x"\r\n""""\r\n"-5"\r\n')

    def test_user_ids_in_the_address(self):
        """Letters stand there as they are; what doesn't print, or isn't UTF-8, in the engine's spelling. Both are read
        back as the same user ID."""
        self.open()
        for spelled, readable in [
            (r"Ren\xc3\xa9 <rene@example.org>", "Ren\u00e9 <rene@example.org>"), ("Carol", "Carol"),
            (r"\xe6\x9d\x8e \\xc3\xa9", "\u674e \\\\xc3\\xa9"), (r"\xff\xfe", r"\xff\xfe"),
            (r"a\x1b[2J", r"a\x1b[2J"), (r"\xe2\x80\xae", r"\xe2\x80\xae"), (r"\xc2\x9b", r"\xc2\x9b"),
        ]:
            with self.subTest(spelled):
                found = self.browser.driver.execute_async_script(
                    "const [spelled, done] = arguments;"
                    "import(new URL('spelling.js', location.href).href).then((page) =>"
                    "done([page.readable(spelled), page.spelled(page.readable(spelled))]))", spelled)
                self.assertEqual(found, [readable, spelled])

    def test_a_proof_is_saved_and_holds(self):
        self.open("Carol", CAROL)
        self.browser.click("#save-proof")
        self.browser.wait_text("#proof-state", "Saved as")
        path = self.browser.saved(f"proof-{self.fpr['Carol'][:16]}.json")
        done = run([COMMAND, "check", path], env=self.page.environment)
        self.assertEqual((done.returncode, done.stderr), (0, b""), done.stdout)


@needs_page
@needs_browser
class Hostile(InBrowser):
    def test_names_of_others_are_text_alone(self):
        """They are found, drawn, listed and counted, and nothing of them runs or is fetched."""
        for one, user_id in zip(self.hostile, HOSTILE):
            (found,) = self.page.call("search", text=one.fpr)["found"]
            with self.subTest(found["user_id"]):
                self.browser.open(self.page.address)
                self.browser.wait("return document.querySelector('#held').innerText.includes('user IDs')")
                self.type("#sought", one.fpr)
                self.browser.wait_text("#found", one.fpr[:8])
                self.assertIn(found["user_id"], self.browser.run(
                    "return document.querySelector('#found').textContent"))
                self.browser.keys("ENTER")
                self.browser.wait_text(".verdict", "120 of 120, by one path")
                self.browser.wait("return document.querySelector('#moments li')")
                self.assertIn(found["user_id"],
                              self.browser.run("return document.querySelector('#answer-title').textContent"))
                self.assertEqual(self.browser.run(
                    "return [window.owned ?? null, document.querySelectorAll('main img, main script').length,"
                    "document.querySelectorAll('[onerror]').length]"), [None, 0, 0])
                self.assertNotRegex(self.browser.run("return document.documentElement.textContent + document.title"),
                                    "[\u200b\u202a-\u202e\u2066-\u2069\x00-\x08\x0e-\x1f]")
        self.browser.click("#to-overview")
        self.whole_overview()
        self.assertIsNone(self.browser.run("return window.owned ?? null"))

    def test_nothing_is_asked_for_outside(self):
        self.browser.requests()
        self.browser.faults()
        self.open("Carol", CAROL)
        self.browser.click("#to-overview")
        self.whole_overview()
        asked = [one for one in self.browser.requests() if not one.startswith(("about:", "data:", "blob:"))]
        self.assertGreater(len(asked), 15)
        self.assertEqual([one for one in asked if not one.startswith(self.page.address)], [])
        self.assertEqual(self.browser.faults(), [])

    def test_the_file_that_leads_to_the_page(self):
        """It is of another origin, as every file is."""
        path = self.page.own / "leads.html"
        path.write_text(leading(self.page.address))
        self.browser.open(path.as_uri())
        self.browser.wait("return document.querySelector('#held')?.innerText.includes('user IDs')")
        self.assertEqual(self.browser.driver.current_url.split("#")[0], self.page.address)

    def test_an_address_that_others_wrote(self):
        """What stands behind # is text too, whatever it is."""
        for text in ("#ask?key=<script>&uid=<img src=x onerror=window.owned=1>", "#ask?key=&roots=x:y,z&without=%ff",
                     "#overview?time=99999999999&wanted=-1", "#%00?%"):
            with self.subTest(text):
                self.browser.open(self.page.address + text)
                self.browser.wait("return document.querySelector('#held').innerText.includes('user IDs')")
                self.browser.wait("return !document.querySelector('[aria-busy]')")
                self.assertIsNone(self.browser.run("return window.owned ?? null"))
