"""The page by keyboard alone, as a screen reader has it, at every width, in light and dark."""

from browser import needs_browser
from page import needs_page
from test_browser import CAROL, InBrowser

WIDTHS = (360, 768, 1280, 1920, 3840)
INTERACTIVE = {"button", "checkbox", "combobox", "link", "searchbox", "slider", "spinbutton", "textbox", "Date",
               "DisclosureTriangle", "option", "listbox", "meter", "image", "region", "figure"}

# For each element that shows a text: the contrast of the text with what is behind it, and what it needs.
CONTRASTS = """
const rgb = (text) => { const parts = text.match(/[\\d.]+/g).map(Number);
  return parts.length < 4 ? [...parts, 1] : parts; };
const light = ([r, g, b]) => { const [x, y, z] = [r, g, b].map((v) => v / 255).map((v) =>
  v <= 0.03928 ? v / 12.92 : ((v + 0.055) / 1.055) ** 2.4); return 0.2126 * x + 0.7152 * y + 0.0722 * z; };
const behind = (one) => { for (let at = one; at; at = at.parentElement) {
  const colour = at instanceof SVGElement ? null : rgb(getComputedStyle(at).backgroundColor);
  if (colour && colour[3] > 0.99) return colour; } return [255, 255, 255, 1]; };
const boxOf = (one) => { const rect = one.parentElement?.querySelector('rect');
  return one instanceof SVGElement && rect ? rgb(getComputedStyle(rect).fill) : behind(one); };
const poor = [];
for (const one of document.querySelectorAll('body *')) {
  const own = [...one.childNodes].some((node) => node.nodeType === 3 && node.data.trim());
  if (!own || !one.checkVisibility() || one.closest('title, script, noscript, .skip')) continue;
  const style = getComputedStyle(one);
  const colour = rgb(one instanceof SVGElement ? style.fill : style.color);
  const [a, b] = [light(colour), light(boxOf(one))].sort((x, y) => y - x);
  const size = parseFloat(style.fontSize);
  const needs = size >= 24 || size >= 18.66 && Number(style.fontWeight) >= 700 ? 3 : 4.5;
  const found = (a + 0.05) / (b + 0.05);
  if (found < needs) poor.push(`${one.tagName} ${one.className?.baseVal ?? one.className}: ${found.toFixed(2)}`);
}
return poor;
"""


@needs_page
@needs_browser
class Access(InBrowser):
    def test_by_keyboard_alone(self):
        self.open()
        self.assertEqual(self.browser.focused()[0], "sought")  # The page begins where one types.
        self.browser.keys("c", "a", "r", "o", "l")
        self.browser.wait_text("#found", CAROL)
        self.browser.keys("ARROW_DOWN")
        chosen = self.browser.run("const field = document.querySelector('#sought');"
                                  "const one = document.getElementById(field.getAttribute('aria-activedescendant'));"
                                  "return [field.getAttribute('aria-expanded'), one.getAttribute('aria-selected')]")
        self.assertEqual(chosen, ["true", "true"])
        self.browser.keys("ENTER")
        self.browser.wait_text(".verdict", "120 of 120")
        self.browser.wait("return document.querySelector('#moments li') && document.querySelector('#save-proof')")
        self.assertEqual(self.browser.run("return document.querySelector('#found').hidden"), True)
        seen = self.tabbed("save-proof")
        for wanted in ("picture-area", "slider", "earlier", "later", "day", f"amount-{self.fpr['Alice']}", "new-root",
                       "wanted"):
            self.assertIn(wanted, seen)
        self.assertEqual(seen[-1], "save-proof")
        self.browser.run("document.querySelector('#steps-box summary').focus()")
        self.browser.keys("ENTER")
        self.browser.wait("return document.querySelector('#steps-box').open")
        self.browser.run("document.querySelector('#save-proof').focus()")
        self.tab_back_to("slider")
        self.browser.keys("HOME")
        self.browser.wait_text(".verdict", "✗ not authenticated")

    def tabbed(self, last):
        """The ids of what Tab comes to, up to one; each shows that it has the focus."""
        seen = []
        while len(seen) < 100 and (not seen or seen[-1] != last):
            self.browser.keys("TAB")
            self.browser.wait("return document.activeElement !== document.body")
            seen.append(self.browser.focused()[0])
            outline = self.browser.run("const style = getComputedStyle(document.activeElement);"
                                       "return [style.outlineStyle, parseFloat(style.outlineWidth)]")
            if seen[-1] != "day":  # Its parts are the browser's own, and show the focus themselves.
                self.assertTrue(outline[0] != "none" and outline[1] >= 2, self.browser.focused())
        return seen

    def tab_back_to(self, wanted):
        for _ in range(100):
            if self.browser.focused()[0] == wanted:
                return
            self.browser.run("const all = [...document.querySelectorAll('a[href], button, input, summary, [tabindex]')]"
                             ".filter(one => one.tabIndex >= 0 && one.checkVisibility());"
                             "all[all.indexOf(document.activeElement) - 1].focus()")
        self.fail(f"the focus never came to {wanted}")

    def test_escape_closes_what_was_found(self):
        self.open()
        self.type("#sought", "example")
        self.browser.wait_text("#found", CAROL)
        self.browser.keys("ESCAPE")
        self.assertTrue(self.browser.run("return document.querySelector('#found').hidden"))

    def test_the_skip_link_comes_first(self):
        self.open("Carol", CAROL)
        self.assertEqual(self.browser.run("return document.querySelector('a[href], button, input').className"), "skip")

    def test_names_and_roles(self):
        for view in "start", "ask", "overview":
            self.open("Carol", CAROL) if view == "ask" else self.open(view=view)
            if view == "start":
                self.browser.wait("return document.querySelector('.tree a') && document.querySelector('#unreached a')")
            if view == "overview":
                self.whole_overview()
            tree = self.browser.driver.execute_cdp_cmd("Accessibility.getFullAXTree", {})["nodes"]
            shown = [(node["role"]["value"], node.get("name", {}).get("value", "")) for node in tree
                     if not node.get("ignored") and "role" in node]
            nameless = [role for role, name in shown if role in INTERACTIVE and not name.strip()]
            self.assertEqual(nameless, [])
            roles = {role for role, _ in shown}
            self.assertLessEqual({"banner", "navigation", "main", "heading", "link", "button"}, roles)
        self.assertLessEqual({"table", "columnheader", "cell"}, roles)

    def test_structure(self):
        for words in (("Carol", CAROL), ()):
            self.open(*words)
            found = self.browser.run(
                "const ids = [...document.querySelectorAll('[id]')].map(one => one.id);"
                "const levels = [...document.querySelectorAll('h1, h2, h3')].filter(one => one.checkVisibility())"
                ".map(one => Number(one.tagName[1]));"
                "const lost = [...document.querySelectorAll('[aria-labelledby], [aria-controls], label[for]')].flatMap("
                "one => (one.getAttribute('aria-labelledby') ?? one.getAttribute('aria-controls') ?? one.htmlFor)"
                ".split(' ')).filter(id => !document.getElementById(id));"
                "return [ids.length - new Set(ids).size, levels, lost, document.documentElement.lang]")
            self.assertEqual((found[0], found[2], found[3]), (0, [], "en"))
            self.assertEqual(found[1][0], 1)
            self.assertTrue(all(after - before <= 1 for before, after in zip(found[1], found[1][1:])), found[1])

    def test_contrast_in_light_and_dark(self):
        for scheme in "light", "dark":
            with self.subTest(scheme):
                self.browser.media(prefers_color_scheme=scheme)
                self.open("Carol", CAROL)
                self.browser.run("document.querySelectorAll('details').forEach(one => { one.open = true })")
                self.assertEqual(self.browser.run(CONTRASTS), [])
                self.open("Frank", "Frank <frank@example.org>")
                self.assertEqual(self.browser.run(CONTRASTS), [])
                self.open(view="overview")
                self.whole_overview()
                self.assertEqual(self.browser.run(CONTRASTS), [])

    def test_the_overview_on_a_phone(self):
        """Each row is a card with the names of its columns, nothing is cut off, and names lead to their places."""
        self.browser.size(360, 740)
        self.open(view="overview")
        self.whole_overview()
        self.assertEqual(self.browser.run(
            "return [...document.querySelectorAll('#tables td, #tables .bar-name')].filter((one) =>"
            "one.getBoundingClientRect().right > innerWidth || one.scrollWidth > one.clientWidth + 1).length"), 0)
        self.assertIn("user ID", self.browser.run(
            "return getComputedStyle(document.querySelector('[aria-labelledby=table-introducers] td'), '::before')"
            ".content"))
        self.browser.click("[aria-labelledby=table-introducers] td a")
        self.browser.wait("return document.title === 'Tukyamid: Alice <alice@example.net>'")

    def test_no_width_is_too_small_or_too_large(self):
        for width in WIDTHS:
            with self.subTest(width):
                self.browser.size(width)
                self.open("Carol", CAROL)
                self.check_width(width)
                self.open(view="overview")
                self.whole_overview()
                self.check_width(width)

    def check_width(self, width):
        """That nothing is cut off at the side, and that small targets can be hit."""
        inner, whole = self.browser.run("return [innerWidth, document.documentElement.scrollWidth]")
        self.assertEqual(inner, width)
        self.assertLessEqual(whole, width)
        small = self.browser.run(
            "return [...document.querySelectorAll('button:not(.link), input, summary, nav a')].filter(one => one."
            "checkVisibility()).map(one => [one.getBoundingClientRect(), one.innerText || one.id])"
            ".filter(([box]) => box.height < 24 || box.width < 24).map(([, name]) => name)")
        self.assertEqual(small, [])

    def test_nothing_moves_where_motion_is_reduced(self):
        self.browser.media(prefers_reduced_motion="reduce")
        self.open()
        moving = self.browser.run("const wheel = document.createElement('span'); wheel.className = 'wheel';"
                                  "document.body.append(wheel); return getComputedStyle(wheel).animationName")
        self.assertEqual(moving, "none")
