"""What a document mentions exists: links, paths, sections, names of code; and each page has its size."""

import re
import subprocess
import unittest
from collections import Counter
from functools import cache
from pathlib import Path

from pages import ROOT, Page, Span, page, pages

# The most lines of a page.
SIZES = {
    "README.md": 110,
    "docs/ARCHITECTURE.md": 300,
    "docs/CHANGING.md": 200,
    "docs/SEARCH.md": 180,
}
# Pages that speak about the engine's code, so that each name in them is one of the code's.
ABOUT_CODE = ["docs/ARCHITECTURE.md", "docs/CHANGING.md", "docs/DECISIONS.md", "docs/PROOF.md", "docs/SEARCH.md"]

PATH = re.compile(r"[\w.][\w./-]*")
ENDINGS = (".md", ".rt", ".antt", ".py", ".wot", ".edit", ".expected", ".toml", ".txt", ".rs", ".svg", ".png")
# What stands for any name: FILE, `ab/cdef..`, `docs/*.md`.
ANY = re.compile(r"\.\.|\b[A-Z]{3,}\b(?!\.md)")
# Files that programs make, and paths of other programs.
MADE = re.compile(r"(^|/)out(/|$)|^pgp\.cert\.d|^out/|\.(wot|expected|dir|left)$")


def is_path(text: str) -> bool:
    named = bool(PATH.fullmatch(text)) and text not in ENDINGS and not ANY.search(text)
    return named and ("/" in text or text.endswith(ENDINGS))


def places_of(document: Page, span: Span) -> list[Path]:
    """The paths that a span may mean."""
    bases = [document.path.parent, ROOT, ROOT / "crates", ROOT / "docs", ROOT / "python/tukyamid"]
    if span.crate:
        bases.insert(0, ROOT / "crates" / span.crate)
    return [base / span.text for base in bases]


def is_part_of_a_crate(text: str) -> bool:
    """Whether it is a folder or file that crates have, as `specs/` or `src/lib.rt`."""
    return text.startswith(("src/", "specs/", "proofs/", "must-fail/")) and any(ROOT.glob(f"crates/*/{text}"))


@cache
def texts() -> dict[str, str]:
    """The files of code and documents that git tracks or would, by path."""
    words = ["git", "ls-files", "--cached", "--others", "--exclude-standard"]
    listed = subprocess.run(words, cwd=ROOT, capture_output=True, text=True, check=True).stdout.splitlines()
    suffixes = {".rt", ".antt", ".py", ".rs", ".txt", ".md", ""}
    found = (ROOT / name for name in listed if Path(name).suffix in suffixes)
    return {
        str(path.relative_to(ROOT)): path.read_text(encoding="utf-8", errors="replace")
        for path in found
        if path.is_file()
    }


@cache
def words_of_code() -> frozenset[str]:
    """Each word of the repository's code, and of the names of its files."""
    found: set[str] = set()
    for name, text in texts().items():
        if not name.endswith(".md"):
            found.update(re.findall(r"[\w-]+", name))
            found.update(re.findall(r"[\w-]+", text))
    return frozenset(found)


class Names(unittest.TestCase):
    """Each test goes over all pages, and lists what is missing with its page and line."""

    def missing(self, found: list[str]) -> None:
        self.assertEqual(found, [], "\n" + "\n".join(found))

    def test_links_lead_somewhere(self) -> None:
        broken = []
        for document in pages():
            for number, link in document.links:
                if re.match(r"[a-z]+:", link):
                    continue
                name, _, anchor = link.partition("#")
                target = (document.path.parent / name).resolve() if name else document.path
                if not target.exists() or anchor and anchor not in Page(target).anchors:
                    broken.append(f"{document.name}:{number}: {link}")
        self.missing(broken)

    def test_sections_that_are_named_are_there(self) -> None:
        """Where code or a document names a page and a section of it in quotes, the page has that heading."""
        named = re.compile(r"(docs/[A-Z-]+\.md)`?\)?, \"([^\"]+)\"")
        absent = [
            f"{name}: {where}, {section!r}"
            for name, text in texts().items()
            for where, section in named.findall(" ".join(text.split()))
            if not (ROOT / where).exists() or section.replace("# ", "") not in page(where).headings
        ]
        self.missing(absent)

    def test_paths_exist(self) -> None:
        absent = [
            f"{document.name}:{span.line}: {span.text}"
            for document in pages()
            for span in document.spans
            if is_path(span.text) and not MADE.search(span.text)
            if not any(place.exists() for place in places_of(document, span)) and not is_part_of_a_crate(span.text)
        ]
        self.missing(absent)

    def test_names_are_in_the_code(self) -> None:
        absent = []
        for name in ABOUT_CODE:
            for span in page(name).spans:
                if re.fullmatch(r"[A-Za-z_][\w-]*(::[A-Za-z_][\w-]*)*", span.text):
                    parts = span.text.split("::")
                    absent += [f"{name}:{span.line}: {span.text}" for part in parts if part not in words_of_code()]
        self.missing(absent)

    def test_crates_are_listed(self) -> None:
        """The page on the crates has each, and no page names one that isn't there."""
        listed = {line.split(":")[0] for line in (ROOT / "crates.txt").read_text().splitlines() if line[:1].isalpha()}
        named = {span.text for span in page("docs/ARCHITECTURE.md").spans}
        self.assertEqual(listed - named, set())
        everywhere = {span.text for document in pages() for span in document.spans}
        self.assertEqual({name for name in everywhere if re.fullmatch(r"wot_[a-z_]+[a-z]", name)} - listed, set())

    def test_sizes(self) -> None:
        over = [f"{name}: {len(page(name).lines)} lines" for name, most in SIZES.items()
                if len(page(name).lines) >= most]
        self.missing(over)

    def test_each_decision_has_a_number_of_its_own(self) -> None:
        """Numbers last, so they may have gaps and needn't be in order."""
        found = (re.match(r"(\d+)\. \*\*", line) for line in page("docs/DECISIONS.md").lines)
        numbers = Counter(int(each.group(1)) for each in found if each)
        self.assertIn(1, numbers)
        self.assertEqual([number for number, count in numbers.items() if count > 1], [])

    def test_suites_are_listed(self) -> None:
        """The page on tests has a row for each suite."""
        suites = {path.parent.name for path in (ROOT / "tests/suites").glob("*/run")}
        lines = page("tests/README.md").lines
        rows = lines[lines.index("## Suites") : lines.index("## Adding a row")]
        self.assertEqual(suites - {line.split("`")[1] for line in rows if line.startswith("| `")}, set())

    def test_what_shows_that_a_threat_is_stopped_is_there(self) -> None:
        """The last column of SECURITY.md's tables of threats names suites, benches and parts of the night."""
        lines = page("SECURITY.md").lines
        rows = [line for line in lines[lines.index("## Who may attack, and what stops them"):] if line.startswith("| ")]
        cells = [row.split("|")[3].strip() for row in rows if not row.startswith("| what they try")]
        steps = re.search(r"STEPS.*? = \[(.*?)\n\]", (ROOT / "tools/nights/order.py").read_text(), re.DOTALL)
        parts = set(re.findall(r"\w+", steps[1])) if steps else set()
        absent = []
        for cell in filter(None, cells):
            for name in re.sub(r" *\(.*?\)", "", cell).split(", "):
                suite, night = re.fullmatch(r"`([\w/]+)`", name), re.fullmatch(r"(?:night: )?(\w+)", name)
                is_there = bool(suite) and any((ROOT / place / suite[1]).exists() for place in ("tests/suites", "."))
                if not is_there and not (night and night[1] in {*parts, "gate"}):
                    absent.append(f"SECURITY.md: {name}")
        self.assertGreater(len(cells), 20)
        self.missing(absent)
