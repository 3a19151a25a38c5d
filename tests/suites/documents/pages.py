"""The repository's documents, taken apart: headings, links, names in backquotes, and fenced blocks."""

import os
import re
import subprocess
from dataclasses import dataclass
from functools import cached_property
from pathlib import Path

ROOT = Path(os.environ.get("WOT_ROOT") or Path(__file__).resolve().parents[3])
PROGRAM = Path(os.environ.get("WOT_PROGRAM") or ROOT / "crates/wot_cli/out/wot_cli").resolve()

FENCE = re.compile(r"^ *```(.*)$")
HEADING = re.compile(r"^#+ +(.*)$")
LINK = re.compile(r"!?\[[^\]]*\]\(([^)\s]+)\)")
SPAN = re.compile(r"(?<!`)`([^`]+)`(?!`)")


@dataclass(frozen=True)
class Block:
    """A fenced block: the line it begins at, the word behind its fence, and its lines."""

    line: int
    word: str
    lines: tuple[str, ...]


@dataclass(frozen=True)
class Span:
    """A name in backquotes: its line, its text, and the headings and paragraphs that it may be short for."""

    line: int
    text: str
    crate: str


class Page:
    """One document. Paths in it are relative to its folder, or to the top of the repository."""

    def __init__(self, path: Path):
        self.path = path
        self.name = str(path.relative_to(ROOT))
        self.lines = path.read_text(encoding="utf-8").splitlines()

    @cached_property
    def blocks(self) -> list[Block]:
        """The fenced blocks, in order."""
        found, begun, word = [], 0, ""
        for number, line in enumerate(self.lines, 1):
            fence = FENCE.match(line)
            if fence and begun:
                found.append(Block(begun, word, tuple(self.lines[begun : number - 1])))
                begun = 0
            elif fence:
                begun, word = number, fence.group(1).strip()
        return found

    @cached_property
    def prose(self) -> list[tuple[int, str]]:
        """The lines outside of fenced blocks, with their numbers. A paragraph is one line, at its first number."""
        kept: list[tuple[int, str]] = []
        fenced = joins = False
        for number, line in enumerate(self.lines, 1):
            if FENCE.match(line):
                fenced, joins = not fenced, False
            elif not fenced:
                ends = not line.strip() or line.startswith(("#", "|"))
                begins = ends or not joins or re.match(r" *([-*]|\d+\.) ", line)
                if begins:
                    kept.append((number, line))
                else:
                    kept[-1] = kept[-1][0], f"{kept[-1][1]} {line.strip()}"
                joins = not ends
        return kept

    @cached_property
    def headings(self) -> list[str]:
        found = (HEADING.match(line) for _, line in self.prose)
        return [heading.group(1) for heading in found if heading]

    @cached_property
    def anchors(self) -> set[str]:
        """What a link may have behind its #, as GitHub spells it."""
        plain = (re.sub(r"[^\w\- ]", "", heading.lower()) for heading in self.headings)
        return {heading.replace(" ", "-") for heading in plain}

    @cached_property
    def links(self) -> list[tuple[int, str]]:
        return [(number, to) for number, line in self.prose for to in LINK.findall(re.sub(SPAN, "", line))]

    @cached_property
    def spans(self) -> list[Span]:
        """The names in backquotes. A path may be short for one in the crate that its section names first."""
        found, crate = [], ""
        for number, line in self.prose:
            if line.startswith(("#", "**")):
                named = re.search(r"`crates/(\w+)`", line)
                crate = named.group(1) if named else ""
            found += [Span(number, text, crate) for text in SPAN.findall(line)]
        return found


def pages() -> list[Page]:
    """The documents that git tracks or would."""
    words = ["git", "ls-files", "--cached", "--others", "--exclude-standard", "*.md"]
    listed = subprocess.run(words, cwd=ROOT, capture_output=True, text=True, check=True).stdout.splitlines()
    return [Page(ROOT / name) for name in sorted(set(listed)) if (ROOT / name).is_file()]


def page(name: str) -> Page:
    return Page(ROOT / name)
