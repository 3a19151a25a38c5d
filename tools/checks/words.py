"""Words that no document and no comment has: what stood for a term of the field, and turns that nobody would say.

`words.txt` has a line for each: a regular expression, and what to write. Code in documents isn't read.
"""

import re
from collections.abc import Iterator
from functools import cache
from pathlib import Path

from .comments import Line, comments_of
from .finding import Finding
from .tree import Tree

TABLE = Path(__file__).resolve().parent / "words.txt"
SPAN = re.compile(r"(`+)[^`]*?\1|\]\([^)]*\)|<[^>\s]*>")


@cache
def table() -> list[tuple[re.Pattern[str], str]]:
    """The expressions, each with what to write."""
    rows = []
    for line in TABLE.read_text(encoding="utf-8").splitlines():
        if line and not line.startswith("#"):
            expression, advice = line.split(" => ")
            rows.append((re.compile(expression, re.IGNORECASE), advice))
    return rows


def prose_of(text: str) -> list[Line]:
    """The lines of a page outside of printed text, without code and targets of links."""
    prose, printed = [], False
    for number, line in enumerate(text.splitlines(), 1):
        fence = line.lstrip().startswith("```")
        printed ^= fence
        if not printed and not fence:
            prose.append((number, SPAN.sub(" ", line)))
    return prose


def without_code(lines: list[Line]) -> list[Line]:
    """These lines without their code; a stop stands between two that don't follow one another."""
    kept: list[Line] = []
    for number, line in lines:
        if kept and number > kept[-1][0] + 1:
            kept.append((number, "."))
        kept.append((number, SPAN.sub(" ", line).strip()))
    return kept


def found_in(path: str, prose: list[Line]) -> Iterator[Finding]:
    """Words of the table in these lines, also across the end of a line."""
    starts, whole = [], ""
    for number, line in prose:
        starts.append((len(whole), number))
        whole += line + " "
    for expression, advice in table():
        for found in expression.finditer(whole):
            at = max(number for start, number in starts if start <= found.start())
            yield Finding(path, at, f"the words '{found.group().strip()}'", f"write {advice}")


def words(tree: Tree) -> Iterator[Finding]:
    """Words of the table in documents, in comments outside of the crates, and in manual pages."""
    for path in tree.files:
        if path.endswith(".md"):
            yield from found_in(path, prose_of(tree.text(path)))
        else:
            yield from found_in(path, without_code(comments_of(tree, path)))
