"""Words that no name and no comment of the package and the verifier has: they stood for words of the field.

`vocabulary.txt` has the words, each with what to write, and the names that stay.
"""

import io
import re
import tokenize
from collections.abc import Iterator
from functools import cache
from pathlib import Path

from .comments import Line, comments_of
from .finding import Finding
from .tree import PYTHON, Tree
from .words import SPAN

TABLE = Path(__file__).resolve().parent / "vocabulary.txt"
PLACES = ("python/", "verifier/")
# Comments and texts of Rust and JavaScript, whose contents are no names.
NO_NAMES = re.compile(r'//[^\n]*|/\*.*?\*/|"(?:\\.|[^"\\\n])*"', re.DOTALL)
NAME = re.compile(r"[A-Za-z_]\w*")
PART = re.compile(r"[A-Z]+(?![a-z])|[A-Z]?[a-z]+")
# Each of one user "in turn" is what anybody would say.
SAID = re.compile(r"\bin turn\b", re.IGNORECASE)


@cache
def table() -> tuple[dict[str, str], dict[str, tuple[str, ...]]]:
    """What to write in place of each word; and the names that stay, each with the paths below which it does."""
    advice: dict[str, str] = {}
    stays: dict[str, tuple[str, ...]] = {}
    for line in TABLE.read_text(encoding="utf-8").splitlines():
        if line.startswith("= "):
            kept, _, places = line[2:].partition(" in ")
            stays |= dict.fromkeys(kept.split(), tuple(places.split()) or PLACES)
        elif line and not line.startswith("#"):
            listed, instead = line.split(" => ")
            advice |= dict.fromkeys(listed.split(), instead)
    return advice, stays


def word_of(name: str, path: str) -> str | None:
    """The word of the table that a name in a file has, if it may not stay."""
    advice, stays = table()
    if name in stays and path.startswith(stays[name]):
        return None
    return next((part.lower() for part in PART.findall(name) if part.lower() in advice), None)


def names_of(tree: Tree, path: str) -> Iterator[tuple[int, str]]:
    """The names in a program, each with its line."""
    text = tree.text(path)
    if tree.language(path) == PYTHON:
        for token in tokenize.generate_tokens(io.StringIO(text).readline):
            if token.type == tokenize.NAME:
                yield token.start[0], token.string
    elif path.endswith((".rs", ".js")):
        code = NO_NAMES.sub(lambda found: "\n" * found.group().count("\n"), text)
        for number, line in enumerate(code.splitlines(), 1):
            yield from ((number, name) for name in NAME.findall(line))


def said(line: Line) -> Iterator[str]:
    """The words of the table in a line of prose, without its code."""
    prose = SAID.sub(" ", SPAN.sub(" ", line[1]))
    return (word for word in re.findall(r"[A-Za-z]+", prose) if word.lower() in table()[0])


def names(tree: Tree) -> Iterator[Finding]:
    """Words of the table in names and comments of the package and the verifier."""
    for path in tree.files:
        if not path.startswith(PLACES):
            continue
        try:
            for number, name in names_of(tree, path):
                if (word := word_of(name, path)) is not None:
                    yield Finding(path, number, f"the name {name}", f"write {table()[0][word]}")
        except (SyntaxError, tokenize.TokenError):
            pass  # The rule on programs reports it.
        for line in comments_of(tree, path):
            for word in said(line):
                yield Finding(path, line[0], f"the word '{word}'", f"write {table()[0][word.lower()]}")
