"""Each file begins by saying what it is for: a crate, a page of definitions, a program, a module, a document."""

import ast
import re
from collections.abc import Iterator

from .finding import Finding
from .tree import PYTHON, SHELL, Tree

ROOTS = ("/src/lib.rt", "/src/main.rt")
# The files that say what a proof's steps are have a fixed name and place, and need no line.
STEPS = re.compile(r"/(?:Answers|Invariants|Proof|Lib)\.antt$")


def headless(tree: Tree) -> Iterator[tuple[str, str]]:
    """The files without a head, each with what is missing."""
    for path in tree.crates(*ROOTS):
        if not tree.text(path).startswith("//! "):
            yield path, "the crate doesn't say what it is for"
    for path in tree.crates(".antt"):
        if not STEPS.search(path) and not tree.text(path).startswith("--"):
            yield path, "the file doesn't say what it holds"
    for path in tree.scripts(SHELL):
        lines = [line for line in tree.text(path).splitlines() if not line.startswith("#!")]
        if not lines or not lines[0].startswith("# "):
            yield path, "the script doesn't say what it does"
    for path in tree.documents():
        if not re.match(r"(?:---\n.*?\n---\n)?# \S", tree.text(path), re.DOTALL):
            yield path, "the page has no title"


def without_docstring(tree: Tree) -> Iterator[tuple[str, int]]:
    """The Python files without a docstring, and the line where one can't be parsed."""
    for path in tree.scripts(PYTHON):
        text = tree.text(path)
        try:
            if text.strip() and not ast.get_docstring(ast.parse(text)):
                yield path, 1
        except SyntaxError as error:
            yield path, error.lineno or 1


def headers(tree: Tree) -> Iterator[Finding]:
    """Files that don't begin by saying what they are for."""
    for path, what in headless(tree):
        yield Finding(path, 1, what, "begin it with one line that says so")
    for path, line in without_docstring(tree):
        yield Finding(path, line, "the file has no docstring, or can't be parsed", "begin it with what it is for")
