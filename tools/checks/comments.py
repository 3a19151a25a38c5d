"""The prose in programs and manual pages: comments, docstrings, and what a page says between its requests."""

import ast
import io
import re
import tokenize
from collections.abc import Iterator

from .tree import PYTHON, SHELL, Tree

# How a comment begins, by the ending of the file.
MARKS = {".rs": "//", ".js": "//", ".css": "/*", ".toml": "#", ".service": "#", ".socket": "#"}
# Crates have rules of their own.
LEFT_OUT = ("crates/", "tests/edits/")
Line = tuple[int, str]


def python_comments(text: str) -> Iterator[Line]:
    """Comments and docstrings of a Python program."""
    for token in tokenize.generate_tokens(io.StringIO(text).readline):
        if token.type == tokenize.COMMENT:
            yield token.start[0], token.string.lstrip("#!: ")
    for node in ast.walk(ast.parse(text)):
        if isinstance(node, ast.Module | ast.ClassDef | ast.FunctionDef | ast.AsyncFunctionDef):
            said = ast.get_docstring(node, clean=False)
            begins = node.body[0].lineno if said else 0
            yield from enumerate((said or "").splitlines(), begins)


def marked_comments(text: str, mark: str) -> Iterator[Line]:
    """What stands behind this mark, at the beginning of a line or after a space."""
    begins = re.compile(rf"(?:^|\s){re.escape(mark)}[/!*]*(?:\s|$)")
    for number, line in enumerate(text.splitlines(), 1):
        found = begins.search(line)
        if found:
            yield number, line[found.end() :]


def manual_lines(text: str) -> Iterator[Line]:
    """The text of a manual page, without requests and without what is printed bold or in italics."""
    for number, line in enumerate(text.splitlines(), 1):
        if not line.startswith((".", "'")):
            yield number, re.sub(r"\\f[BI].*?\\f[RP]", " ", line).replace("\\-", "-")


def comments_of(tree: Tree, path: str) -> list[Line]:
    """The prose of a file with its lines; an empty list if the file has none that is read."""
    ending = "." + path.rpartition(".")[2]
    if path.startswith(LEFT_OUT) or ending == ".md":
        return []
    if ending == ".1":
        return list(manual_lines(tree.text(path)))
    if ending in MARKS:
        return list(marked_comments(tree.text(path), MARKS[ending]))
    language = tree.language(path)
    if language == SHELL:
        return list(marked_comments(tree.text(path), "#"))
    try:
        return sorted(python_comments(tree.text(path))) if language == PYTHON else []
    except (SyntaxError, tokenize.TokenError):  # The rule on programs reports it.
        return []
