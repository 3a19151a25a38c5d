"""Widths of lines and clauses, and lengths of functions and modules.

Lines have at most 120 columns, but for proofs, and in documents for printed text and the tables that benches write. A
clause of a contract has at most 140, with its lines joined and its spaces folded. A function of Rattle has at most 60
lines without its contract, one of Python 40; a module of Python has at most 250.
"""

import ast
import re
from collections.abc import Iterator

from .finding import Finding
from .tree import PYTHON, Tree, line_of

LINE, CLAUSE, FUNCTION, PYTHON_FUNCTION, MODULE = 120, 140, 60, 40, 250
TEXT = (".antt", ".md", ".py", ".rt", ".sh", ".c", ".js", ".css", ".html", ".rs")
TOKEN = re.compile(r'//[^\n]*|b?"(?:\\.|[^"\\])*"|(?<![\w\'])b?\'(?:\\.|[^\\\'\n])\'|[{};]|[\w\'-]+\*?|\S', re.S)
CLAUSES = re.compile(r"(requires|ensures|invariant|decreases|owns)\*?")
Tokens = list[tuple[str, int]]


def tokens_of(text: str) -> Tokens:
    """The tokens outside of comments, each with where it begins."""
    return [(found.group(), found.start()) for found in TOKEN.finditer(text) if not found.group().startswith("//")]


def end_of(tokens: Tokens, at: int) -> int:
    """The index of the brace that closes the one at this index."""
    depth = 0
    for index in range(at, len(tokens)):
        depth += {"{": 1, "}": -1}.get(tokens[index][0], 0)
        if depth == 0:
            return index
    return len(tokens) - 1


def brace_after(tokens: Tokens, at: int) -> int:
    """The index of the next brace that opens, or of a semicolon before it."""
    while at < len(tokens) - 1 and tokens[at][0] not in "{;":
        at += 1
    return at


def clauses_of(text: str, tokens: Tokens) -> Iterator[tuple[int, str]]:
    """Each clause: its line, and its text as one line."""
    for index, (word, start) in enumerate(tokens):
        if CLAUSES.fullmatch(word):
            opened = brace_after(tokens, index)
            if tokens[opened][0] == "{" and opened - index <= 2:
                stop = tokens[end_of(tokens, opened)][1] + 1
                yield line_of(text, start), re.sub(r"\s+", " ", re.sub(r"//[^\n]*", "", text[start:stop]))


def bodies_of(tokens: Tokens) -> Iterator[tuple[int, int, int]]:
    """Each function of Rattle that has a body: the indices of `fn` and of the body's two braces."""
    for index, (word, _) in enumerate(tokens[:-1]):
        if word != "fn" or not re.match(r"\w", tokens[index + 1][0]):
            continue
        at = brace_after(tokens, index)
        while tokens[at][0] == "{" and any(CLAUSES.fullmatch(tokens[at - back][0]) for back in (1, 2)):
            at = brace_after(tokens, end_of(tokens, at) + 1)
        if tokens[at][0] == "{":
            yield index, at, end_of(tokens, at)


def functions_of(text: str, tokens: Tokens) -> Iterator[tuple[int, str, int]]:
    """Each function of Rattle: its line, its name, and how many lines its body has."""
    for index, first, last in bodies_of(tokens):
        body = text[tokens[first][1] : tokens[last][1]]
        yield line_of(text, tokens[index][1]), tokens[index + 1][0], body.count("\n") + 1


def long_lines(path: str, text: str) -> Iterator[Finding]:
    printed = written = False
    for number, line in enumerate(text.splitlines(), 1):
        printed ^= path.endswith(".md") and line.lstrip().startswith("```")
        written = line.startswith("<!-- bench ") or written and line != "<!-- end -->"
        if len(line) > LINE and not printed and not written:
            yield Finding(path, number, f"a line of {len(line)} columns", f"break it at {LINE}", "lines")


def of_rattle(path: str, text: str) -> Iterator[Finding]:
    tokens = tokens_of(text)
    for number, clause in clauses_of(text, tokens):
        if len(clause) > CLAUSE:
            yield Finding(path, number, f"a clause of {len(clause)} columns", "name a part of it", "clauses")
    for number, name, lines in functions_of(text, tokens):
        if lines > FUNCTION:
            yield Finding(path, number, f"{name} has {lines} lines", f"split it ({FUNCTION} at most)", "functions")


def of_python(path: str, text: str) -> Iterator[Finding]:
    lines = text.count("\n")
    if lines > MODULE:
        yield Finding(path, 1, f"a module of {lines} lines", f"split it ({MODULE} at most)", "modules")
    try:
        whole = ast.parse(text)
    except SyntaxError:
        return  # The rule on headers reports it.
    for node in ast.walk(whole):
        if isinstance(node, (ast.FunctionDef, ast.AsyncFunctionDef)):
            size = (node.end_lineno or node.lineno) - node.lineno + 1
            if size > PYTHON_FUNCTION:
                what = f"{node.name} has {size} lines"
                yield Finding(path, node.lineno, what, f"split it ({PYTHON_FUNCTION} at most)", "functions")


def is_test(path: str) -> bool:
    """Whether a file of Rattle is a test, whose tables may be wide."""
    return path.startswith("crates/wot_test_") or path.endswith("/tests.rt")


def widths(tree: Tree) -> Iterator[Finding]:
    """Lines, clauses, functions and modules over their limits."""
    scripts = set(tree.scripts(PYTHON))
    programs = {path for path in tree.files if "." not in path.rsplit("/", 1)[-1] and not path.startswith("crates/")}
    for path in tree.files:
        if is_test(path) or "/proofs/" in path or not (path.endswith(TEXT) or path in scripts | programs):
            continue
        text = tree.text(path)
        yield from long_lines(path, text)
        if path.endswith(".rt"):
            yield from of_rattle(path, text)
        if path in scripts:
            yield from of_python(path, text)
