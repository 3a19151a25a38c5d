"""How large crates, files of code, lists of parameters and contracts may be.

A crate has at most 6,000 lines of code, definitions and proofs, or `docs/DECISIONS.md` says why it is one; a file of
code has at most 400. A function has at most six parameters besides an allocator (its type is `Global`), and a contract
at most fifteen clauses: a record with a name says what belongs together. Tests are left out.
"""

import re
from collections import Counter
from collections.abc import Iterator

from .finding import Finding
from .tree import Tree, line_of
from .widths import CLAUSES, Tokens, brace_after, end_of, is_test, tokens_of

CRATE, FILE, PARAMETERS, CONTRACT = 6000, 400, 6, 15
PARTS = ("src", "specs", "proofs")
OPENING, CLOSING = "([{<", ")]}>"
ALLOCATOR = re.compile(r"\w+:(\w+::)*Global")


def parameters_of(tokens: Tokens, at: int) -> int:
    """How many parameters besides an allocator stand in the parentheses that open at this index."""
    depth, count, parameter = 1, 0, ""
    for index in range(at + 1, len(tokens)):
        word, before = tokens[index][0], tokens[index - 1][0]
        is_arrow = word == ">" and before.endswith(("-", "="))
        depth += (word in OPENING) - (word in CLOSING and not is_arrow)
        if depth and (depth, word) != (1, ","):
            parameter += word
            continue
        count += parameter != "" and not ALLOCATOR.fullmatch(parameter)
        parameter = ""
        if depth == 0:
            break
    return count


def parentheses_after(tokens: Tokens, at: int) -> int:
    """The index where the parameters of the function whose name stands at this index begin, past its generics."""
    depth, at = 0, at + 1
    while at < len(tokens) - 1 and (depth or tokens[at][0] != "("):
        is_arrow = tokens[at][0] == ">" and tokens[at - 1][0].endswith("-")
        depth += 0 if is_arrow else {"<": 1, ">": -1}.get(tokens[at][0], 0)
        at += 1
    return at


def contract_of(tokens: Tokens, at: int) -> int:
    """How many clauses stand between here and the body, or the semicolon, of a function."""
    count = 0
    at = brace_after(tokens, at)
    while tokens[at][0] == "{" and any(CLAUSES.fullmatch(tokens[at - back][0]) for back in (1, 2)):
        count += 1
        at = brace_after(tokens, end_of(tokens, at) + 1)
    return count


def functions(path: str, text: str) -> Iterator[Finding]:
    """Functions with too many parameters or clauses."""
    tokens = tokens_of(text)
    for index, (word, start) in enumerate(tokens[:-1]):
        if word != "fn" or not re.match(r"\w", tokens[index + 1][0]):
            continue
        name, line = tokens[index + 1][0], line_of(text, start)
        opened = parentheses_after(tokens, index + 1)
        if (count := parameters_of(tokens, opened)) > PARAMETERS:
            what = f"{name} has {count} parameters"
            remedy = f"make a record of what belongs together ({PARAMETERS} at most besides an allocator)"
            yield Finding(path, line, what, remedy)
        if (count := contract_of(tokens, opened)) > CONTRACT:
            what = f"the contract of {name} has {count} clauses"
            yield Finding(path, line, what, f"let a record say what repeats ({CONTRACT} at most)")


def large_crates(tree: Tree) -> Iterator[Finding]:
    """Crates that are too large and that no decision names."""
    lines: Counter[str] = Counter()
    for path in tree.crates(".rt", ".antt"):
        crate, part = path.split("/")[1:3]
        if part in PARTS and not is_test(path):
            lines[crate] += tree.text(path).count("\n")
    decided = tree.text("docs/DECISIONS.md") if tree.exists("docs/DECISIONS.md") else ""
    for crate, count in lines.items():
        if count > CRATE and not re.search(rf"`{crate}`[^\n]* is one crate", decided):
            remedy = f"make two of it ({CRATE} at most), or say in docs/DECISIONS.md why it is one crate"
            yield Finding(f"crates/{crate}/src/lib.rt", 1, f"a crate of {count} lines", remedy)


def sizes(tree: Tree) -> Iterator[Finding]:
    """Crates, files of code, lists of parameters and contracts over their limits."""
    yield from large_crates(tree)
    for path in tree.crates(".rt"):
        if is_test(path):
            continue
        text = tree.text(path)
        if (count := text.count("\n")) > FILE:
            yield Finding(path, 1, f"a file of {count} lines", f"split it ({FILE} at most)")
        yield from functions(path, text)
