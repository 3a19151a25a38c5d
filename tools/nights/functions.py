"""Which function of a crate an edit changes, by the name that `rattle check --only` takes."""

import re
from bisect import bisect
from dataclasses import dataclass
from pathlib import Path

from checks.edits import pairs_of
from checks.tree import line_of
from checks.widths import Tokens, bodies_of, brace_after, end_of, tokens_of

IMPL = re.compile(r"^impl\b(?:<[^{]*?>)?\s+(?:[\w:<>', ]+\s+for\s+)?(\w+)", re.MULTILINE)


@dataclass(frozen=True)
class Function:
    """A function: its file, its path below the crate, and its first and last line."""

    file: str
    path: str
    first: int
    last: int


def module_of(file: str) -> list[str]:
    """The module that a file of src/ is, below the crate."""
    parts = file.removeprefix("src/").removesuffix(".rt").split("/")
    return [] if parts in (["lib"], ["main"]) else parts


def impls_of(text: str, tokens: Tokens) -> list[tuple[int, int, str]]:
    """Where the block of each `impl` begins and ends, and its type."""
    starts, blocks = [start for _, start in tokens], []
    for found in IMPL.finditer(text):
        opened = brace_after(tokens, bisect(starts, found.start()))
        blocks.append((found.start(), tokens[end_of(tokens, opened)][1], found[1]))
    return blocks


def all_functions(file: str, text: str) -> list[Function]:
    """The functions of a file in order, inner ones behind those around them."""
    tokens, found = tokens_of(text), []
    impls = impls_of(text, tokens)
    for index, _, last in bodies_of(tokens):
        start, name = tokens[index][1], tokens[index + 1][0]
        owner = [kind for begin, end, kind in impls if begin <= start <= end]
        path = "::".join([*module_of(file), *owner[-1:], name])
        found.append(Function(file, path, line_of(text, start), line_of(text, tokens[last][1])))
    return found


def changed_function(edit: str, crate: Path) -> Function | None:
    """The one function that all pairs of an edit change, or None if they change other text too."""
    pairs, _ = pairs_of(edit)
    changed = set()
    for file, (old, _) in pairs:
        text = (crate / file).read_text(encoding="utf-8")
        line = line_of(text, text.find(old))
        around = [each for each in all_functions(file, text) if each.first <= line <= each.last]
        if not around:
            return None
        changed.add(around[-1])
    return changed.pop() if len(changed) == 1 else None
