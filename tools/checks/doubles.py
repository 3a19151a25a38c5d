"""Text that stands twice in the crates: equal lines in a row, in their sources and definitions.

Blank lines, comments, imports and lines that hold no letter aren't counted, and spaces at a line's ends make no
difference.
"""

import re
from collections import defaultdict
from collections.abc import Iterator

from .finding import Finding
from .tree import Tree

MOST = 6
SKIPPED = re.compile(r"(?:pub )?(?:ghost )?use |//|--|#!?\[|mod |pub mod ")
Lines = list[tuple[int, str]]


def counted_lines(text: str) -> Lines:
    """The lines that count, each with its number."""
    lines = [(number, line.strip()) for number, line in enumerate(text.splitlines(), 1)]
    return [(number, line) for number, line in lines if re.search(r"\w", line) and not SKIPPED.match(line)]


def is_read(path: str) -> bool:
    crate, part = path.split("/")[1:3]
    return part in ("src", "specs") and not crate.startswith("wot_test_") and not path.endswith("/tests.rt")


def same_length(one: Lines, at: int, other: Lines, there: int) -> int:
    """How many lines are the same from these places on."""
    length = 0
    while at + length < len(one) and there + length < len(other) and one[at + length][1] == other[there + length][1]:
        if one is other and at + length >= there:
            break
        length += 1
    return length


def doubles(tree: Tree) -> Iterator[Finding]:
    """Runs of more than six equal lines; the later place names the earlier one."""
    seen: dict[tuple[str, ...], list[tuple[str, int]]] = defaultdict(list)
    files = {path: counted_lines(tree.text(path)) for path in tree.crates(".rt", ".antt") if is_read(path)}
    for path, lines in files.items():
        at = 0
        while at + MOST < len(lines):
            window = tuple(line for _, line in lines[at : at + MOST + 1])
            found = [(same_length(files[other], there, lines, at), other, there) for other, there in seen[window]]
            seen[window].append((path, at))
            length, other, there = max(found, default=(0, "", 0))
            if length > MOST:
                first = files[other][there][0]
                what = f"{length} lines that also stand at {other}:{first}"
                yield Finding(path, lines[at][0], what, "write them once and cite them")
                at += length
            else:
                at += 1
