"""Each planted body that a test must refuse still fits the code, and names a test that exists."""

import re
from collections.abc import Iterator
from dataclasses import dataclass

from .edits import applied
from .finding import Finding
from .tree import Tree

ENDING = ".body"


@dataclass(frozen=True)
class Planted:
    """A wrong body that the prover accepts: its file, its crate, the suite and the test that have to fail."""

    path: str
    crate: str
    suite: str
    test: str


def read(path: str, text: str) -> Planted | None:
    """What a file `tests/planted/NAME.body` plants, or None if it doesn't say where or which test refuses it."""
    crate = re.search(r"^crate: (\w+)$", text, re.MULTILINE)
    test = re.search(r"^test: (\w+) (\S+)$", text, re.MULTILINE)
    return Planted(path, crate[1], test[1], test[2]) if crate and test else None


def planted(tree: Tree) -> Iterator[Finding]:
    """Planted bodies that can't be tried."""
    for path in tree.ending(ENDING):
        body = read(path, tree.text(path))
        if body is None:
            yield Finding(path, 1, "it lacks a line `crate: NAME` or `test: SUITE TEST`", "add it")
            continue
        _, wrong = applied(tree.text(path), tree.root / "crates" / body.crate)
        if wrong:
            yield Finding(path, 1, wrong, "write its `old:` text as the file now has it")
        if not (tree.root / "tests/suites" / body.suite / "run").is_file():
            yield Finding(path, 1, f"there is no suite {body.suite}", "name the test that refuses this body")
