"""What stands in specs/ is what a reader has to believe: each definition there is one that a contract rests on."""

from collections.abc import Iterator

from statements.definitions import Library
from statements.unused import unused

from .finding import Finding
from .tree import Tree


def definitions(tree: Tree) -> Iterator[Finding]:
    """Definitions in specs/ that no contract reaches."""
    for each in unused(Library(tree.root)):
        path = f"crates/{each.place.crate}/specs/{each.place.file}.antt"
        lines = tree.text(path).splitlines()
        line = lines.index(each.text.splitlines()[0]) + 1
        yield Finding(path, line, f"no contract reaches {each.place.name}", "move it to proofs/, or remove it")
