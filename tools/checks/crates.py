"""`crates.txt` names every crate, lowest layers first, with exactly the libraries that the crate's files name."""

import re
from collections.abc import Iterator

from builds.listed import LIST, listed_in

from .finding import Finding
from .tree import Tree

COMMENT = re.compile(r"(?://|--)[^\n]*")
USE = re.compile(r"\b([a-z_][a-z0-9_]*)::")
CITED = re.compile(r"\bRattle\.([a-z_][a-z0-9_]*)\.")
MODULE = re.compile(r"\bmod ([a-z_][a-z0-9_]*)")
ALWAYS = {"std", "core", "crate", "self", "super"}


def named_by(tree: Tree, crate: str) -> dict[str, tuple[str, int]]:
    """The names before `::` and after `Rattle.` in a crate's files, each with the first place, less its own modules."""
    named: dict[str, tuple[str, int]] = {}
    modules: set[str] = set()
    for path in tree.crates(".rt", ".antt"):
        if path.split("/")[1] == crate:
            text = tree.text(path)
            modules |= set(MODULE.findall(text))
            for number, line in enumerate(text.splitlines(), 1):
                code = COMMENT.sub("", line)
                for name in {*(USE.findall(code) if path.endswith(".rt") else ()), *CITED.findall(code)}:
                    named.setdefault(name, (path, number))
    return {name: place for name, place in named.items() if name not in modules | ALWAYS | {crate}}


def crates(tree: Tree) -> Iterator[Finding]:
    """Crates without a line, lines without a crate, and libraries that are missing, unused or listed too late."""
    listed = listed_in(tree.text(LIST))
    folders = {path.split("/")[1] for path in tree.crates("/src/lib.rt", "/src/main.rt")}
    libraries = {library for _, each in listed.values() for library in each}
    for crate in sorted(folders - set(listed)):
        yield Finding(LIST, 1, f"the crate {crate} has no line", "add its line below those of its libraries")
    for crate, (number, deps) in listed.items():
        if crate not in folders:
            yield Finding(LIST, number, f"there is no crate {crate}", "remove the line")
            continue
        named = named_by(tree, crate)
        for library in deps:
            if library in listed and listed[library][0] >= number:
                yield Finding(LIST, number, f"{library} comes after {crate}, which uses it", "move its line up")
            if library not in named:
                yield Finding(LIST, number, f"{crate} never names {library}", "remove it from the line")
        for library, (path, line) in sorted(named.items()):
            if library not in deps and library in libraries | folders:
                yield Finding(path, line, f"{library} is missing from the line of {crate} in {LIST}", "add it there")
