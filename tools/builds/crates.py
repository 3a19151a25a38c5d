"""The crates that the program stands on, which of them have to be proved, and how much work that is."""

from graphlib import TopologicalSorter
from pathlib import Path

from .listed import LIST, listed_in

PROGRAM = "wot_cli"
SUFFIXES = {".rt", ".antt"}

Graph = dict[str, list[str]]


def crates(root: Path) -> Graph:
    """The crates of the repository that the program stands on, each with those that it uses."""
    listed = listed_in((root / LIST).read_text(encoding="utf-8"))
    uses = {name: [used for used in libraries if used in listed] for name, (_, libraries) in listed.items()}
    found: Graph = {}
    left = [PROGRAM]
    while left:
        name = left.pop()
        if name not in found:
            found[name] = uses[name]
            left += uses[name]
    return found


def unproved(root: Path, graph: Graph) -> Graph:
    """The crates that have to be proved, each with those of them that it uses."""
    found: Graph = {}
    for name in TopologicalSorter(graph).static_order():
        below = [used for used in graph[name] if used in found]
        if below or is_changed(root / "crates" / name):
            found[name] = below
    return found


def all_below(graph: Graph, name: str) -> list[str]:
    """The crates that this one stands on, at any depth, lowest first."""
    found = {name}
    left = [name]
    while left:
        new = set(graph[left.pop()]) - found
        found |= new
        left += new
    return [each for each in TopologicalSorter(graph).static_order() if each in found and each != name]


def sources(crate: Path) -> list[Path]:
    """The files of a crate that are proved."""
    files = (file for part in ("src", "specs", "proofs") for file in (crate / part).rglob("*"))
    return [file for file in files if file.suffix in SUFFIXES]


def is_changed(crate: Path) -> bool:
    """Whether a crate was never proved, or has a file that is newer than its proof."""
    stamp = crate / "out/rlib/stamp"
    return not stamp.exists() or any(file.stat().st_mtime > stamp.stat().st_mtime for file in sources(crate))


def sizes(root: Path, graph: Graph) -> dict[str, int]:
    """The lines of each crate."""
    return {name: 1 + sum(len(file.read_bytes().splitlines()) for file in sources(root / "crates" / name))
            for name in graph}


def work_above(root: Path, graph: Graph) -> dict[str, int]:
    """The lines of each crate with those of the longest chain of crates above it."""
    work = sizes(root, graph)
    above = dict.fromkeys(graph, 0)
    for name in reversed([*TopologicalSorter(graph).static_order()]):
        work[name] += above[name]
        for used in graph[name]:
            above[used] = max(above[used], work[name])
    return work
