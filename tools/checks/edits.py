"""Each wrong change that the prover must refuse still fits the file that it changes."""

from collections.abc import Iterator
from dataclasses import dataclass
from pathlib import Path

from .finding import Finding
from .tree import Tree

REMEDY = "write its `old:` text as the file now has it"
NEVER_TRIED = "edits in this file are never tried", "move them to tests/edits/CRATE.edits"
BEGINS = "edit: "
Pair = tuple[str, str]


@dataclass(frozen=True)
class Written:
    """An edit as it is written: the file, the line with which it begins, the crate that it changes, and its lines."""

    path: str
    line: int
    crate: str
    name: str
    text: str

    @property
    def place(self) -> str:
        """Where it stands, as it is reported."""
        return f"{self.path}: {self.name}"


def pairs_of(text: str) -> tuple[list[tuple[str, Pair]], str]:
    """The file, the old and the new text of each pair, and what is wrong with the form of the edit."""
    pairs: list[tuple[str, Pair]] = []
    file = old = ""
    for line in text.splitlines():
        word, _, rest = line.partition(":")
        rest = rest.removeprefix(" ")
        if word == "file":
            file = rest.strip()
        elif word == "old":
            old = rest
        elif word == "new":
            if not file or not old:
                return pairs, "a line `new:` stands before the line `file:` or `old:`"
            pairs.append((file, (old, rest)))
            old = ""
    return pairs, "" if pairs else "it changes nothing"


def applied(edit: str, crate: Path) -> tuple[dict[str, str], str]:
    """The changed files of a crate by their paths in it, and what keeps the edit from being applied."""
    pairs, wrong = pairs_of(edit)
    texts: dict[str, str] = {}
    for file, (old, new) in [] if wrong else pairs:
        if not (crate / file).is_file():
            return texts, f"there is no file {file}"
        before = texts.get(file) or (crate / file).read_text(encoding="utf-8")
        if before.count(old) != 1:
            return texts, f"its old text occurs {before.count(old)} times in {file}"
        texts[file] = before.replace(old, new)
    return texts, wrong


def crate_of(path: str) -> str:
    """The crate that the edits of a file change, or the empty text for another file."""
    match path.split("/"):
        case ["tests", "edits", name] if name.endswith(".edits"):
            return name.removesuffix(".edits")
        case ["crates", crate, "must-fail", name] if name.endswith(".edit"):
            return crate
    return ""


def parts_of(path: str, text: str) -> Iterator[Written]:
    """The edits of one file: several, each after a line `edit: NAME`, or one that fills it."""
    crate, lines = crate_of(path), text.splitlines()
    if path.endswith(".edit"):
        yield Written(path, 1, crate, Path(path).stem, text)
        return
    begins = [place for place, line in enumerate(lines) if line.startswith(BEGINS)]
    for begin, end in zip(begins, [*begins[1:], len(lines)]):
        name = lines[begin].removeprefix(BEGINS).strip()
        yield Written(path, begin + 1, crate, name, "\n".join(lines[begin + 1:end]).strip("\n") + "\n")


def written(tree: Tree) -> Iterator[Written]:
    """Every edit of tests/edits and of the crates' must-fail folders."""
    for path in tree.ending(".edit", ".edits"):
        if crate_of(path):
            yield from parts_of(path, tree.text(path))


def edits(tree: Tree) -> Iterator[Finding]:
    """Edits that can't be applied, that have the name of another, or that are never tried."""
    for path in tree.ending(".edit", ".edits"):
        found = list(parts_of(path, tree.text(path)))
        if not crate_of(path) or not found:
            yield Finding(path, 1, *NEVER_TRIED)
    names: set[tuple[str, str]] = set()
    for edit in written(tree):
        _, wrong = applied(edit.text, tree.root / "crates" / edit.crate)
        if wrong:
            yield Finding(edit.path, edit.line, wrong, REMEDY)
        if (edit.path, edit.name) in names:
            yield Finding(edit.path, edit.line, f"another edit is named {edit.name}", "give it a name of its own")
        names.add((edit.path, edit.name))
