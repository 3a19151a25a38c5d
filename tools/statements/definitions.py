"""The definitions in the crates' specs/, and which of them each one uses.

A definition is a head (`abbrev`, `record`, `data`, or a name with its type), the equations after it, and the comment
above it. A word that it uses is a definition of its own file, or one that its file imports from another.
"""

import re
from dataclasses import dataclass, field
from pathlib import Path

HEAD = re.compile(r"^(?:abbrev|unfoldable|record|data|syntax|pub|infixl|infixr|infix)\b")
NAME = re.compile(r"^(?:(?:abbrev|unfoldable|pub|record|data)\s+)+(?!use\b|mod\b)(\S+)")
IMPORT = re.compile(r"^\s*(?:ghost )?use Rattle\.(wot_\w+)\.specs\.([\w.]+?)\.\{([^}]*)\}", re.MULTILINE)
WHOLE = re.compile(r"^\s*(?:ghost )?use Rattle\.(wot_\w+)\.specs\.([\w.]+)(?: as (\w+))?;?$", re.MULTILINE)
WORD = re.compile(r"(?<![\w.])[A-Za-z_][\w\-']*(?:\.[A-Za-z_][\w\-']*)*")
DO = re.compile(r"= do$", re.MULTILINE)
OPERATOR = re.compile(r"(?<=\s)[^\w\s()\[\]{}.,;:λ→]+(?=\s)")


@dataclass(frozen=True)
class Place:
    """A definition's crate, file and name: `wot_edge`, `Path`, `IsPath`."""

    crate: str
    file: str
    name: str


@dataclass
class Definition:
    """A definition as it is written, with its comment. `size` counts the lines that are neither comment nor empty."""

    place: Place
    comment: str
    text: str
    uses: set[Place] = field(default_factory=set)

    @property
    def size(self) -> int:
        return sum(1 for line in self.text.splitlines() if line.strip() and not line.strip().startswith("--"))


def parts_of(braced: str) -> list[tuple[str, str]]:
    """What an import's braces name: each name, and what the file calls it."""
    pairs = []
    for word in filter(None, (word.strip() for word in braced.split(","))):
        name, _, called = word.partition(" as ")
        pairs.append((name.strip(), called.strip() or name.strip()))
    return pairs


def imports_of(text: str) -> tuple[dict[str, Place], dict[str, tuple[str, str]]]:
    """What a file imports: definitions by what it calls them, and whole files by theirs."""
    names = {
        called: Place(crate, file, name)
        for crate, file, braced in IMPORT.findall(text)
        for name, called in parts_of(braced)
    }
    files = {called or file.rsplit(".", 1)[-1]: (crate, file) for crate, file, called in WHOLE.findall(text)}
    return names, files


def without_comments(text: str) -> str:
    return "\n".join(line.partition("--")[0] if not line.startswith("--") else "" for line in text.splitlines())


def words_of(text: str) -> set[str]:
    """The words of a definition or a clause, those before each dot, and the operators with their places.

    A `do` stands for the operators between its lines, which it doesn't show.
    """
    plain = without_comments(text)
    found = {f"◌{operator}◌" for operator in OPERATOR.findall(plain)}
    if DO.search(plain):
        found |= {"◌>>=◌", "◌>>◌"}
    for word in WORD.findall(plain):
        found |= {word, word.split(".")[0]}
    return found


Files = dict[str, tuple[str, str]]


def resolve(words: set[str], own: dict[str, Place], names: dict[str, Place], files: Files) -> set[Place]:
    """The definitions that these words name."""
    found = {own.get(word) or names.get(word) for word in words}
    for word in words:
        head, _, rest = word.partition(".")
        if rest and head in files:
            found.add(Place(*files[head], rest.split(".")[0]))
    return {place for place in found if place}


def items_of(text: str) -> list[tuple[str, str, str]]:
    """The definitions of a file in order: name, comment and text."""
    items: list[tuple[str, str, str]] = []
    comment: list[str] = []
    body: list[str] = []
    name = ""

    def close() -> None:
        if name:
            items.append((name, "\n".join(kept), "\n".join(body).strip("\n")))

    kept: list[str] = []
    for line in text.splitlines():
        if line.startswith("--"):
            comment.append(line)
        elif not line.strip():
            if comment and not name:
                comment = []
            body.append(line)
        elif HEAD.match(line) and (found := NAME.match(line)):
            close()
            name, kept, body, comment = found[1], comment, [line], []
        elif line.startswith(("use ", "pub use ", "pub mod ", "mod ")):
            comment = []
        else:
            body += [*comment, line]
            comment = []
    close()
    return items


class Library:
    """All definitions of a checkout's crates."""

    def __init__(self, root: Path) -> None:
        self.root = root
        self.found: dict[Place, Definition] = {}
        for path in sorted(root.glob("crates/*/specs/*.antt")):
            if path.stem != "Lib":
                self._read(path)

    def _read(self, path: Path) -> None:
        text = path.read_text(encoding="utf-8")
        crate = path.parts[-3]
        names, files = imports_of(text)
        items = items_of(text)
        own = {name: Place(crate, path.stem, name) for name, _, _ in items}
        for name, comment, body in items:
            definition = Definition(own[name], comment, body)
            definition.uses = resolve(words_of(body), own, names, files) - {own[name]}
            self.found[own[name]] = definition

    def below(self, places: set[Place]) -> list[Definition]:
        """These definitions and all that they use, each after what it uses."""
        order: list[Definition] = []
        seen: set[Place] = set()
        stack: list[tuple[Place, bool]] = [(place, False) for place in sorted(places, key=str, reverse=True)]
        while stack:
            place, is_done = stack.pop()
            definition = self.found.get(place)
            if definition is None or (place in seen and not is_done):
                continue
            if is_done:
                order.append(definition)
                continue
            seen.add(place)
            stack.append((place, True))
            stack += [(used, False) for used in sorted(definition.uses, key=str, reverse=True) if used not in seen]
        return order
