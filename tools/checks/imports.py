"""Imports of Rattle files that nothing in the file uses, by the names alone.

A name counts as used if it stands anywhere outside the `use` items and the comments; an operator, if each of its parts
does. Traits are left out, since a method call uses one without naming it.
"""

import re
from collections.abc import Iterator
from dataclasses import dataclass

from .finding import Finding
from .tree import Tree, line_of

USE = re.compile(
    r"^[ \t]*(?P<public>pub(?:\([^)]*\))? )?(?P<ghost>ghost )?use (?P<path>[^;{\n]*)(?:\{(?P<names>[^}]*)\})?"
    r"(?: as (?P<alias>[^;\s]+))?;?$",
    re.MULTILINE,
)
MODULE = re.compile(r"[A-Z]\w*\.|denote\b")
WORD = re.compile(r"[\w'-]+")
PLAIN = re.compile(r"[\w']+")
TRAIT = re.compile(r"\btrait (\w+)")
COMMENT = {".rt": re.compile(r"//[^\n]*"), ".antt": re.compile(r"--[^\n]*")}
# Traits of std and of the kit's crates, and the operators that a `do` block stands for.
USED_UNSEEN = {"Digest", "Model", "RngCore", "SeedableRng", "Read", "Write", "BufRead", "FromStr", "NextWord", "◌>>=◌",
               "◌>>◌"}
REMEDY = "remove it, or write it into the list of what is owed if a tactic needs it"


@dataclass(frozen=True)
class Item:
    """A `use` item: where it stands, and the names that it brings."""

    start: int
    end: int
    names: list[str]


def names_of(found: re.Match[str]) -> list[str]:
    """The names that an item brings; `self` stands for the module."""
    path = found["path"].strip().rstrip(".:")
    last = re.split(r"::|\.", path)[-1].split(" as ")[-1].strip()
    if found["names"] is None:
        return [found["alias"] or last]
    each = [name.strip().split(" as ")[-1].strip() for name in found["names"].split(",") if name.strip()]
    return [last if name == "self" else name for name in each]


def items_of(text: str, is_proof: bool) -> list[Item]:
    """The private `use` items of a file; in an `.antt` file a line that begins with a lemma `use_..` is none."""
    items = []
    for found in USE.finditer(text):
        if not found["public"] and (not is_proof or MODULE.match(found["path"].strip())):
            items.append(Item(found.start(), found.end(), names_of(found)))
    return items


def is_used(name: str, rest: str, words: set[str]) -> bool:
    if PLAIN.fullmatch(name):
        return name in words
    return all(part in rest for part in name.split("◌") if part)


def unused_in(text: str, ending: str) -> Iterator[tuple[int, str]]:
    """The line and the name of each import that nothing uses."""
    items = items_of(text, ending == ".antt")
    rest = text
    for item in reversed(items):
        rest = rest[: item.start] + rest[item.end :]
    rest = COMMENT[ending].sub("", rest)
    words = set(PLAIN.findall(rest)) | set(WORD.findall(rest))
    for item in items:
        for name in item.names:
            if not is_used(name, rest, words):
                yield line_of(text, item.start), name


def imports(tree: Tree) -> Iterator[Finding]:
    """Imports that nothing uses."""
    traits = {name for path in tree.crates(".rt") for name in TRAIT.findall(tree.text(path))}
    for path in tree.crates(".rt", ".antt"):
        for line, name in unused_in(tree.text(path), "." + path.rsplit(".", 1)[1]):
            if name not in traits and name not in USED_UNSEEN:
                yield Finding(path, line, f"nothing in this file uses the import {name}", REMEDY)
