"""The contracts of functions in the crates' src/, and the definitions that their clauses name."""

import re
from dataclasses import dataclass
from itertools import pairwise
from pathlib import Path

from .definitions import Place, imports_of, resolve, words_of

FUNCTION = r"^\s*(?:pub(?:\([^)]*\))? )?(?:final )?fn {name}\b"
CLAUSE = re.compile(r"^\s*(?:requires|ensures)\b")
NAMED = re.compile(r"^\s*(?:requires|ensures) (\w+) \{")


@dataclass(frozen=True)
class Call:
    """A function: its name, and the file that has it, relative to the checkout; and one of its clauses, or all."""

    name: str
    file: str
    clause: str = ""


def clauses_of(text: str, name: str) -> str:
    """The clauses of a function, as they are written; the empty text if the file has no such function."""
    found: list[str] = []
    lines = text.splitlines()
    for at, line in enumerate(lines):
        if not re.match(FUNCTION.format(name=re.escape(name)), line):
            continue
        indent = len(line) - len(line.lstrip())
        end = next(n for n in range(at + 1, len(lines)) if re.match(rf"^\s{{{indent}}}\{{\}}?$|.*;$", lines[n]))
        begin = next((n for n in range(at, end) if CLAUSE.match(lines[n])), end)
        found += lines[begin:end]
    return "\n".join(found)


def clause_of(clauses: str, name: str) -> str:
    """The clause of this name, as it is written; the empty text if there is none."""
    lines = clauses.splitlines()
    begins = [at for at, line in enumerate(lines) if CLAUSE.match(line)] + [len(lines)]
    for begin, end in pairwise(begins):
        named = NAMED.match(lines[begin])
        if named and named[1] == name:
            return "\n".join(line for line in lines[begin:end] if not line.strip().startswith("//"))
    return ""


def named_by(root: Path, call: Call) -> set[Place]:
    """The definitions that a call's contract names, or one of its clauses."""
    text = (root / call.file).read_text(encoding="utf-8")
    names, files = imports_of(text.replace(";\n", "\n"))
    clauses = clauses_of(text, call.name)
    return resolve(words_of(clause_of(clauses, call.clause) if call.clause else clauses), {}, names, files)


def files_with(root: Path, name: str) -> list[str]:
    """The files of the crates that have a public function of this name."""
    pattern = re.compile(rf"^\s*pub fn {re.escape(name)}\b", re.MULTILINE)
    paths = sorted(root.glob("crates/*/src/**/*.rt"))
    return [str(path.relative_to(root)) for path in paths if pattern.search(path.read_text(encoding="utf-8"))]
