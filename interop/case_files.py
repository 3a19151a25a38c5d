"""The cases of the suite, read from `cases/GROUP/NAME.json`. README.md says what each key means."""

from __future__ import annotations

import base64
import fnmatch
import json
from dataclasses import dataclass
from pathlib import Path
from typing import Any

HERE = Path(__file__).resolve().parent
CASES = HERE / "cases"
# Adapters never see the keys that hold the expected answer.
ASKED = ("name", "group", "title", "certificates", "roots", "time", "question")
CLASSES = {
    "standard": "decided by the OpenPGP standard, RFC 9580",
    "specification": "decided by Sequoia's specification of the web of trust",
    "choice": "open: engines and readings of the rules differ",
}


@dataclass(frozen=True)
class Path_:
    """A path as a case or an engine reports it: its amount, and its certificates from the root to the target."""

    amount: int
    certificates: tuple[str, ...]


@dataclass(frozen=True)
class Choice:
    """An answer other than the expected one that a reading of the rules allows: whose it is, and why."""

    answer: int
    who: str
    why: str


@dataclass(frozen=True)
class Case:
    """One case. `asked` is what an adapter is given: the JSON object without the expected answer."""

    name: str
    group: str
    title: str
    certificates: tuple[bytes, ...]
    wanted: int
    expected: int
    paths: tuple[Path_, ...] | None
    source: str
    sentence: str
    decided_by: str
    choices: tuple[Choice, ...]
    asked: dict[str, Any]

    @property
    def place(self) -> str:
        return f"{self.group}/{self.name}"


class Unreadable(Exception):
    """A file isn't a case, with the reason."""


def paths_of(value: Any) -> tuple[Path_, ...] | None:
    """The paths of an answer, in an order of their own; None if it has none. A root that certifies itself is one step:
    engines differ in whether they write it twice."""
    if value is None:
        return None
    paths = []
    for one in value:
        names = [str(name).upper() for name in one["certificates"]]
        steps = [name for at, name in enumerate(names) if at == 0 or name != names[at - 1]]
        paths.append(Path_(int(one["amount"]), tuple(steps)))
    return tuple(sorted(paths, key=lambda path: (path.certificates, path.amount)))


def read(file: Path) -> Case:
    """The case of a file. Unreadable if it isn't one."""
    try:
        value = json.loads(file.read_text(encoding="utf-8"))
        expected, rule = value["expected"], value["rule"]
        choices = tuple(Choice(one["answer"], one["who"], one["why"]) for one in value.get("choices", ()))
        if value["class"] not in CLASSES or (file.stem, file.parent.name) != (value["name"], value["group"]):
            raise ValueError("its class isn't known, or its name and group aren't those of the file")
        return Case(
            value["name"], value["group"], value["title"],
            tuple(base64.b64decode(one, validate=True) for one in value["certificates"]),
            value["question"].get("amount", 120), expected["amount"], paths_of(expected.get("paths")),
            rule["source"], rule["sentence"], value["class"], choices, {key: value[key] for key in ASKED})
    except (KeyError, TypeError, ValueError, AttributeError) as error:
        raise Unreadable(f"{file} isn't a case: {type(error).__name__}: {error}") from None


def read_all(patterns: list[str], folder: Path = CASES) -> list[Case]:
    """The cases whose GROUP/NAME matches one of these patterns, or all if there is no pattern, in order."""
    cases = [read(file) for file in sorted(folder.glob("*/*.json"))]
    if not patterns:
        return cases
    return [case for case in cases if any(fnmatch.fnmatchcase(case.place, pattern) for pattern in patterns)]
