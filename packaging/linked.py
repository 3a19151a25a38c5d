"""The Rust libraries that the verifier's programs are linked with, as cargo lists them for `verifier/build`, and
their licences."""

from __future__ import annotations

from collections.abc import Iterator
from pathlib import Path
from typing import NamedTuple

OWN = "tukyamid-verify"
TEMPLATE = Path(__file__).with_name("verifier-copyright")
PLACE = "@libraries@"


class Library(NamedTuple):
    """A library that is linked in. `licence` is an expression by SPDX."""
    name: str
    version: str
    licence: str


def linked(file: Path) -> list[Library]:
    """The libraries that a list names: lines `NAME vVERSION LICENCE`."""
    return sorted({library for line in file.read_text().splitlines() for library in _read(line)})


def _read(line: str) -> Iterator[Library]:
    name, version, licence = line.split(" ", 2)
    if name != OWN:
        yield Library(name, version.removeprefix("v"), " OR ".join(licence.split("/")))


def copyright_of(libraries: list[Library]) -> str:
    """The file `copyright` of the verifier's package."""
    lines = [f"  {one.name} {one.version}: {one.licence}" for one in libraries]
    return TEMPLATE.read_text().replace(PLACE, "\n".join(lines))
