"""What a rule finds: a file, a line, what is wrong there and what to do about it."""

from collections.abc import Callable, Iterator
from dataclasses import dataclass

from .tree import Tree


@dataclass(frozen=True, order=True)
class Finding:
    """One fault. `measure` says what is counted, for a rule that finds several sorts of faults."""

    path: str
    line: int
    what: str
    remedy: str
    measure: str = ""

    def __str__(self) -> str:
        return f"{self.path}:{self.line}: {self.what}; {self.remedy}"

    @property
    def owner(self) -> str:
        """Who may owe it: the crate, or the file for what isn't in a crate."""
        parts = self.path.split("/")
        return "/".join(parts[:2]) if parts[0] == "crates" and len(parts) > 2 else self.path


class CannotRun(Exception):
    """A rule needs a program that isn't there; the text says which one and how to get it."""


Rule = Callable[[Tree], Iterator[Finding]]
