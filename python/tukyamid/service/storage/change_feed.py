"""What follows a service over its database: it is notified of every change before anybody gets a reply that depends on
it."""

from __future__ import annotations

from collections.abc import Sequence
from typing import Protocol

# The numbers and the lines of changes that are committed, in their order.
Numbered = Sequence[tuple[int, bytes]]


class Feed(Protocol):
    def made(self, lines: Numbered) -> None:
        """These changes are committed. Lines that changed nothing have the number of the change before them."""

    def sliced(self) -> None:
        """The keyring is held in slices from now on."""

    def replaced(self, number: int) -> None:
        """Everything may have been replaced; this is the number of the last change now."""


class NobodyFollows:
    def made(self, lines: Numbered) -> None: ...

    def sliced(self) -> None: ...

    def replaced(self, number: int) -> None: ...
