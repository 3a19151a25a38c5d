"""What is found out of a long line before it has its place in the order of lines, in another thread: so nobody waits
while some megabytes are read."""

from __future__ import annotations

from collections.abc import Callable
from typing import Generic, TypeVar

LONG_LINE = 1 << 16  # Octets.
_R = TypeVar("_R")


class OfALine(Generic[_R]):
    """A function of a line. What it comes to for a long one may be found out ahead."""

    def __init__(self, call: Callable[[bytes], _R]) -> None:
        self._call = call
        self._ahead: dict[bytes, _R] = {}

    def __call__(self, line: bytes) -> _R:
        if len(line) > LONG_LINE and line in self._ahead:
            return self._ahead[line]
        return self._call(line)

    def read_ahead(self, line: bytes) -> None:
        self._ahead[line] = self._call(line)

    def forget(self, line: bytes) -> None:
        if line in self._ahead:
            del self._ahead[line]
