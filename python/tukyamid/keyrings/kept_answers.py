"""What an engine said, kept by the questions, for as long as its keyring doesn't change."""

from __future__ import annotations

from collections import OrderedDict
from collections.abc import Callable, Hashable
from typing import Any, TypeVar

T = TypeVar("T")


class Kept:
    """Values by their questions: those that were asked for last, up to `most`, where one counts as 1 and its size."""

    def __init__(self, most: int) -> None:
        self._most = most
        self._values: OrderedDict[Hashable, tuple[Any, int]] = OrderedDict()
        self.size = 0

    def of(self, question: Hashable, ask: Callable[[], T], size: Callable[[T], int]) -> T:
        """The value of a question, for which `ask` is called unless it is kept."""
        if question in self._values:
            self._values.move_to_end(question)
            kept: T = self._values[question][0]
            return kept
        value = ask()
        self._values[question] = value, 1 + size(value)
        self.size += self._values[question][1]
        while self.size > self._most:
            self.size -= self._values.popitem(last=False)[1][1]
        return value
