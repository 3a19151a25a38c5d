"""At which line programs of the engine end."""

from __future__ import annotations

from .in_flight import Sent

_TRIES = 3


class Blame:
    """A line at which a program ended is tried alone. If programs end at it again, it is given up. Lines that were
    behind it are innocent, and so are all while a program is given what the last one held, or can't be started."""

    def __init__(self) -> None:
        self.suspect: Sent | None = None  # The line that is tried alone, if there is one.
        self._ends = 0

    def holds_back(self, sent: Sent) -> bool:
        """Whether a line has to wait until another one was tried alone."""
        return self.suspect is not None and sent is not self.suspect

    def take_end(self, first: Sent) -> bool:
        """A program has ended that was to answer this line first. True if the line is to be given up."""
        self._ends = self._ends + 1 if first is self.suspect else 1
        self.suspect = first
        return self._ends >= _TRIES

    def clear(self) -> None:
        self.suspect, self._ends = None, 0
