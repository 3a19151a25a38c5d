"""Lines that wait for their place in the order of all clients' lines: while the keyring is measured, or held in another
way from now on, none may get one."""

from __future__ import annotations

from collections import deque
from collections.abc import Callable

Place = Callable[[], None]


class WaitingLines:
    """`resumed` is called when none waits any more."""

    def __init__(self, resumed: Callable[[], None], report: Callable[[str], None]) -> None:
        self.is_held_up = False
        self._resumed = resumed
        self._report = report
        self.waiting: deque[Place] = deque()

    @property
    def is_clear(self) -> bool:
        """Whether a line may have its place now."""
        return not self.is_held_up and not self.waiting

    def add(self, place: Place) -> None:
        """Gives a line its place behind those that wait."""
        self.waiting.append(place)

    def resume(self, first: list[Place]) -> None:
        """Gives all their places: these first. One of them may hold up those behind it again."""
        self.waiting.extendleft(reversed(first))
        self.is_held_up = False
        while self.waiting and not self.is_held_up:
            place = self.waiting[0]
            try:
                place()
            except Exception as error:  # Whatever one line meets, the others go on.
                self._report(repr(error))
            self.waiting.popleft()
        if self.is_clear:
            self._resumed()
