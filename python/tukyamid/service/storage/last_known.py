"""What was read from the database last, for while it can't be read."""

from __future__ import annotations

import asyncio
from collections.abc import Awaitable, Callable
from typing import Generic, TypeVar

from .database import DatabaseFault

_R = TypeVar("_R")
_PAUSE = 0.25  # Between two looks whether the database is away by now.


class LastKnown(Generic[_R]):
    """A value that the database has. While that is away, as `is_away` says, nobody waits for it: the last value is
    given at once, and one look at a time finds out whether there is another."""

    def __init__(self, is_away: Callable[[], bool], look: Callable[[], Awaitable[_R]]) -> None:
        self._is_away = is_away
        self._look = look
        self._known: list[_R] = []  # One at most.
        self._looking: asyncio.Task[None] | None = None

    async def value(self) -> _R:
        """The value by now, or the last one if it can't be read; DatabaseFault if it was never read."""
        if not self._known or not self._is_away():
            looking = asyncio.ensure_future(self._take())
        elif self._looking is None or self._looking.done():
            looking = self._looking = asyncio.ensure_future(self._take())
        else:
            looking = self._looking
        while not looking.done() and not (self._known and self._is_away()):
            await asyncio.wait({looking}, timeout=_PAUSE)
        if looking.done():
            self._look_at(looking)
        else:
            looking.add_done_callback(_forgotten)
        return self._known[0]

    async def _take(self) -> None:
        self._known = [await self._look()]

    def _look_at(self, looking: asyncio.Task[None]) -> None:
        try:
            looking.result()
        except DatabaseFault:
            if not self._known:
                raise


def _forgotten(looking: asyncio.Task[None]) -> None:
    """Nobody waits for it any more, and so for no error of it."""
    if not looking.cancelled():
        looking.exception()
