"""Reading parts of a database at one moment after another: each is behind a change whose number is known."""

from __future__ import annotations

from collections.abc import Awaitable, Callable
from time import monotonic
from typing import Protocol, TypeVar, runtime_checkable

from ..sliced.reader_thread import Found, Reader
from ..storage.database import DatabaseFault
from ..storage.database_threads import Access
from ..storage.partial_reads import HasParts, Parts
from .published import Published

_R = TypeVar("_R")
_LONGEST_HERE = 0.002  # Seconds. What takes longer waits for the disk.
_ELSEWHERE = 64


class Moments(Protocol):
    """One thread uses it at a time."""

    @property
    def is_local(self) -> bool:
        """Whether what is in this machine's memory is read without waiting for anybody."""

    @property
    def parts(self) -> Parts:
        """What is read at the moment that has begun."""

    def begin(self) -> int:
        """From now on reads what is committed now, and returns the number of the last change in it."""

    def end(self) -> bool:
        """Whether the moment is over: what was read isn't held for long where that would cost others something."""

    def frozen(self) -> Parts:
        """Reads what is read now, whatever comes later."""

    def close(self) -> None: ...


@runtime_checkable
class HasMoments(HasParts, Protocol):
    def moments(self) -> Moments: ...


class MomentReader(Reader):
    """Reads at one moment for as long as one line is answered. `count` is the number of the last change that was taken.
    If the database has later ones, `catch_up` is called with the number of the last of these before anything is
    read."""

    def __init__(self, access: Access, database: HasMoments, published: Published, count: Callable[[], int],
                 catch_up: Callable[[int], Awaitable[None]]) -> None:
        super().__init__(access, database)
        self._moments = database.moments()
        self._published = published
        self._count = count
        self._catch_up = catch_up
        self._has_begun = False
        self._elsewhere = 0  # How many of the next short calls are made in the thread that reads.

    def here(self, call: Callable[[Parts], _R]) -> Found[_R] | None:
        """A call that went to the disk has those after it made in the thread that reads, so that clients don't wait."""
        if self._elsewhere or not self._moments.is_local:
            self._elsewhere = max(0, self._elsewhere - 1)
            return None
        begun = monotonic()
        found = Found(self._asked(call)) if self._has_begun else self._begun(call)
        if monotonic() - begun > _LONGEST_HERE:
            self._elsewhere = _ELSEWHERE
        if isinstance(found, Found):
            return found
        self._has_begun = False  # There are changes to take.
        return None

    async def __call__(self, call: Callable[[Parts], _R], /) -> _R:
        if not self._has_begun:
            found = await self._access.read(lambda: self._begun(call))
            if isinstance(found, Found):
                return found.value
            await self._catch_up(found)
        return await self._access.read(lambda: self._asked(call))

    async def renew(self) -> None:
        """Reads what is committed now from now on."""
        await self._catch_up(self.begin() if self._moments.is_local else await self._access.read(self.begin))

    async def frozen(self) -> Parts:
        await self(lambda parts: None)
        return await self._access.read(self._frozen)

    def release(self) -> None:
        """The line is answered."""
        if self._has_begun:
            self._has_begun = not self._moments.end()

    def _frozen(self) -> Parts:
        parts = self._moments.frozen()
        self._has_begun = not self._moments.end()
        return parts

    def _begun(self, call: Callable[[Parts], _R]) -> Found[_R] | int:
        number = self.begin()
        return Found(self._asked(call)) if number == self._count() else number

    def begin(self) -> int:
        """Begins a moment, while nothing is read in the other thread."""
        published = self._published.number  # Before: what is published is committed.
        self._has_begun = False
        number = self._moments.begin()
        if number < published:
            raise DatabaseFault("the server lacks changes that were acknowledged")
        self._has_begun = True
        return number

    def _asked(self, call: Callable[[Parts], _R]) -> _R:
        try:
            return call(self._moments.parts)
        except DatabaseFault:
            self._has_begun = False
            raise

    def close(self) -> None:
        self._moments.close()
