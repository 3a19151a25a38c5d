"""Reading what replies over a sliced keyring rest on, in a thread of its own."""

from __future__ import annotations

from collections.abc import Callable
from dataclasses import dataclass
from typing import Generic, TypeVar

from ..storage.database_threads import Access
from ..storage.partial_reads import HasParts, Parts

_R = TypeVar("_R")


@dataclass(frozen=True)
class Found(Generic[_R]):
    value: _R


class Reader:
    def __init__(self, access: Access, database: HasParts) -> None:
        self._access = access
        self._database = database
        self._parts: Parts | None = None

    async def __call__(self, call: Callable[[Parts], _R], /) -> _R:
        return await self._access.read(lambda: call(self._opened()))

    def here(self, call: Callable[[Parts], _R]) -> Found[_R] | None:
        """What a short call has read, if it could be made at once, in the caller's thread."""
        return None

    def _opened(self) -> Parts:
        if self._parts is None:
            self._parts = self._access.parts = self._database.parts()
        return self._parts

    def close(self) -> None:
        if self._parts is not None:
            self._parts.close()
