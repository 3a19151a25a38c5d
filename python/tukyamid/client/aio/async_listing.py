"""A long reply of the asynchronous client."""

from __future__ import annotations

import asyncio
from collections import deque
from collections.abc import Callable
from typing import Generic, TypeVar, cast

from ...protocol.refusals import ProtocolError, TukyamidError
from ...protocol.reply_reader import ListingHead

T = TypeVar("T")
U = TypeVar("U")
MOST_KEPT = 1024


class Listing(Generic[T]):
    """A long reply: `count` items, gone through once by `async for`. Some are read ahead. While another call waits for
    its reply, all are."""

    def __init__(self, head: ListingHead, needs_more: Callable[[], None]) -> None:
        self.count = head.count
        self._item = head.item
        self._needs_more = needs_more
        self._left = head.count
        self._kept: deque[T] = deque()
        self._has_come = asyncio.Event()
        self._fault: TukyamidError | None = None

    def of(self, item: type[U]) -> Listing[U]:
        """This listing, if its items are of this type; else a ProtocolError."""
        if self._item is not item:
            raise ProtocolError(f"a listing of {item.__name__} was asked for, and one of {self._item.__name__} came")
        return cast(Listing[U], self)

    def __aiter__(self) -> Listing[T]:
        return self

    def __length_hint__(self) -> int:
        return self._left

    async def __anext__(self) -> T:
        while not self._kept:
            if not self._left:
                raise StopAsyncIteration
            if self._fault is not None:
                raise self._fault
            self._has_come.clear()
            self._needs_more()
            await self._has_come.wait()
        self._left -= 1
        return self._kept.popleft()

    @property
    def is_full(self) -> bool:
        """Whether enough was read ahead."""
        return len(self._kept) >= MOST_KEPT

    def put(self, item: object) -> None:
        """Takes the next item."""
        self._kept.append(cast(T, item))
        self._has_come.set()

    def fail(self, fault: TukyamidError) -> None:
        """Says that no further item comes."""
        self._fault = fault
        self._has_come.set()
