"""The changes of a keyring that is larger than an engine: the engine that merges finds what they do, the database
commits it, and then whatever was loaded follows."""

from __future__ import annotations

import asyncio
from collections.abc import Awaitable, Callable

from ..storage.database import DatabaseFault
from ..storage.database_threads import Access
from ..storage.group_commit import FAULT, Committer
from ..storage.journal import Change
from .merging_engine import Merging, Read

_PAUSE = 0.01


class Changes:
    """`committed` is called after a commit with the changes that were made, and `begin_again` if nobody knows whether
    that was followed."""

    def __init__(self, merging: Merging, access: Access, read: Read,
                 committed: Callable[[list[Change]], Awaitable[None]],
                 begin_again: Callable[[], Awaitable[None]]) -> None:
        self.merging = merging
        self.committer = Committer(access.database, access.writing, self._note_end, self._refused, access.feed)
        self._report = access.report
        self._read = read
        self._committed = committed
        self._begin_again = begin_again
        self._making: list[Change] = []
        self._over = asyncio.Event()

    async def make(self, changes: list[Change]) -> None:
        """Makes changes that come one behind another. Each has its reply then."""
        try:
            await self.merging.take(changes, self._read)
        except Exception as error:
            self._report(str(error) if isinstance(error, DatabaseFault) else repr(error))
            self.refuse(changes)
            return
        made, before = [change for change in changes if change.is_made], self.committer.count
        self._hand_in(changes)
        try:
            await self._over.wait()
            if self.committer.count != before:
                await self._committed(made)
        except Exception as error:
            self._report(repr(error))
            await self._recover(changes)

    def _hand_in(self, changes: list[Change]) -> None:
        """From now on the committer hands on their replies."""
        self._making = changes
        self._over.clear()
        for change in changes:
            change.is_over = change.reply is None or not change.reply.startswith(b"ok")
            self.committer.add(change)
        self.committer.advance()

    def refuse(self, changes: list[Change]) -> None:
        """Refuses those of these changes that nobody has made."""
        for change in changes:
            if change.count is None:
                change.finish(FAULT, self.committer.count)

    async def _recover(self, changes: list[Change]) -> None:
        """Something broke off while these changes were committed or followed: waits for the end, and then nothing that
        was loaded is relied on."""
        while any(change.count is None for change in changes):
            await asyncio.sleep(_PAUSE)
        await self._begin_again()

    def _note_end(self) -> None:
        if all(change.count is not None for change in self._making):
            self._over.set()

    def _refused(self, failed: list[Change], why: str) -> None:
        self._report(f"{len(failed)} changes were refused, because they can't be stored: {why}")
        self._note_end()

    async def close(self) -> None:
        """When no further change comes."""
        while self.committer.is_busy:
            await asyncio.sleep(_PAUSE)
        await self.merging.close()
