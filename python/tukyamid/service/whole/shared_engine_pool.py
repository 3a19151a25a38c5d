"""All engines over one keyring that other services change too: changes are made under a lock."""

from __future__ import annotations

import asyncio
from collections.abc import Awaitable, Callable, Sequence
from functools import partial

from ..storage.database import Actor, Snapshot
from ..storage.database_threads import Access
from ..storage.group_commit import Barrier
from ..storage.journal import Done
from ..storage.shared_database import News, Shared
from ..storage.locked_changes import Begun, Call, Outgrown, LockedChanges, Waiting
from .engine_pool import Hub

_MOST_CHANGES = 256

# Says whether an engine has room for what others have changed.
Fits = Callable[[News], Awaitable[bool]]


class SharedHub(Hub):
    """A change waits for the lock, and what other services have changed comes first. Questions don't wait."""

    _renewing_cost = 16  # A snapshot is a copy.

    def __init__(self, program: Sequence[str], most_engines: int, database: Shared, access: Access, fits: Fits) -> None:
        super().__init__(program, most_engines, database, access)
        self._shared = database
        self._fits = fits
        self._locked_changes: LockedChanges | None = None

    @property
    def age(self) -> float:
        """For how many seconds changes of other services may have been missed."""
        return self._locked_changes.freshness.age if self._locked_changes is not None else 0.0

    @property
    def standby(self) -> str | None:
        """The setting that names the standby that confirms changes; empty if there is none, None if it isn't known."""
        return self._locked_changes.freshness.standby if self._locked_changes is not None else None

    async def start(self) -> None:
        await super().start()
        self._locked_changes = LockedChanges(self._shared, self.access.writing, self._committer, self)

    async def _end_locking(self) -> None:
        if self._locked_changes is not None:
            await self._locked_changes.close()

    async def wait_until_idle(self) -> None:
        """Here also what waits for the lock is answered; but if the keyring has outgrown the engines, it waits."""
        while self._locked_changes is not None and self._locked_changes.is_busy:
            await asyncio.sleep(0.002)
        await super().wait_until_idle()

    @property
    def is_outgrown(self) -> bool:
        return self._locked_changes is not None and self._locked_changes.is_over

    def waiting(self) -> list[Waiting]:
        return list(self._locked_changes.waiting) if self._locked_changes is not None else []

    def change(self, line: bytes, actor: Actor, done: Done, begun: Begun = lambda: None) -> None:
        assert self._locked_changes is not None
        self._locked_changes.change(Waiting(line, actor, done, begun))

    def snapshot(self, done: Callable[[Snapshot | None], None], begun: Begun = lambda: None) -> None:
        assert self._locked_changes is not None
        self._locked_changes.snapshot(Barrier(done, begun=begun))

    def next_batch(self, waiting: Sequence[Waiting]) -> int:
        return min(len(waiting), _MOST_CHANGES)

    def send_batch(self, batch: Sequence[Waiting], done: Callable[[Waiting], Done]) -> None:
        for one in batch:
            self.send_change(one.line, one.actor, done(one))
        for one in batch:
            one.begun()

    async def begin_locked(self, call: Call) -> None:
        try:
            await self._take(await call(self._shared.lock_for_news))
        except Outgrown:
            await call(self._shared.unlock)
            raise

    async def catch_up(self, call: Call) -> None:
        await self._take(await call(self._shared.news))

    async def _take(self, news: News) -> None:
        if not await self._fits(news):
            for _, line in news.lines or ():
                self.access.note(0, line)
            self.access.feed.replaced(self._shared.place.number)
            raise Outgrown
        self.take_news(news)

    def take_news(self, news: News) -> None:
        """Has all engines take what other services have changed. Nothing is under way in them that isn't committed."""
        assert self._journal is not None
        if news.lines is None:
            assert news.snapshot is not None
            self.access.feed.replaced(news.snapshot.change)
            self._committer.count = news.snapshot.change
            point = self._journal.begin_again(news.snapshot)
            for engine in self.engines:
                engine.roll_back(point)
            return
        self.access.feed.made(news.lines)
        self.take_committed(news.lines)

    def _renew(self) -> None:
        self._is_renewing = True
        self.snapshot(partial(self._renewed, None))
