"""Engines over one keyring that another process writes to: they take what it has committed, in its order."""

from __future__ import annotations

import asyncio
from collections.abc import Callable, Coroutine, Sequence

from ..storage.change_feed import Numbered
from ..storage.database import Database, DatabaseFault, Snapshot
from ..storage.database_threads import Access
from ..storage.journal import Journal
from ..storage.snapshot_in_file import CopiedSnapshot, SnapshotInFile
from ..whole.engine_pool import Hub
from .published import Published

_PAUSE = 0.005
_BETWEEN_TRIES = 1.0


class FollowingHub(Hub):
    """New engines begin with a copy: an open transaction would keep the log of the database from beginning again."""

    _renewing_cost = 16

    def __init__(self, program: Sequence[str], most_engines: int, database: Database, access: Access,
                 published: Published) -> None:
        super().__init__(program, most_engines, database, access)
        self._published = published
        self._tasks: set[asyncio.Task[None]] = set()

    async def begin(self) -> None:
        snapshot = await self.access.write(self._copied)
        self._committer.count = snapshot.change
        self._journal = Journal(snapshot)
        await self._start_engine().has_begun

    def _copied(self) -> Snapshot:
        snapshot = self.access.database.snapshot()
        return snapshot if isinstance(snapshot, SnapshotInFile) else CopiedSnapshot(snapshot)

    def take(self, lines: Numbered) -> None:
        """Has all engines take these changes, but for those that they have."""
        self.take_committed([(number, line) for number, line in lines if number > self.count])

    async def close(self) -> None:
        for task in self._tasks:
            task.cancel()
        await asyncio.gather(*self._tasks, return_exceptions=True)
        await super().close()

    def snapshot(self, done: Callable[[Snapshot | None], None], begun: Callable[[], None] = lambda: None) -> None:
        begun()
        self._spawn(self._open(done))

    async def _open(self, done: Callable[[Snapshot | None], None]) -> None:
        """It may have changes that the engines don't have yet: nobody sees it before these are published."""
        snapshot = None
        try:
            snapshot = await self.access.write(self.access.database.snapshot)
            await self._published.reach(snapshot.change)
        except DatabaseFault as fault:
            self.report(str(fault))
            if snapshot is not None:
                snapshot.close()
            snapshot = None
        done(snapshot)

    def _renew(self) -> None:
        self._is_renewing = True
        self._spawn(self._copy_again())

    async def _copy_again(self) -> None:
        while True:
            try:
                snapshot = await self.access.write(self._copied)
                break
            except DatabaseFault as fault:
                self.report(str(fault))
                await asyncio.sleep(_BETWEEN_TRIES)
        while self.count < snapshot.change:
            await asyncio.sleep(_PAUSE)
        assert self._journal is not None
        self._renewed(self._journal.behind(snapshot.change), snapshot)

    def _spawn(self, work: Coroutine[None, None, None]) -> None:
        task = asyncio.get_running_loop().create_task(work)
        self._tasks.add(task)
        task.add_done_callback(self._tasks.discard)
