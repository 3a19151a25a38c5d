"""A database that other services change too: changes are made under a lock, and those of others are applied before."""

from __future__ import annotations

import asyncio
from collections import deque
from collections.abc import Awaitable, Callable, Sequence
from concurrent.futures import ThreadPoolExecutor
from dataclasses import dataclass
from functools import partial
from typing import Protocol, TypeVar

from .answer_age import LONGEST_CALL, Freshness
from .database import Actor, DatabaseFault
from .group_commit import FAULT, Barrier, Committer, called
from .journal import Done
from .shared_database import News, Shared

_LONGEST_COPY = 600.0
_LONGEST_LOCK = 10.0
_PAUSE = 0.5  # Between two signs that the service is still at work.
_R = TypeVar("_R")

# Called when a change is sent to the engines, or refused before that.
Begun = Callable[[], None]


@dataclass
class Waiting:
    """A change that waits for the lock."""
    line: bytes
    actor: Actor
    done: Done
    begun: Begun


class Outgrown(Exception):
    """What other services have changed is too much for an engine. Somebody else makes what is still waiting."""


class Call(Protocol):
    """Calls the database, and waits for it up to a bound."""

    def __call__(self, call: Callable[[], _R], /) -> Awaitable[_R]: ...


class Home(Protocol):
    """What has to be done with the engines under the lock, and before."""

    async def begin_locked(self, call: Call) -> None:
        """Locks the database. The engines take what other services have changed before anything that comes later.
        Outgrown if they can't take it; then nothing is locked."""

    async def catch_up(self, call: Call) -> None:
        """Has the engines take what other services have changed."""

    def take_news(self, news: News) -> None:
        """Has all engines take what other services have changed, if that was read already."""

    def next_batch(self, waiting: Sequence[Waiting]) -> int:
        """How many of these changes, of which there is one at least, are made under one lock."""

    def send_batch(self, batch: Sequence[Waiting], done: Callable[[Waiting], Done]) -> None:
        """Sends changes to the engines in this order, and hands them to the committer. Each has begun then."""

    def report(self, text: str) -> None: ...


class LockedChanges:
    """Does one thing at a time with the database, so that nothing is under way in the engines when news comes. A change
    waits here for the lock; questions don't."""

    def __init__(self, database: Shared, writing: ThreadPoolExecutor, committer: Committer, home: Home) -> None:
        self._database = database
        self._writing = writing
        self._committer = committer
        self._home = home
        self.waiting: deque[Waiting] = deque()
        self._is_working = False
        self.is_over = False  # Whether the engines have no room for what others have changed.
        self._barriers: deque[Barrier] = deque()
        self._is_behind = False
        self._wake = asyncio.Event()
        self._loop = asyncio.get_running_loop()
        self.freshness = Freshness(database, committer, home.report, self._take_news_soon)
        self._tasks = [self._loop.create_task(work) for work in (self._work(), self.freshness.keep())]

    def _take_news_soon(self) -> None:
        self._is_behind = True
        self._wake.set()

    @property
    def is_busy(self) -> bool:
        return not self.is_over and (self._is_working or self._wake.is_set())

    def change(self, waiting: Waiting) -> None:
        if self._committer.fault:
            self._refuse(waiting)
            return
        self.waiting.append(waiting)
        self._wake.set()

    def snapshot(self, barrier: Barrier) -> None:
        self._barriers.append(barrier)
        self._wake.set()

    async def close(self) -> None:
        for task in self._tasks:
            task.cancel()
        await asyncio.gather(*self._tasks, return_exceptions=True)
        if self.is_busy:  # Else whoever makes the changes from now on goes on with this connection.
            self._database.cut()
        self.freshness.close()

    def _refuse(self, waiting: Waiting) -> None:
        waiting.begun()
        waiting.done(FAULT, self._committer.count)

    def _fail(self, fault: DatabaseFault) -> None:
        """Nothing that waits can be done at present."""
        self._committer.fault = str(fault)
        waiting, self.waiting = self.waiting, deque()
        if waiting:
            self._home.report(f"{len(waiting)} changes were refused, because they can't be stored: {fault}")
        for one in waiting:
            self._refuse(one)

    async def _call(self, call: Callable[[], _R], seconds: float = LONGEST_CALL) -> _R:
        """Calls the database. What lasts too long is cut, and is a DatabaseFault."""
        return await called(self._writing, call, self._database.cut, seconds)

    async def _work(self) -> None:
        while True:
            await self._wake.wait()
            self._is_working = True
            self._wake.clear()
            while self.waiting or self._barriers or self._is_behind:
                try:
                    await self._step()
                except Outgrown:
                    self.is_over = True
                    return
                except DatabaseFault as fault:
                    self._fail(fault)
                except Exception as error:  # Whatever one change meets, the others go on.
                    self._fail(DatabaseFault(repr(error)))
            self._is_working = False

    async def _step(self) -> None:
        if self._barriers:
            await self._open_snapshot(self._barriers.popleft())
        if self.waiting:
            await self._change_locked()
        elif self._is_behind:
            await self._take(self._home.catch_up)

    async def _take(self, take: Callable[[Call], Awaitable[None]]) -> None:
        """Applies what others have changed."""
        self._is_behind = False
        await take(self._call)
        self.freshness.see()

    async def _open_snapshot(self, barrier: Barrier) -> None:
        snapshot = None
        try:
            news = News(None)
            while news.lines is None:  # Such a snapshot is for the engines, and another one for who has asked.
                news = await self._call(partial(self._database.news, has_snapshot=True), _LONGEST_COPY)
                self._home.take_news(news)
            snapshot = news.snapshot
        finally:
            barrier.begun()
            barrier.done(snapshot)

    async def _change_locked(self) -> None:
        prolonging = self._loop.create_task(self._prolong())
        try:
            await self._make_changes()
        finally:
            prolonging.cancel()
            await asyncio.gather(prolonging, return_exceptions=True)

    async def _make_changes(self) -> None:
        await self._take(self._home.begin_locked)
        answered = asyncio.Event()
        batch = [self.waiting.popleft() for _ in range(self._home.next_batch(self.waiting))]
        left = len(batch)

        def done(one: Waiting, reply: bytes | None, count: int) -> None:
            nonlocal left
            left -= 1
            if not left:
                answered.set()
            one.done(reply, count)

        self._home.send_batch(batch, lambda one: partial(done, one))
        await answered.wait()
        await self._call(self._database.unlock)

    async def _prolong(self) -> None:
        """Keeps the lock while the engines are at work. All services wait for it, so it has a bound: the database ends
        the lock of a service that is stopped, and of one that takes too long."""
        end = float("inf")
        while self._loop.time() < end:
            await asyncio.sleep(_PAUSE)
            if not self._committer.is_busy:
                has_begun = await self._call(self._database.keep_locked)
                end = min(end, self._loop.time() + _LONGEST_LOCK) if has_begun else end
