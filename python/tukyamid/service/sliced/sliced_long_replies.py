"""Long replies about a keyring that is larger than an engine. Each is made by an engine of its own, from the database
as it is when the lines before it are answered: so nobody else waits for it."""

from __future__ import annotations

import asyncio
from collections.abc import Awaitable, Callable, Sequence
from typing import TypeVar

from ..storage.database_threads import LONGEST_SILENCE, Cuttable
from ..storage.group_commit import FAULT
from ..storage.journal import Done
from ..storage.partial_reads import Parts
from .partial_engine import Loader
from .reader_thread import Found
from .sliced_questions import Asker

_AT_ONCE = 2
_R = TypeVar("_R")
Work = Callable[[Asker], Awaitable[bytes]]
# Has the database read as it is now, whatever is committed later.
Freeze = Callable[[], Awaitable[Parts]]
# Does work with tries and faults, and hands its reply on.
Answer = Callable[[Callable[[], Awaitable[bytes]], Done], Awaitable[None]]


class LongReplies:
    def __init__(self, program: Sequence[str], budget: int, freeze: Freeze, answer: Answer,
                 report: Callable[[str], None]) -> None:
        self._program = program
        self._budget = budget
        self._freeze = freeze
        self._answer = answer
        self._report = report
        self._loaders: set[Loader] = set()
        self._tasks: set[asyncio.Task[None]] = set()
        self._room = asyncio.Semaphore(_AT_ONCE)

    @property
    def pids(self) -> list[int | None]:
        return [loader.pid for loader in self._loaders]

    async def begin(self, work: Work, done: Done) -> None:
        """Comes back when the database is held as it is now."""
        parts = await self._freeze()
        task = asyncio.get_running_loop().create_task(self._do(work, parts, done))
        self._tasks.add(task)
        task.add_done_callback(self._tasks.discard)

    async def _do(self, work: Work, parts: Parts, done: Done) -> None:
        loader = Loader(self._program, self._budget)
        try:
            async with self._room:
                self._loaders.add(loader)
                asker = Asker(loader, FrozenReader(parts))
                await self._answer(lambda: work(asker), done)
        except Exception as error:  # Whatever one line meets, the others go on.
            self._report(repr(error))
            done(FAULT, 0)
        finally:
            self._loaders.discard(loader)
            try:
                await loader.close()
            finally:
                await asyncio.to_thread(parts.close)

    async def close(self) -> None:
        for task in self._tasks:
            task.cancel()
        await asyncio.gather(*self._tasks, return_exceptions=True)


class FrozenReader:
    """Reads these parts, in another thread."""

    def __init__(self, parts: Parts) -> None:
        self._parts = parts

    async def __call__(self, call: Callable[[Parts], _R], /) -> _R:
        loop = asyncio.get_running_loop()
        timer = loop.call_later(LONGEST_SILENCE, self._parts.cut) if isinstance(self._parts, Cuttable) else None
        try:
            return await asyncio.to_thread(call, self._parts)
        finally:
            if timer is not None:
                timer.cancel()

    def here(self, call: Callable[[Parts], _R]) -> Found[_R] | None:
        return None
