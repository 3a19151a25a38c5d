"""Changes go to the database in their order, as many at once as are ready, and only then are their replies sent."""

from __future__ import annotations

import asyncio
from collections import deque
from collections.abc import Callable, Coroutine
from concurrent.futures import Executor
from dataclasses import dataclass
from typing import TypeVar

from .change_feed import Feed, NobodyFollows
from .database import Database, DatabaseFault, Snapshot, Uncertain
from .journal import Change
from .shared_database import Shared

FAULT = b"fault database\n"
UNCERTAIN = b"fault uncertain\n"
_MOST_CHANGES = 4096
_LONGEST_COMMIT = 10.0
_PROBE_SECONDS = 1.0
_BETWEEN_CUTS = 1.0  # Seconds.


_R = TypeVar("_R")


async def called(executor: Executor, call: Callable[[], _R], cut: Callable[[], None], seconds: float) -> _R:
    """Calls what waits for a server, in another thread. What lasts too long is cut, and meets that as a fault: again
    and again, since it may be making a connection at first, of which there is nothing to cut yet."""
    calling = asyncio.get_running_loop().run_in_executor(executor, call)
    try:
        while not (await asyncio.wait((calling,), timeout=seconds))[0]:
            cut()
            seconds = _BETWEEN_CUTS
    except asyncio.CancelledError:
        calling.cancel()
        raise
    return calling.result()


@dataclass
class Barrier:
    """Asks for a snapshot behind the changes that were handed in before it, in the place of the one that `before` gives
    then. `begun` is called when its place in their order is known, and `done` gets None where there is none."""
    done: Callable[[Snapshot | None], None]
    before: Callable[[], Snapshot | None] = lambda: None
    begun: Callable[[], None] = lambda: None


class Committer:
    """Commits changes. `released` is called when replies that rest on them may be sent, and `failed` with the changes
    that couldn't be committed, and why: nothing may rest on them.

    Whatever the database raises, the changes are answered. A DatabaseFault is of the database, so changes are refused
    until it is mended. Anything else is taken as the doing of one change: those of its batch are committed one by one,
    so that this one alone fails, with what depends on it."""

    def __init__(self, database: Database, executor: Executor, released: Callable[[], None],
                 failed: Callable[[list[Change], str], None], feed: Feed | None = None) -> None:
        self.count = 0
        self._feed = feed or NobodyFollows()
        self.fault = ""
        self._database = database
        self._shared = database if isinstance(database, Shared) else None
        self._executor = executor
        self._released = released
        self._failed = failed
        self._queue: deque[Change | Barrier] = deque()
        self.is_busy = False
        self._left_alone = 0  # The number of changes that are still to be committed one by one.
        self._probed = float("-inf")
        self._tasks: set[asyncio.Task[None]] = set()

    def add(self, item: Change | Barrier) -> None:
        self._queue.append(item)
        if isinstance(item, Barrier):
            self.advance()

    def advance(self) -> None:
        """Takes what is ready from the beginning of the queue."""
        while not self.is_busy and self._queue:
            first = self._queue[0]
            if isinstance(first, Barrier):
                self._queue.popleft()
                self._spawn(self._open_snapshot(first))
                return
            batch = self._next_batch()
            if not batch:
                return
            if made := [change for change in batch if change.is_made]:
                self._spawn(self._commit(batch, made))
                return
            self._finish(batch, [])

    def _next_batch(self) -> list[Change]:
        """What is ready; of a shared database all that is under way, since its commit unlocks it."""
        batch: list[Change] = []
        if self._shared is not None and not all(isinstance(one, Change) and one.is_answered for one in self._queue):
            return batch
        while self._queue and len(batch) < (1 if self._left_alone else _MOST_CHANGES):
            item = self._queue[0]
            if isinstance(item, Barrier) or not item.is_answered:
                break
            batch.append(item)
            self._queue.popleft()
        self._left_alone = max(0, self._left_alone - len(batch))
        return batch

    def _spawn(self, work: Coroutine[None, None, None]) -> None:
        self.is_busy = True
        task = asyncio.get_running_loop().create_task(work)
        self._tasks.add(task)
        task.add_done_callback(self._tasks.discard)

    async def _commit(self, batch: list[Change], made: list[Change]) -> None:
        try:
            numbers = await self._apply(made)
        except Exception as error:
            self.is_busy = False
            self._take_failure(batch, error)
            return
        self.is_busy = False
        self._finish(batch, numbers)
        self.advance()

    async def _apply(self, made: list[Change]) -> list[int]:
        return await self._call(lambda: self._database.apply([change.entry() for change in made]))

    async def _call(self, call: Callable[[], _R]) -> _R:
        if self._shared is not None:
            return await called(self._executor, call, self._shared.cut, _LONGEST_COMMIT)
        return await asyncio.get_running_loop().run_in_executor(self._executor, call)

    def _take_failure(self, batch: list[Change], error: Exception) -> None:
        """Changes that were made under one lock of a shared database fail together, since it is unlocked by then."""
        if isinstance(error, DatabaseFault):
            self.fault = str(error)
            self._probed = asyncio.get_running_loop().time()
            self._fail(batch, self.fault, UNCERTAIN if isinstance(error, Uncertain) else FAULT)
        elif len(batch) > 1 and self._shared is None:
            self._left_alone = len(batch)
            self._queue.extendleft(reversed(batch))
            self.advance()
        else:
            self._fail(batch, f"an error of the service itself: {error!r}")

    def _finish(self, batch: list[Change], numbers: list[int]) -> None:
        made = [change.feed_line for change in batch if change.is_made]
        self._feed.made(list(zip(numbers, made)))
        following = iter(numbers)
        for change in batch:
            if change.is_made:
                self.count = next(following)
            change.finish(change.reply, self.count)
        self._released()

    def _fail(self, batch: list[Change], why: str, reply: bytes = FAULT) -> None:
        """These changes, and those handed in behind them, aren't made. A change that nobody could answer is none."""
        self._left_alone = 0
        failed = batch + [item for item in self._queue if isinstance(item, Change)]
        self._queue = deque(item for item in self._queue if isinstance(item, Barrier))
        for change in failed:
            change.count = self.count
        self._failed(failed, why)
        for change in failed:
            change.finish(reply, self.count)
        self.advance()

    def refuse_all(self, why: str, reply: bytes) -> None:
        """Refuses all changes that were handed in, unless they are being committed."""
        if not self.is_busy and any(isinstance(item, Change) for item in self._queue):
            self._fail([], why, reply)

    def refuses(self) -> bool:
        """Whether a change can't be committed at present, as far as is known. It is tried again now and then."""
        now = asyncio.get_running_loop().time()
        if self.fault and not self.is_busy and now - self._probed > _PROBE_SECONDS:
            self._probed = now
            self._spawn(self._probe())
        return bool(self.fault)

    async def _probe(self) -> None:
        try:
            await self._call(self._database.probe)
            self.fault = ""
        except Exception as error:
            self.fault = str(error) or repr(error)
        self.is_busy = False
        self.advance()

    async def _open_snapshot(self, barrier: Barrier) -> None:
        loop = asyncio.get_running_loop()
        try:
            snapshot = await loop.run_in_executor(self._executor, self._database.snapshot, barrier.before())
        except Exception as error:
            self.fault = str(error) or repr(error)
            snapshot = None
        self.is_busy = False
        barrier.done(snapshot)
        self.advance()
