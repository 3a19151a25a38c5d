"""A keyring that is larger than an engine, and that other services change too. All that is read is read at one moment:
behind the last change that this service has taken. What others change is taken between its own lines."""

from __future__ import annotations

import asyncio
from collections.abc import Awaitable, Callable, Sequence

from ..engines.in_flight import ignore
from ..storage.certificate_rows import brought
from ..storage.database import Actor, DatabaseFault, Snapshot
from ..storage.database_threads import Access
from ..storage.journal import Change, Done
from ..storage.partial_reads import Parts, SharedInParts, SharedParts
from ..storage.shared_database import News
from ..storage.locked_changes import Begun, Call, LockedChanges, Waiting
from .line_queue import Group
from .sliced_keyring import Sliced

_NOBODY = Actor(0, 0)
_PAUSES = 3  # As long as a look that found no server.
_LONGEST_MOMENT = 60.0  # Seconds: PostgreSQL keeps what is read, however old it is.


class SharedSliced(Sliced):
    def __init__(self, program: Sequence[str], access: Access, database: SharedInParts, budget: int) -> None:
        super().__init__(program, access, database, budget)
        self._shared = database
        self._locked_changes: LockedChanges | None = None
        self._tasks: set[asyncio.Task[None]] = set()
        self._mended_after = 0.0

    @property
    def age(self) -> float:
        """For how many seconds changes of other services may have been missed."""
        return self._locked_changes.freshness.age if self._locked_changes is not None else 0.0

    @property
    def standby(self) -> str | None:
        """The setting that names the standby that confirms changes; empty if there is none, None if it isn't known."""
        return self._locked_changes.freshness.standby if self._locked_changes is not None else None

    async def start(self) -> None:
        """Begins behind the last change that was taken before, if any was."""
        await self._renew()
        self._locked_changes = LockedChanges(self._shared, self.access.writing, self._committer, self)
        self._begin(self._keep_fresh())

    async def close(self) -> None:
        for task in self._tasks:
            task.cancel()
        await asyncio.gather(*self._tasks, return_exceptions=True)
        await self._line_queue.close()
        if self._locked_changes is not None:
            await self._locked_changes.close()
        await super().close()

    def report(self, text: str) -> None:
        self.access.report(text)

    def note(self, session: int, line: bytes) -> None:
        """Writes down a line in the order in which lines are done."""
        async def work() -> None:
            self.access.note(session, line)
        self.enqueue_inner(work, lambda _: None)

    def change(self, line: bytes, actor: Actor, done: Done, begun: Begun = lambda: None) -> None:
        assert self._locked_changes is not None
        self._locked_changes.change(Waiting(line, actor, done, begun))

    def snapshot(self, done: Callable[[Snapshot | None], None]) -> None:
        async def work() -> None:
            self._begin(self._copy(await self._freeze(), done))
        self.enqueue_inner(work, lambda _: done(None))

    async def _copy(self, parts: Parts, done: Callable[[Snapshot | None], None]) -> None:
        snapshot = None
        try:
            assert isinstance(parts, SharedParts)
            snapshot = await asyncio.to_thread(parts.snapshot)
        except Exception as error:
            self.access.report(str(error) if isinstance(error, DatabaseFault) else repr(error))
        done(snapshot)
        await asyncio.to_thread(parts.close)

    def next_batch(self, waiting: Sequence[Waiting]) -> int:
        group = Group()
        return next((count for count, one in enumerate(waiting) if not group.takes(_change_of(one.line))), len(waiting))

    def send_batch(self, batch: Sequence[Waiting], done: Callable[[Waiting], Done]) -> None:
        changes = [_change_of(one.line, one.actor, done(one)) for one in batch]

        async def work() -> None:
            for one in batch:
                one.begun()
            await self._changes.make(changes)
        self.enqueue_inner(work, lambda _: self._changes.refuse(changes))

    async def begin_locked(self, call: Call) -> None:
        await call(self._shared.lock)
        try:
            await self._in_queue(self._renew)
        except Exception:
            await call(self._shared.unlock)
            raise

    async def catch_up(self, call: Call) -> None:
        await self._in_queue(self._renew)

    def take_news(self, news: News) -> None:
        """News is read at the moment at which it is taken."""
        raise AssertionError(news)

    async def _in_queue(self, work: Callable[[], Awaitable[None]]) -> None:
        """Has something done after the lines so far, and waits for it."""
        done = asyncio.get_running_loop().create_future()

        def fail(error: Exception) -> None:
            if not done.done():
                done.set_exception(error)

        async def attempt() -> None:
            try:
                await work()
            except Exception as error:
                fail(error)
            if not done.done():
                done.set_result(None)
        self.enqueue_inner(attempt, fail)
        await done

    async def _committed(self, made: list[Change]) -> None:
        await self._renew(made)

    async def _is_mended(self) -> bool:
        """Looks for a server, which may take seconds if there is none: then it is only looked for again after a while,
        so that other lines are answered."""
        now = asyncio.get_running_loop().time
        begun = now()
        if begun < self._mended_after and self.fault:
            return False
        try:
            await self._renew()
        except DatabaseFault as fault:
            self.access.report(str(fault))
            self._mended_after = now() + _PAUSES * (now() - begun)
            return False
        return True

    async def _renew(self, made: Sequence[Change] = ()) -> None:
        """Reads what is committed now from now on, and takes what has changed: these changes, and those of others."""
        def renew(parts: Parts) -> tuple[int, tuple[tuple[int, bytes], ...] | None]:
            assert isinstance(parts, SharedParts)
            self._shared.place, lines = parts.renew(self._shared.place)
            return self._shared.place.number, lines

        self._committer.count, lines = await self.read(renew)
        if lines is None:
            self.access.feed.replaced(self._committer.count)
            await self._begin_again()
            return
        self.access.feed.made(lines)
        for _, line in lines:
            self.access.note(0, line)
        changes = [*made, *(_change_of(line) for _, line in lines)]
        if changes:
            await self._follow(changes)

    async def _keep_fresh(self) -> None:
        while True:
            await asyncio.sleep(_LONGEST_MOMENT)
            try:
                await self._in_queue(self._renew)
            except Exception as error:  # The next one may come through.
                if not isinstance(error, DatabaseFault):
                    self.access.report(repr(error))

    def _begin(self, work: Awaitable[None]) -> None:
        task = asyncio.ensure_future(work)
        self._tasks.add(task)
        task.add_done_callback(self._tasks.discard)


def _change_of(line: bytes, actor: Actor = _NOBODY, done: Done = ignore) -> Change:
    return Change(line, 0, set(), actor, brought(line), done)
