"""A keyring that is larger than an engine, and that another process writes to. What is read is read at a moment; before
a question is asked at a later one, whatever is loaded follows the changes up to that."""

from __future__ import annotations

import asyncio
from collections import deque
from collections.abc import Awaitable, Callable, Sequence

from ..engines.conversation import EngineGone
from ..engines.in_flight import ignore
from ..sessions.views import Value
from ..sliced.line_queue import Asked
from ..sliced.partial_engine import BudgetExceeded
from ..sliced.reader_thread import Reader
from ..sliced.sliced_keyring import Sliced
from ..storage.certificate_rows import brought
from ..storage.change_feed import Numbered
from ..storage.database import Actor, DatabaseFault, Snapshot
from ..storage.database_threads import Access
from ..storage.journal import Change, Verdicts
from ..storage.partial_reads import HasParts, Parts
from .moments import HasMoments, MomentReader
from .published import LONGEST_WAIT, Published

_Notes = list[tuple[int, bytes]]  # Lines of clients, by their numbers.
_NOBODY = Actor(0, 0)
_MOST_KEPT, _LONGEST_KEPT, _LONGEST_ASKED = 2048, 4096, 512  # Replies, and octets of one, and of its question.
_MOST_TOGETHER = 16
_LONGEST_MOMENT = 60.0  # Seconds: PostgreSQL keeps what is read, however old it is.


class FollowingSliced(Sliced):
    """`count` is the number of the last change that watches have seen, if there are watches already."""

    def __init__(self, program: Sequence[str], access: Access, database: HasMoments, budget: int, published: Published,
                 count: int | None) -> None:
        self._published = published
        self._begins_at = count
        self._news: deque[tuple[int, bytes]] = deque()
        self._newest = 0
        self._has_news = asyncio.Event()
        self._is_due = False
        self._to_note: _Notes = []
        self._unwritten: dict[int, _Notes] = {}  # Those of each client's last line in the queue.
        self._kept: dict[tuple[Value, bytes], bytes] = {}
        self._kept_behind = -1
        self._alone = 0  # How many of the next questions are asked alone.
        self._moment = MomentReader(access, database, published, lambda: self.count, self._catch_up)
        super().__init__(program, access, database, budget)
        self._task = asyncio.get_running_loop().create_task(self._keep_fresh())

    def _opened(self, access: Access, database: HasParts) -> Reader:
        return self._moment

    async def start(self) -> None:
        if self._begins_at is not None:
            self._newest = self._committer.count = self._begins_at
            return
        self._newest = self._committer.count = await self.access.read(self._moment.begin)
        self._moment.release()

    async def close(self) -> None:
        self._task.cancel()
        await super().close()

    def take(self, lines: Numbered) -> None:
        """These changes are committed. Watches look at them soon, and a question before it is asked."""
        new = [(number, line) for number, line in lines if number > self._newest]
        if not new:
            return
        self._news.extend(new)
        self._newest = new[-1][0]
        self._has_news.set()
        if not self._is_due:
            self._is_due = True
            self.enqueue_inner(self._follow_news, lambda _: None)

    async def _follow_news(self) -> None:
        self._is_due = False

    def note(self, session: int, line: bytes) -> None:
        """Writes down a line after it was answered, since what its reply depends on is known then."""
        self._to_note.append((session, line))

    def has_begun(self) -> None:
        """A line has begun. If it isn't queued, it is written down now, but after what its client has sent before it:
        its reply comes after those, too."""
        noted, self._to_note = self._to_note, []
        for session, line in noted:
            if session in self._unwritten:
                self._unwritten[session].append((session, line))
            else:
                self.access.note(session, line)

    def _write(self, noted: _Notes) -> None:
        for session, line in noted:
            self.access.note(session, line)
            if self._unwritten.get(session) is noted:
                del self._unwritten[session]

    def enqueue_inner(self, work: Callable[[], Awaitable[None]], fail: Callable[[Exception], None],
                      asked: Asked | None = None) -> None:
        noted, self._to_note = self._to_note, []
        self._unwritten.update({session: noted for session, _ in noted})

        async def noted_work() -> None:
            try:
                if self._published.number > self.count:
                    await self._moment.renew()
                await work()
            finally:
                self._write(noted)
                self._moment.release()

        super().enqueue_inner(noted_work, fail, asked)

    async def _ask(self, word: bytes, value: Value, rest: bytes) -> bytes:
        """What the engine has said to a question since the last change is its reply until the next one."""
        if word != b"ask" or len(rest) > _LONGEST_ASKED:
            return await super()._ask(word, value, rest)
        if self._kept_behind != self.count or len(self._kept) + _MOST_TOGETHER >= _MOST_KEPT:
            self._kept, self._kept_behind = {}, self.count
        known = self._kept.get((value, rest))
        if known is not None:
            return known
        replies = await self._asked_together(value, rest)
        if rest not in replies:
            replies = {rest: await super()._ask(word, value, rest)}
        if self._kept_behind == self.count:
            self._kept.update({(value, one): reply for one, reply in replies.items()
                               if reply.startswith(b"amount ") and len(reply) <= _LONGEST_KEPT})
        return replies[rest]

    async def _asked_together(self, value: Value, rest: bytes) -> dict[bytes, bytes]:
        """The replies to a question and to those that wait behind it and aren't kept, by what they ask. If an engine
        ends, or hasn't room for all, there are none: each is asked alone."""
        rests = [rest, *dict.fromkeys(
            one for one in self._line_queue.asked_next(value, _MOST_TOGETHER)
            if len(one) <= _LONGEST_ASKED and one != rest and (value, one) not in self._kept)]
        if self._alone:
            self._alone -= 1
            return {}
        try:
            return dict(zip(rests, await self._asker.ask_all(value, rests)))
        except (BudgetExceeded, EngineGone):
            self._alone = _MOST_TOGETHER
            return {}

    async def _begin_again(self) -> None:
        self._kept_behind = -1
        await super()._begin_again()

    async def _catch_up(self, number: int) -> None:
        """Takes the changes up to the moment that is read."""
        await self._wait_for(number)
        changes = []
        while self._news and self._news[0][0] <= number:
            _, line = self._news.popleft()
            self.access.note(0, line)
            changes.append(_change_of(line))
        self._committer.count = number
        if changes:
            await self._follow(changes)

    async def _wait_for(self, number: int) -> None:
        """Waits until a change has come that is committed: by then it is published, too."""
        while self._newest < number:
            self._has_news.clear()
            try:
                await asyncio.wait_for(self._has_news.wait(), LONGEST_WAIT)
            except asyncio.TimeoutError:
                raise DatabaseFault(f"change {number} is committed, but nobody reports it") from None

    async def _freeze(self) -> Parts:
        return await self._moment.frozen()

    def snapshot(self, done: Callable[[Snapshot | None], None]) -> None:
        async def work() -> None:
            snapshot = await self.access.write(self.access.database.snapshot)
            try:
                await self._published.reach(snapshot.change)
            except BaseException:
                snapshot.close()
                raise
            done(snapshot)
        self.enqueue_inner(work, lambda _: done(None))

    async def _keep_fresh(self) -> None:
        while True:
            await asyncio.sleep(_LONGEST_MOMENT)
            self.enqueue_inner(self._moment.renew, lambda _: None)


def _change_of(line: bytes) -> Change:
    if line.startswith(b"verdicts "):
        return Verdicts.from_feed(line, ignore)
    return Change(line, 0, set(), _NOBODY, brought(line), ignore)
