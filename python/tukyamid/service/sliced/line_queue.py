"""One queue for the lines of all clients: each is done when those before it are. Changes that follow one another are
made together. Whatever a line's work raises, the line is answered, and the next one is done."""

from __future__ import annotations

import asyncio
from collections import deque
from collections.abc import Awaitable, Callable, Iterator
from itertools import islice

from ..sessions.views import Value
from ..storage.journal import Change, Done, Verdicts
from .merging_engine import dropped

Asked = tuple[Value, bytes]
_MOST_CHANGES = 512
_MOST_OCTETS = 4 << 20
_MOST_CERTIFICATES = 1024


class Queued:
    """Work in the queue, and what is called if it raises something. A line `ask` says what it asks: its view, and the
    rest of the line."""
    __slots__ = ("work", "fail", "asked")

    def __init__(self, work: Callable[[], Awaitable[None]], fail: Callable[[Exception], None],
                 asked: Asked | None = None) -> None:
        self.work = work
        self.fail = fail
        self.asked = asked


class Once:
    """Hands on one reply, the first: a line that was answered before its work failed isn't answered again."""
    __slots__ = ("_done",)

    def __init__(self, done: Done) -> None:
        self._done: Done | None = done

    def __call__(self, reply: bytes | None, count: int) -> None:
        done, self._done = self._done, None
        if done is not None:
            done(reply, count)


class LineQueue:
    """`make` makes changes, and `refuse` refuses those that it doesn't come to."""

    def __init__(self, make: Callable[[list[Change]], Awaitable[None]], refuse: Callable[[list[Change]], None],
                 report: Callable[[str], None]) -> None:
        self._make = make
        self._refuse = refuse
        self._report = report
        self._queue: deque[Change | Queued] = deque()
        self._since: deque[float] = deque()  # When each of them was added.
        self._now = asyncio.get_running_loop().time
        self._woken = asyncio.Event()
        self._is_closing = False
        self._task = asyncio.get_running_loop().create_task(self._work())

    def add(self, item: Change | Queued) -> None:
        self._queue.append(item)
        self._since.append(self._now())
        self._woken.set()

    def asked_next(self, value: Value, most: int) -> list[bytes]:
        """What the next lines ask from a view of this value, as far as they are among the next `most`."""
        return [item.asked[1] for item in islice(self._queue, most)
                if isinstance(item, Queued) and item.asked is not None and item.asked[0] == value]

    def lag(self) -> float:
        """For how many seconds the next one has waited."""
        return self._now() - self._since[0] if self._since else 0.0

    async def close(self) -> None:
        """Comes back when all that was added is done."""
        self._is_closing = True
        self._woken.set()
        await self._task

    async def _work(self) -> None:
        while self._queue or not self._is_closing:
            try:
                if self._queue:
                    await self._do_next()
                else:
                    self._woken.clear()
                    await self._woken.wait()
            except Exception as error:  # Whatever one line meets, the others go on.
                self._report(repr(error))

    async def _do_next(self) -> None:
        if isinstance(self._queue[0], Change):
            changes = list(self._next_changes())
            try:
                await self._make(changes)
            except Exception as error:
                self._report(repr(error))
                self._refuse(changes)
            return
        queued = self._next()
        assert not isinstance(queued, Change)
        try:
            await queued.work()
        except Exception as error:
            self._report(repr(error))
            queued.fail(error)

    def _next_changes(self) -> Iterator[Change]:
        """The changes at the beginning that can be made together."""
        group = Group()
        while self._queue and isinstance(change := self._queue[0], Change) and group.takes(change):
            yield change
            self._next()

    def _next(self) -> Change | Queued:
        self._since.popleft()
        return self._queue.popleft()


class Group:
    """Changes that are made together, up to a bound. One that brings what another drops begins others: it has to meet
    it dropped. The verifier's verdicts are made alone."""

    def __init__(self) -> None:
        self._gone: set[bytes] = set()
        self._is_full = False
        self._count = self._octets = self._certificates = 0

    def takes(self, change: Change) -> bool:
        """Whether it takes a change behind those that it has."""
        self._octets += len(change.line or b"")
        self._certificates += len(change.fprs)
        is_much = self._count >= _MOST_CHANGES or self._octets > _MOST_OCTETS or self._certificates > _MOST_CERTIFICATES
        is_alone = isinstance(change, Verdicts)
        if self._is_full or self._count and (is_much or is_alone) or not self._gone.isdisjoint(change.fprs):
            return False
        self._is_full = is_alone
        self._count += 1
        if (fpr := dropped(change)) is not None:
            self._gone.add(fpr)
        return True
