"""Many changes in a row, and how far they are."""

from __future__ import annotations

import asyncio
from binascii import hexlify
from collections.abc import AsyncGenerator, Callable, Iterable, Iterator, Sequence
from functools import partial
from typing import TypeVar

from ..line_intake import LineIntake
from ..storage.database import Actor, DatabaseFault

_AHEAD = 64
_LINE_OCTETS = 30_000  # Of certificates in one line: a line of this length is read in no thread of its own.
_PROGRESS_SECONDS = 1.0

_T = TypeVar("_T")

Say = Callable[[str], None]


class Progress:
    """Says how far something is, how fast it goes, and how long the rest will take; not more than once a second. A
    total may be more than what is counted: certificates of a size, say. `share` is how much of all is done then, from 0
    to 1, where the count doesn't say it."""

    def __init__(self, say: Say, what: str, total: int | None = None) -> None:
        self._say, self._what, self._total = say, what, total
        self._begun = asyncio.get_running_loop().time()
        self._next = self._begun + _PROGRESS_SECONDS
        self._count = 0
        self.share: float | None = None

    def advance(self, more: int = 1) -> None:
        """Some more are done."""
        self._count += more
        now = asyncio.get_running_loop().time()
        if now >= self._next:
            self._next = now + _PROGRESS_SECONDS
            of = "" if self._total is None else f" of {self._total}"
            self._say(f"{self._what} {self._count}{of}{self._rate(now - self._begun)}")

    def _rate(self, seconds: float) -> str:
        """The rate and the remaining time, as far as they can be known."""
        share = self._count / self._total if self._total else self.share
        rest = f", {_spelled(seconds * (1 / share - 1))} left" if share and share < 1 else ""
        return f", {self._count / seconds:,.0f} a second{rest}"


def _spelled(seconds: float) -> str:
    if seconds < 100:
        return f"{seconds:.0f} s"
    return f"{seconds / 60:.0f} min" if seconds < 6000 else f"{seconds / 3600:.1f} h"


async def make_changes(intake: LineIntake, lines: Iterable[bytes], actor: Actor,
                       progress: Progress | None = None) -> int:
    """Has these changes made, some of them ahead of their replies; returns the number of refused ones. DatabaseFault if
    the database couldn't take some of them."""
    return len(await _refused(intake, ((line, 1) for line in lines), actor, progress))


async def make_imports(intake: LineIntake, certificates: Sequence[bytes], actor: Actor, progress: Progress) -> int:
    """Has certificates imported, several with each line; returns the number of refused ones. Those of a line that is
    refused are imported one by one."""
    groups = list(_grouped(certificates))
    refused = await _refused(intake, ((_import(b"".join(group)), len(group)) for group in groups), actor, progress)
    again = [one for place in refused for one in groups[place]]
    return len(await _refused(intake, ((_import(one), 0) for one in again), actor, progress))


def _import(octets: bytes) -> bytes:
    return b"import " + hexlify(octets)


def _grouped(certificates: Iterable[bytes]) -> Iterator[list[bytes]]:
    group: list[bytes] = []
    octets = 0
    for one in certificates:
        if group and octets + len(one) > _LINE_OCTETS:
            yield group
            group, octets = [], 0
        group.append(one)
        octets += len(one)
    if group:
        yield group


async def _refused(intake: LineIntake, lines: Iterable[tuple[bytes, int]], actor: Actor,
                   progress: Progress | None) -> list[int]:
    """Has these changes made, each of which advances the progress; returns the places of the refused ones."""
    room, refused, failed = asyncio.Semaphore(_AHEAD), list[int](), 0

    def done(place: int, reply: bytes | None, _: int) -> None:
        nonlocal failed
        if reply is None or reply.startswith(b"refused "):
            refused.append(place)
        failed += reply is not None and reply.startswith(b"fault ")
        room.release()

    for place, (line, weight) in enumerate(lines):
        await room.acquire()
        intake.change(line, actor, partial(done, place))
        if progress is not None:
            progress.advance(weight)
    for _ in range(_AHEAD):
        await room.acquire()
    if failed:
        raise DatabaseFault(f"{failed} changes couldn't be committed")
    return refused


async def one_ahead(source: AsyncGenerator[_T, None]) -> AsyncGenerator[_T, None]:
    """The same items; while one is used, the next one is made."""
    async def following() -> tuple[_T, ...]:
        async for item in source:
            return (item,)
        return ()

    task = asyncio.create_task(following())
    try:
        while items := await task:
            task = asyncio.create_task(following())
            yield items[0]
    finally:
        task.cancel()
        await asyncio.gather(task, return_exceptions=True)
        await source.aclose()
