"""The way to the database for everything that the service does in parallel: one thread writes, one looks up what an
index finds, one searches, which may take long, and one reads what questions rest on."""

from __future__ import annotations

import asyncio
import contextlib
import os
import select
from collections.abc import Callable
from concurrent.futures import ThreadPoolExecutor
from time import monotonic
from typing import BinaryIO, Protocol, TypeVar, runtime_checkable

from tukyamid.protocol.spelling import for_people

from .change_feed import Feed, NobodyFollows
from .database import Database, Finder

_R = TypeVar("_R")
_STANDARD_ERROR = 2
LONGEST_SILENCE = 30.0  # Seconds: no server takes longer for what is looked up, unless it is stopped.


@runtime_checkable
class Cuttable(Protocol):
    """What waits for a server."""

    def cut(self) -> None:
        """Has what waits meet the connection's end. Any thread may call this."""


class Calls:
    """A thread that makes one call after another, and since when it makes the present one."""

    def __init__(self, name: str) -> None:
        self.executor = ThreadPoolExecutor(1, name)
        self._since = float("inf")

    async def make(self, call: Callable[[], _R]) -> _R:
        return await asyncio.get_running_loop().run_in_executor(self.executor, self._make, call)

    def _make(self, call: Callable[[], _R]) -> _R:
        self._since = monotonic()
        try:
            return call()
        finally:
            self._since = float("inf")

    def cut_if_stuck(self, asked: object) -> None:
        """Cuts what is asked if that has been silent for too long."""
        if monotonic() - self._since > LONGEST_SILENCE and isinstance(asked, Cuttable):
            asked.cut()


class Lookups(Calls):
    """A thread that looks things up in the database, with a connection of its own."""

    def __init__(self, database: Database, name: str) -> None:
        super().__init__(name)
        self._database = database
        self._finder: Finder | None = None

    async def look(self, look: Callable[[Finder], _R]) -> _R:
        return await self.make(lambda: look(self._opened()))

    def cut_stuck(self) -> None:
        self.cut_if_stuck(self._finder)

    def close(self) -> None:
        self.executor.shutdown()
        if self._finder is not None:
            self._finder.close()

    def _opened(self) -> Finder:
        if self._finder is None:
            self._finder = self._database.finder()
        return self._finder


def say(text: object) -> None:
    """Writes a line for people. If the disk is full, it is lost: whoever reports something goes on."""
    with contextlib.suppress(OSError):
        os.write(_STANDARD_ERROR, _line_of(text) + b"\n")


def log(text: object) -> None:
    """Writes a line of the service's log. If nobody reads it at present, and its pipe is full, the line is lost."""
    with contextlib.suppress(OSError):
        if select.select((), (_STANDARD_ERROR,), (), 0)[1]:  # There is room for PIPE_BUF octets.
            os.write(_STANDARD_ERROR, _line_of(text)[:select.PIPE_BUF - 1] + b"\n")


def _line_of(text: object) -> bytes:
    """Strangers' names may be in it, so nothing in it steers a terminal or ends the line."""
    shown = for_people(str(text).encode("utf-8", "surrogateescape"), "\\")
    return f"tukyamid-server: {shown}".encode("utf-8", "backslashreplace")


class Access:
    def __init__(self, database: Database, order: BinaryIO | None = None, feed: Feed | None = None) -> None:
        self.database = database
        self.feed = feed or NobodyFollows()
        self.writing = ThreadPoolExecutor(1, "writing")
        self.parts: object = None  # What `read` asks, as whoever calls it says.
        self._finding, self._searching = Lookups(database, "finding"), Lookups(database, "searching")
        self._reading = Calls("reading")
        self._order = order
        self.notes = order is not None  # Whether the order of lines is written down.

    def report(self, text: str) -> None:
        log(text)

    def note(self, session: int, line: bytes) -> None:
        """Writes down the order of lines, for those who check it."""
        if self._order is not None:
            self._order.write(b"%d %s\n" % (session, line))

    async def write(self, call: Callable[[], _R]) -> _R:
        """Calls what writes to the database, between commits."""
        return await asyncio.get_running_loop().run_in_executor(self.writing, call)

    async def find(self, look: Callable[[Finder], _R]) -> _R:
        """Looks something up in the database that takes little time, beside commits."""
        return await self._finding.look(look)

    async def search(self, look: Callable[[Finder], _R]) -> _R:
        """Looks something up that may take long: who only looks something up doesn't wait for it."""
        return await self._searching.look(look)

    async def read(self, call: Callable[[], _R]) -> _R:
        """Calls what reads parts of the database."""
        return await self._reading.make(call)

    def cut_stuck(self) -> None:
        """Ends what a server hasn't answered for long: whoever waits for it meets that as a fault."""
        self._finding.cut_stuck()
        self._searching.cut_stuck()
        self._reading.cut_if_stuck(self.parts)

    def close(self) -> None:
        for executor in (self.writing, self._reading.executor):
            executor.shutdown()
        self._finding.close()
        self._searching.close()
