"""The asynchronous connection: lines go out at once, and one task reads what comes back."""

from __future__ import annotations

import asyncio
import contextlib
import weakref
from abc import abstractmethod
from collections import deque
from collections.abc import Callable
from typing import TYPE_CHECKING, Generic, Self, TypeVar, cast

from ...protocol.refusals import ProtocolError, Refused, TukyamidError
from ...protocol.replies import Gone, Reply, Watched
from ...protocol.reply_reader import ListingHead
from ...protocol.spelling import has_reply
from ..reply_matching import PROBE, Conversation, no_progress
from .async_calls import Calls
from .async_listing import Listing

if TYPE_CHECKING:
    from ...protocol.reply_reader import Reader
    from ..reply_matching import Progress

T = TypeVar("T")
PIECE = 1 << 18


class Exchange(Generic[T]):
    """A line that was sent, and who waits for its reply."""
    __slots__ = ("_reader", "future")

    def __init__(self, reader: Reader[T]) -> None:
        self._reader = reader
        self.future: asyncio.Future[T] = asyncio.get_running_loop().create_future()
        next(reader)

    def take(self, line: str) -> bool:
        """Takes the reply's next line, and returns whether it was the last."""
        try:
            self._reader.send(line)
        except StopIteration as end:
            if not self.future.done():  # Else the call was cancelled: nobody wants the reply.
                self.future.set_result(end.value)
        except Refused as refused:
            self.fail(refused)
        else:
            return False
        return True

    def fail(self, fault: TukyamidError) -> None:
        """Has the call raise an error."""
        if not self.future.done():
            self.future.set_exception(fault)

    def give_up(self) -> None:
        """Says that nobody waits any longer."""
        if not self.future.cancel() and not self.future.cancelled():
            self.future.exception()  # It was raised, or nobody wants it.


class _Inflow:
    """A listing whose items are still coming. Once nobody holds the listing any more, they are passed over."""
    __slots__ = ("left", "_read", "_listing")

    def __init__(self, head: ListingHead, listing: Listing[object], forgotten: Callable[[], None]) -> None:
        self.left = head.count
        self._read = head.read
        self._listing = weakref.ref(listing, lambda _: forgotten())

    @property
    def is_full(self) -> bool:
        """Whether the listing has enough for now."""
        listing = self._listing()
        return self.left > 0 and listing is not None and listing.is_full

    def take(self, line: str) -> None:
        """Takes the next item's line."""
        self.left -= 1
        item, listing = self._read(line), self._listing()
        if listing is not None:
            listing.put(item)

    def fail(self, fault: TukyamidError) -> None:
        """Says that no further item comes."""
        listing = self._listing()
        if listing is not None and self.left:
            listing.fail(fault)


class Connection(Calls):
    """A connection of one event loop; its tasks may share it."""

    def __init__(self, reader: asyncio.StreamReader, writer: asyncio.StreamWriter) -> None:
        self._reader, self._writer = reader, writer
        self._conversation = Conversation()
        self._exchanges: deque[Exchange[object]] = deque()
        self._inflow: _Inflow | None = None
        self._may_read = asyncio.Event()
        self._has_input = asyncio.Event()
        self._fault: TukyamidError | None = None
        self._task = asyncio.get_running_loop().create_task(self._read())

    async def __aenter__(self) -> Self:
        return self

    async def __aexit__(self, *_: object) -> None:
        await self.close()

    @abstractmethod
    async def close(self) -> object:
        """Ends the connection."""

    @abstractmethod
    async def _end_error(self) -> TukyamidError:
        """What a call raises when the other side has ended, or this side was closed."""

    @abstractmethod
    def _abandon(self) -> None:
        """Has the other side end at once."""

    async def send_line(self, line: bytes, progress: Progress = no_progress) -> Reply | Listing[object] | None:
        if b"\n" in line:
            raise ValueError("a line holds no line feed")
        await self._check()
        if has_reply(line):
            reply: Reply | Listing[object] = await self._answered(self._post(line, progress))
            return reply
        self._writer.write(line + b"\n")
        await self._drain()
        return None

    async def told(self) -> list[Watched | Gone]:
        if self._conversation.watches:
            await self._check()
            await self._answered(self._put(PROBE + b"\n", self._conversation.probe()))
        self._has_input.clear()
        return self._conversation.take_watch_lines()

    def _answer_to(self, line: bytes, progress: Progress) -> Reader[Reply | Listing[object]]:
        """Reads a reply; of a listing the head, with which the connection begins to read its items."""
        reply = yield from self._conversation.reply_to(line, progress)
        if not isinstance(reply, ListingHead):
            return reply
        listing: Listing[object] = Listing(reply, self._may_read.set)
        self._inflow = _Inflow(reply, listing, self._may_read.set)
        return listing

    def _post(self, line: bytes, progress: Progress = no_progress) -> Exchange[Reply | Listing[object]]:
        """Sends a line that has a reply."""
        return self._put(self._conversation.octets_for(line), self._answer_to(line, progress))

    def _put(self, octets: bytes, reader: Reader[T]) -> Exchange[T]:
        """Sends octets that `reader` reads the reply to. So a line and its place in the order are one step."""
        exchange = Exchange(reader)
        self._exchanges.append(cast(Exchange[object], exchange))
        self._writer.write(octets)
        self._may_read.set()
        return exchange

    async def _answered(self, exchange: Exchange[T]) -> T:
        try:
            await self._drain()
            return await exchange.future
        finally:
            exchange.give_up()

    async def _close_output(self) -> None:
        """Says that nothing more comes, and waits until all that came back is read."""
        self._writer.close()
        self._may_read.set()
        await asyncio.wait([self._task])

    async def _check(self) -> None:
        if self._fault is not None:
            raise self._fault
        if self._writer.is_closing():
            raise await self._end_error()

    async def _drain(self) -> None:
        with contextlib.suppress(ConnectionError):  # The end shows where the replies are read.
            await self._writer.drain()

    async def _read(self) -> None:
        """Reads to the end of what comes, and then says so to all who wait."""
        fault: TukyamidError | None = None
        try:
            await self._read_all()
        except ConnectionError:
            pass
        except ProtocolError as error:
            fault = error
            self._abandon()
        self._fault = fault or await self._end_error()
        for exchange in self._exchanges:
            exchange.fail(self._fault)
        if self._inflow is not None:
            self._inflow.fail(self._fault)
        self._has_input.set()
        self._writer.close()

    async def _read_all(self) -> None:
        rest: list[bytes] = []
        while octets := await self._reader.read(PIECE):
            first, *others = octets.split(b"\n")
            rest.append(first)
            if not others:
                continue
            for line in (b"".join(rest), *others[:-1]):
                self._take(line.decode("latin-1"))
                await self._pause()
            rest = [others[-1]]

    async def _pause(self) -> None:
        """Waits while a listing has read enough ahead, and nobody waits for what comes behind it."""
        while self._inflow is not None and self._inflow.is_full and not self._exchanges \
                and not self._writer.is_closing():
            self._may_read.clear()
            await self._may_read.wait()

    def _take(self, line: str) -> None:
        if self._inflow is not None and self._inflow.left:
            self._inflow.take(line)
        elif not self._exchanges:
            self._conversation.take_watch_line(line)
        elif self._exchanges[0].take(line):
            self._exchanges.popleft()
        if self._conversation.has_watch_lines:
            self._has_input.set()
