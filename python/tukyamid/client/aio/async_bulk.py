"""Many lines at once, over the asynchronous connection: a bounded number is sent before their replies are read."""

from __future__ import annotations

from collections import deque
from collections.abc import AsyncIterable, AsyncIterator, Iterable, Iterator
from typing import BinaryIO

from ...protocol.refusals import Refused
from ...protocol.replies import Done, Reply, Taken
from ...protocol.spelling import has_reply
from .async_connection import Connection, Exchange
from .async_listing import Listing

AHEAD = 256

Lines = Iterable[bytes] | AsyncIterable[bytes]
Answer = Reply | Listing[object]


async def _each(lines: Lines) -> AsyncIterator[bytes]:
    """Lines, without their line feeds."""
    if isinstance(lines, AsyncIterable):
        async for line in lines:
            yield line.removesuffix(b"\n")
    else:
        for line in lines:
            yield line.removesuffix(b"\n")


def _all_with_reply(lines: Iterable[bytes]) -> Iterator[bytes]:
    """The lines; ValueError if one has no reply."""
    for line in lines:
        if not has_reply(line.removesuffix(b"\n")):
            raise ValueError("a line of the file has no reply")
        yield line


async def _outcome(exchange: Exchange[Answer]) -> Answer | Refused:
    try:
        return await exchange.future
    except Refused as refused:
        return refused


class Bulk(Connection):
    """A connection with the calls that send many lines."""

    async def run(self, lines: Lines) -> AsyncIterator[Answer | Refused]:
        """Sends lines one by one, and yields the reply to each that has one. A refusal is yielded here, not raised."""
        async for line in _each(lines):
            try:
                reply = await self.send_line(line)
            except Refused as refused:
                yield refused
            else:
                if reply is not None:
                    yield reply

    async def feed(self, lines: Lines) -> list[Refused]:
        """Sends many lines without waiting for each reply. Returns the refusals; each has the number of its line,
        `position`. If `lines` raises, the lines before it have been sent."""
        refused = []
        async for place, reply in self._replies_ahead(lines):
            if isinstance(reply, Refused):
                reply.position = place
                refused.append(reply)
        return refused

    async def restore(self, file: BinaryIO) -> bool:
        """Sends the lines of a file: lines `import` and `verdict`, as in a dump. Returns whether each was answered with
        `ok`; if not, the connection is ended."""
        async for _, reply in self._replies_ahead(_all_with_reply(file)):
            if not isinstance(reply, Done | Taken):
                self._abandon()
                return False
        return True

    async def _replies_ahead(self, lines: Lines) -> AsyncIterator[tuple[int, Answer | Refused]]:
        """Sends lines, and yields each reply with the number of its line, some lines later."""
        sent: deque[tuple[int, Exchange[Answer]]] = deque()
        place = 0
        try:
            async for line in _each(lines):
                place += 1
                await self._check()
                if has_reply(line):
                    sent.append((place, self._post(line)))
                    await self._drain()
                if len(sent) == AHEAD:
                    number, exchange = sent.popleft()
                    yield number, await _outcome(exchange)
            while sent:
                number, exchange = sent.popleft()
                yield number, await _outcome(exchange)
        finally:
            for _, exchange in sent:
                exchange.give_up()
