"""A client's connection from a reader to the service, for lines that may change something, and their replies."""

from __future__ import annotations

import asyncio
import socket
from collections import deque
from collections.abc import Callable
from typing import cast

from ..engines.framing import LineCutter

_PROGRESS = b"service progress "
Said = Callable[[bytes], None]


class Relay(asyncio.Protocol):
    """`connect` returns the reader's end of a connection to the service, and `lost` is called if that ends while lines
    aren't answered."""

    def __init__(self, connect: Callable[[], socket.socket], lost: Callable[[Exception], None]) -> None:
        self._connect = connect
        self._lost = lost
        self._transport: asyncio.Transport | None = None
        self._task: asyncio.Task[object] | None = None
        self._unsent: list[bytes] = []
        self._waiting: deque[tuple[Said, Said]] = deque()
        self._cutter = LineCutter(longest=float("inf"))
        self._reply: list[bytes] = []
        self._left = 0
        self._is_closed = False

    def send(self, line: bytes, done: Said, say: Said = lambda _: None) -> None:
        """Sends a line; `done` gets its reply, and `say` what comes before that."""
        self._waiting.append((done, say))
        if self._transport is not None:
            self._transport.write(line + b"\n")
            return
        self._unsent.append(line + b"\n")
        if self._task is None:
            loop = asyncio.get_running_loop()
            self._task = loop.create_task(loop.create_unix_connection(lambda: self, sock=self._connect()))

    def connection_made(self, transport: asyncio.BaseTransport) -> None:
        self._transport = cast(asyncio.Transport, transport)
        if self._is_closed:
            self._transport.abort()
            return
        self._transport.writelines(self._unsent)
        self._unsent.clear()

    def data_received(self, data: bytes) -> None:
        for line in self._cutter.cut(data):
            assert line is not None
            self._take(line + b"\n")

    def _take(self, line: bytes) -> None:
        if not self._left and line.startswith(_PROGRESS):
            self._waiting[0][1](line)
            return
        self._reply.append(line)
        self._left = self._left - 1 if self._left else _following(line)
        if not self._left:
            reply, self._reply = b"".join(self._reply), []
            self._waiting.popleft()[0](reply)

    def connection_lost(self, exc: Exception | None) -> None:
        if self._waiting and not self._is_closed:
            self._lost(ConnectionResetError("the service has ended the connection"))

    def close(self) -> None:
        """The client is gone."""
        self._is_closed = True
        if self._transport is not None:
            self._transport.abort()


def _following(first: bytes) -> int:
    """How many lines follow the first one of a reply."""
    words = first.split(b" ")
    return int(words[2]) if words[0] == b"service" else 0
