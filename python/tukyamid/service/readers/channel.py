"""Small messages between the service and a reader, each with a descriptor or without."""

from __future__ import annotations

import asyncio
import os
import socket
from collections import deque
from collections.abc import Callable

_LONGEST = 1 << 16
_AT_ONCE = 64


class Channel:
    """One end of a pair of sockets. `received` gets each message with its descriptor, or -1; `ended` is called when the
    other end is closed."""

    def __init__(self, connection: socket.socket, received: Callable[[bytes, int], None],
                 ended: Callable[[], None]) -> None:
        self._connection = connection
        self._received = received
        self._ended = ended
        self._loop = asyncio.get_running_loop()
        self._waiting: deque[tuple[bytes, int]] = deque()
        connection.setblocking(False)
        self._loop.add_reader(connection.fileno(), self._read)

    def send(self, message: bytes, descriptor: int = -1) -> None:
        """Sends a message; its descriptor is closed here once it is sent."""
        self._waiting.append((message, descriptor))
        if len(self._waiting) == 1:
            self._write()

    def _write(self) -> None:
        while self._waiting:
            message, descriptor = self._waiting[0]
            try:
                socket.send_fds(self._connection, [message], [descriptor] if descriptor >= 0 else [])
            except (BlockingIOError, InterruptedError):
                self._loop.add_writer(self._connection.fileno(), self._go_on)
                return
            except OSError:
                self.close()  # The other end is gone, as reading from it shows too.
                self._ended()
                return
            self._waiting.popleft()
            if descriptor >= 0:
                os.close(descriptor)

    def _go_on(self) -> None:
        self._loop.remove_writer(self._connection.fileno())
        self._write()

    def _read(self) -> None:
        for _ in range(_AT_ONCE):
            try:
                message, descriptors, _, _ = socket.recv_fds(self._connection, _LONGEST, 1)
            except (BlockingIOError, InterruptedError):
                return
            except OSError:
                message, descriptors = b"", []
            if not message:
                self.close()
                self._ended()
                return
            self._received(message, descriptors[0] if descriptors else -1)
            if self._connection.fileno() < 0:
                return  # Closed by whoever got the message.

    def close(self) -> None:
        if self._connection.fileno() >= 0:
            self._loop.remove_reader(self._connection.fileno())
            self._loop.remove_writer(self._connection.fileno())
            self._connection.close()
        for _, descriptor in self._waiting:
            if descriptor >= 0:
                os.close(descriptor)
        self._waiting.clear()


def pair() -> tuple[socket.socket, socket.socket]:
    """The two ends of a channel."""
    return socket.socketpair(socket.AF_UNIX, socket.SOCK_SEQPACKET)
