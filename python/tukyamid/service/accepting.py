"""Lets connections in: one of each user in turn, so that whoever connects again and again holds up nobody else."""

from __future__ import annotations

import asyncio
import socket
from collections import deque
from collections.abc import Callable, Coroutine
from contextlib import suppress
from functools import partial

from ..client.socket_peers import peer_of
from .sessions.client_rights import NOBODY
from .sessions.command_kinds import REFUSED_CLIENTS
from .user_accounts import account_of

_TAKEN_AT_ONCE = 128  # Each costs some 20 us.
_BEGUN_AT_ONCE = 8    # Each costs some 0.5 ms.
_PAUSE = 1.0

# Serves a connection that was let in.
Serve = Callable[[socket.socket], Coroutine[None, None, None]]
_Waiting = tuple[socket.socket, Serve]


class Acceptor:
    """Takes connections from sockets, which listen already, and has `serve` serve them. `has_room` says whether a user
    may have one more client, after that many of its own and that many of all that aren't served yet."""

    def __init__(self, has_room: Callable[[int, int, int], bool], report: Callable[[str], None]) -> None:
        self._has_room, self._report = has_room, report
        self._loop = asyncio.get_running_loop()
        self._waiting: dict[int, deque[_Waiting]] = {}
        self._unserved = 0  # How many wait.
        self._beginning: set[asyncio.Task[object]] = set()
        self._sockets: list[socket.socket] = []
        self._is_scheduled = False

    def listen(self, listening: socket.socket, serve: Serve) -> None:
        listening.setblocking(False)
        self._sockets.append(listening)
        self._loop.add_reader(listening.fileno(), self._take, listening, serve)

    def close(self) -> None:
        """Takes no more. Who waits to be served is disconnected."""
        for listening in self._sockets:
            if listening.fileno() >= 0:
                self._loop.remove_reader(listening.fileno())
                listening.close()
        for connected, _ in [one for waiting in self._waiting.values() for one in waiting]:
            connected.close()
        self._waiting.clear()

    def _take(self, listening: socket.socket, serve: Serve) -> None:
        for _ in range(_TAKEN_AT_ONCE):
            try:
                connected, _ = listening.accept()
            except (BlockingIOError, InterruptedError, ConnectionAbortedError):
                return
            except OSError as error:  # Too many files are open.
                self._report(f"no connection can be taken: {error}")
                self._loop.remove_reader(listening.fileno())
                self._loop.call_later(_PAUSE, self._go_on, listening, serve)
                return
            self._let_wait(connected, serve)

    def _go_on(self, listening: socket.socket, serve: Serve) -> None:
        if listening.fileno() >= 0:
            self._loop.add_reader(listening.fileno(), self._take, listening, serve)

    def _let_wait(self, connected: socket.socket, serve: Serve) -> None:
        connected.setblocking(False)
        if _is_gone(connected):
            connected.close()
            return
        user = _user_of(connected)
        waiting = self._waiting.get(user, ())
        if not self._has_room(user, len(waiting), self._unserved + len(self._beginning)):
            _refuse(connected)
            return
        self._waiting.setdefault(user, deque()).append((connected, serve))
        self._unserved += 1
        self._begin_soon()

    def _begin_soon(self) -> None:
        if self._waiting and not self._is_scheduled:
            self._is_scheduled = True
            self._loop.call_soon(self._begin_some)

    def _begin_some(self) -> None:
        """Begins with the first of each user, and once more if there are few users."""
        self._is_scheduled = False
        begun = 0
        while self._waiting and begun < _BEGUN_AT_ONCE:
            for user in list(self._waiting):
                self._begin(*self._waiting[user].popleft())
                begun += 1
                if not self._waiting[user]:
                    del self._waiting[user]
        self._begin_soon()

    def _begin(self, connected: socket.socket, serve: Serve) -> None:
        self._unserved -= 1
        task: asyncio.Task[object] = self._loop.create_task(serve(connected))
        self._beginning.add(task)
        task.add_done_callback(partial(self._has_begun, connected))

    def _has_begun(self, connected: socket.socket, task: asyncio.Task[object]) -> None:
        self._beginning.discard(task)
        if not task.cancelled() and task.exception() is not None:
            self._report(f"a connection can't be served: {task.exception()!r}")
            self._end(connected)

    def _end(self, connected: socket.socket) -> None:
        """Ends a connection, which may have a transport by now. Closed under its transport, the descriptor would go to
        a later connection, which the loop would then never read. So the transport reads the end, and closes it."""
        with suppress(OSError):
            connected.shutdown(socket.SHUT_RDWR)
        self._loop.call_later(_PAUSE, connected.close)


def _is_gone(connected: socket.socket) -> bool:
    """Whether a client has closed its connection without a word."""
    try:
        return not connected.recv(1, socket.MSG_PEEK)
    except BlockingIOError:
        return False
    except OSError:
        return True


def _user_of(connected: socket.socket) -> int:
    try:
        return account_of(peer_of(connected).user)
    except OSError:
        return NOBODY


def _refuse(connected: socket.socket) -> None:
    try:
        connected.send(REFUSED_CLIENTS)
    except OSError:
        pass
    connected.close()
