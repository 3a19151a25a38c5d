"""A reader: a process that answers the clients that the service hands to it. It ends when the service does."""

from __future__ import annotations

import asyncio
import contextlib
import ctypes
import os
import signal
import socket
import sys

from ..child_processes import end_stopped
from ..engines.certificate_directory import Directory
from ..engines.framing import LineCutter
from ..event_loop import run
from ..keyring_files.keyring_updates import Keyrings
from ..paths_and_locks import default_directory
from ..sessions.client_rights import Rights
from ..sessions.own_answers import Answering
from ..sessions.tended_sessions import TendedSessions
from ..sessions.user_shares import Bounds, Shares, bounds
from ..storage.database import Actor, DatabaseFault
from ..storage.database_choice import Chosen
from ..storage.database_threads import Access, say
from .channel import Channel
from .published import Published
from .reader_intake import ReaderIntake
from .reader_session import ReaderAnswering, ReaderSession
from .reader_words import ReaderWords, read_client, read_words

_DIE_WITH_PARENT = 1  # PR_SET_PDEATHSIG
_LONGEST_PAUSE = 1.0


def main() -> int:
    words = read_words(sys.argv[1])
    for number in (signal.SIGTERM, signal.SIGINT):
        signal.signal(number, signal.SIG_IGN)  # The service says when a reader ends.
    ctypes.CDLL(None, use_errno=True).prctl(_DIE_WITH_PARENT, signal.SIGKILL)
    if os.getppid() != words.parent:
        return 1  # The service has ended before it was asked to take readers along.
    with contextlib.ExitStack() as stack:
        database = stack.enter_context(Chosen(words.database).read())
        order = stack.enter_context(open(words.order, "ab", buffering=0)) if words.order else None

        async def serve() -> None:
            await Reader(words, Access(database, order)).serve()

        run(serve)
    return 0


def begin() -> int:
    """As `main`; what prevents that is said in a line."""
    try:
        return main()
    except (DatabaseFault, OSError, ValueError) as error:
        say(f"a reader can't begin: {error}")
        return 1


class Reader:
    def __init__(self, words: ReaderWords, access: Access) -> None:
        self._words = words
        self._published = Published(words.published)
        self._line_intake = ReaderIntake([*words.program, "run"], words.engines, access, words.budget, words.max_age,
                                         self._published, words.is_sliced)
        most = bounds()
        self._shares = Shares(Bounds(most.clients, most.clients), self._line_intake.lag, words.readers)
        self._shares.has_others = words.has_others
        # What these are asked for is relayed to the service.
        directory = Directory([*words.program, "run"], default_directory())
        answering = Answering(self._line_intake, directory, Keyrings(self._line_intake, lambda: []), lambda: [])
        self._answering = ReaderAnswering(self._line_intake, answering)
        self._sessions = TendedSessions(self._line_intake, lambda session: None)
        self._beginning: set[asyncio.Task[object]] = set()
        self._end = asyncio.Event()

    async def serve(self) -> None:
        loop = asyncio.get_running_loop()
        loop.set_exception_handler(lambda _, context: say(f"{context['message']}: {context.get('exception')!r}"))
        feed = socket.socket(fileno=self._words.feed)
        self._control = Channel(socket.socket(fileno=self._words.control), self._received, _end_at_once)
        await loop.create_unix_connection(lambda: Following(self._line_intake), sock=feed)
        await self._line_intake.start()
        beside = [loop.create_task(end_stopped(self._line_intake.report)), loop.create_task(self._tend())]
        self._control.send(b"ready")
        await self._end.wait()
        await self._sessions.end()
        for task in beside:
            task.cancel()
        await self._line_intake.close()

    async def _tend(self) -> None:
        while True:
            await asyncio.sleep(min(_LONGEST_PAUSE, self._words.patience / 4))
            self._sessions.tend(self._words.patience)

    def _received(self, message: bytes, descriptor: int) -> None:
        word, _, text = message.partition(b" ")
        if word == b"client":
            self._let_in(text, socket.socket(fileno=descriptor))
        elif word == b"ping":
            self._control.send(b"pong")
        elif word == b"end":
            self._end.set()

    def _let_in(self, text: bytes, connected: socket.socket) -> None:
        client = read_client(text)
        rights = Rights(client.may_change, client.most_views,
                        None if client.users is None else frozenset(client.users))

        def made() -> ReaderSession:
            session = ReaderSession(client.number, self._line_intake, self._answering, rights, self._shares,
                                    self._sessions.add, self._connect)
            session.over.add_done_callback(lambda _: self._control.send(b"gone %d" % client.number))
            return session

        loop = asyncio.get_running_loop()
        connected.setblocking(False)
        task: asyncio.Task[object] = loop.create_task(loop.connect_accepted_socket(made, connected))
        self._beginning.add(task)
        task.add_done_callback(self._beginning.discard)

    def _connect(self, number: int, actor: Actor, may_change: bool) -> socket.socket:
        own, other = socket.socketpair()
        self._control.send(b"relay %d %d %d %d" % (number, actor.uid, actor.pid, may_change), other.detach())
        own.setblocking(False)
        return own


class Following(asyncio.Protocol):
    """What the service commits, as it comes."""

    def __init__(self, intake: ReaderIntake) -> None:
        self._line_intake = intake
        self._cutter = LineCutter(longest=float("inf"))

    def data_received(self, data: bytes) -> None:
        lines: list[tuple[int, bytes]] = []
        for line in self._cutter.cut(data):
            word, _, rest = (line or b"").partition(b" ")
            if word != b"sliced":
                lines.append((int(word), rest))
                continue
            self._line_intake.take(lines)
            self._line_intake.use_slices()
            lines = []
        if lines:
            self._line_intake.take(lines)

    def connection_lost(self, exc: Exception | None) -> None:
        _end_at_once()


def _end_at_once() -> None:
    """The service has ended: another one may make changes of which this process isn't notified."""
    os._exit(1)
