"""The service: its sockets, its clients, its end."""

from __future__ import annotations

import asyncio
import os
import socket
from collections.abc import Sequence
from dataclasses import dataclass
from functools import partial
from pathlib import Path
from typing import Any

from tukyamid.version import VERSION

from .accepting import Acceptor
from .child_processes import end_stopped
from .ending import Ending
from .engines.certificate_directory import Directory
from .keyring_files.keyring_updates import Keyrings
from .line_intake import LineIntake
from .listening_sockets import Listening, Passed, notify
from .readers.reader_pool import ReaderPool
from .readers.relay_session import RelaySession
from .sessions.client_rights import Rights
from .sessions.own_answers import Answering
from .sessions.session import Session
from .sessions.tended_sessions import TendedSessions
from .sessions.user_shares import Shares, bounds
from .storage.database import Actor
from .storage.shared_database import Shared

_BETWEEN_CONFIRMATIONS = 0.2  # Seconds.


@dataclass(frozen=True)
class Settings:
    """Bounds of a service: after how many seconds a client that doesn't read is dropped, and a service that nobody uses
    ends (never, where that is None)."""
    patience: float
    idle: float | None
    most_views: int


@dataclass(frozen=True)
class Door:
    """A socket, and what its clients may do."""
    listening: Listening | Passed
    may_change: bool


class Service:
    def __init__(self, intake: LineIntake, keyrings: Keyrings, directory: Directory, settings: Settings,
                 pool: ReaderPool, ending: Ending) -> None:
        self._intake = intake
        self._keyrings = keyrings
        self._directory = directory
        self._settings = settings
        self._shares = Shares(bounds(), intake.lag)
        self._ending = ending
        self._answering = Answering(intake, directory, keyrings, self._status)
        self._sessions, self._relayed = TendedSessions(intake, self._closed), TendedSessions(intake, self._closed)
        self._pool = pool
        self._count = 0
        self._relays: set[asyncio.Task[object]] = set()
        self._end = asyncio.Event()
        self._last_used = 0.0
        self._file = _own_file()
        self._doors: Sequence[Door] = ()

    async def serve(self, doors: Sequence[Door]) -> None:
        """Serves clients of these sockets until SIGTERM, SIGINT, or until nobody has used it for long."""
        loop = asyncio.get_running_loop()
        loop.set_exception_handler(self._report_exception)
        self._ending.watch(self._begin_end, self._remove_sockets)
        self._doors = doors
        self._shares.has_others = any(door.listening.users is None for door in doors)
        warden = loop.create_task(end_stopped(self._intake.report))
        try:
            if not await self._is_started():
                return
            for door in doors:
                door.listening.open()
            acceptor = Acceptor(self._shares.has_room, self._intake.report)
            for door in doors:
                acceptor.listen(door.listening.socket, partial(self._serve, self._rights(door)))
            is_sliced = self._intake.loaded is not None
            self._pool.begin(self._shares, self._serve_relayed, self._intake.held.count, is_sliced)
            notify("READY=1")
            self._last_used = loop.time()
            loading = loop.create_task(self._intake.load())
            loading.add_done_callback(self._loaded)
            beside = [loop.create_task(work) for work in (
                self._look_around(), self._keyrings.watch(), self._answering.learn(), self._confirm())]
            await self._end.wait()
            self._begin_end()
            notify("STOPPING=1")
            await self._take_no_more(acceptor)
            await loading
            for task in beside:
                task.cancel()
            await asyncio.gather(*beside, return_exceptions=True)
            await self._pool.end()
            await self._sessions.end()
        finally:
            self._begin_end()
            await self._directory.close()
            await self._intake.close()
            warden.cancel()

    def _begin_end(self) -> None:
        self._end.set()
        self._ending.begin()

    def _remove_sockets(self) -> None:
        for door in self._doors:
            door.listening.remove()

    async def _is_started(self) -> bool:
        """Waits until there is an engine; False if the service is to end before."""
        loop = asyncio.get_running_loop()
        starting, ended = loop.create_task(self._intake.start()), loop.create_task(self._end.wait())
        done, _ = await asyncio.wait((starting, ended), return_when=asyncio.FIRST_COMPLETED)
        ended.cancel()
        if starting in done:
            await starting
            return True
        starting.cancel()
        await asyncio.wait((starting,))
        return False

    def _loaded(self, loading: asyncio.Task[None]) -> None:
        """A keyring that no engine can load is the end, also for those who asked before that was known."""
        if not loading.cancelled() and loading.exception() is not None:
            self._end.set()

    def _report_exception(self, loop: asyncio.AbstractEventLoop, context: dict[str, Any]) -> None:
        """What nobody has caught is one line for people, and no end of the service."""
        self._intake.report(f"{context['message']}: {context.get('exception')!r}")

    async def _serve(self, rights: Rights, connected: socket.socket) -> None:
        """Serves a client here, unless a reader does."""
        self._count += 1
        if not self._pool.hand_over(connected, self._count, rights):
            session = Session(self._count, self._intake, self._answering.answer, rights, self._shares,
                              self._sessions.add)
            await asyncio.get_running_loop().connect_accepted_socket(lambda: session, connected)

    def _serve_relayed(self, connected: socket.socket, number: int, actor: Actor, may_change: bool) -> None:
        """Answers the lines that a reader passes on for a client of its own."""
        connected.setblocking(False)
        session = RelaySession(number, self._intake, self._answering.answer, may_change, self._shares,
                               self._relayed.add, actor)
        loop = asyncio.get_running_loop()
        task: asyncio.Task[object] = loop.create_task(loop.connect_accepted_socket(lambda: session, connected))
        self._relays.add(task)
        task.add_done_callback(self._relays.discard)

    def _rights(self, door: Door) -> Rights:
        return Rights(door.may_change, self._settings.most_views, door.listening.users)

    def _closed(self, session: Session) -> None:
        self._last_used = asyncio.get_running_loop().time()

    async def _look_around(self) -> None:
        """Drops those who never read, and ends a service that nobody uses."""
        loop = asyncio.get_running_loop()
        idle, patience = self._settings.idle, self._settings.patience
        pause = min(1.0, patience / 4, *([idle / 4] if idle is not None else []))
        while True:
            await asyncio.sleep(pause)
            now = loop.time()
            self._sessions.tend(patience)
            if len(self._relayed):
                self._relayed.tend(patience)
            self._pool.tend()
            if len(self._sessions) or self._pool.clients or self._keyrings.is_busy:
                self._last_used = now
            elif idle is not None and now - self._last_used > idle or self._is_upgraded():
                self._end.set()

    async def _confirm(self) -> None:
        """Has readers know how old their answers may be, whose database others change too."""
        while self._pool.is_used and isinstance(self._intake.database, Shared):
            self._pool.published.confirm(None if self._intake.standby is None else self._intake.age)
            await asyncio.sleep(_BETWEEN_CONFIRMATIONS)

    def _is_upgraded(self) -> bool:
        """Whether another version was installed since this one began, and whoever comes next starts that."""
        is_started_again = self._settings.idle is not None or any(
            isinstance(door.listening, Passed) for door in self._doors)
        return is_started_again and _own_file() != self._file

    async def _take_no_more(self, acceptor: Acceptor) -> None:
        """Closes the sockets. Who has connected by then is served: first nobody new finds the file, then those that
        wait are let in."""
        self._remove_sockets()
        await asyncio.sleep(0.05)  # The loop lets in who waits.
        acceptor.close()

    def _status(self) -> list[tuple[str, object]]:
        pids, loaded = self._intake.pids, self._intake.loaded
        return [("budget", self._intake.budget), ("loaded", "all" if loaded is None else loaded),
                ("engines", len(pids)), ("memory", sum(map(_resident, [os.getpid(), *pids, *self._pool.pids]))),
                ("clients", len(self._sessions) + self._pool.clients), ("readers", self._pool.ready),
                ("process", os.getpid()),
                ("database", self._intake.database.name), ("state", self._intake.state),
                ("age", int(self._intake.age)), ("version", VERSION), *self._status_of_shared()]

    def _status_of_shared(self) -> list[tuple[str, object]]:
        if not isinstance(self._intake.database, Shared):
            return []
        return [("confirmed-by", self._intake.standby or "-"), ("ledger", self._intake.database.ledger_fault or "ok")]


def _own_file() -> tuple[int, int]:
    """Which file this module is now; an upgrade puts another in its place."""
    try:
        found = os.stat(__file__)
    except OSError:
        return 0, 0  # It is being replaced.
    return found.st_ino, found.st_mtime_ns


def _resident(pid: int) -> int:
    """How many octets of memory a process holds; 0 where it has ended."""
    try:
        return int(Path(f"/proc/{pid}/statm").read_text().split()[1]) * os.sysconf("SC_PAGE_SIZE")
    except (OSError, IndexError):
        return 0
