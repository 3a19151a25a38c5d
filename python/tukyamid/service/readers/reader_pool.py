"""The readers of a service: started, replaced when they end, sent every change, and handed clients."""

from __future__ import annotations

import asyncio
import os
import socket
import sys
from collections.abc import Callable, Sequence
from dataclasses import replace
from functools import partial
from pathlib import Path

from ..child_processes import children, kill
from ..sessions.client_rights import Rights, actor_of
from ..sessions.user_shares import Share, Shares
from ..started_program import StartedProgram, start_program
from ..storage.change_feed import Numbered
from ..storage.database import Actor
from .channel import Channel, pair
from .published import Published
from .reader_words import ClientWords, ReaderWords

_PAUSE, _LONGEST_PAUSE = 1.0, 30.0  # Seconds between starts; longer and longer while none gets ready.
_LONGEST_SILENCE = 30.0  # A machine may be very busy.
_LONGEST_END = 5.0
_MOST_UNREAD = 64 << 20  # Octets of changes that a reader hasn't taken.
# Has the service answer a relay's lines: its connection, the client's number, who that is, and whether it may change
# something.
Relayed = Callable[[socket.socket, int, Actor, bool], None]


class OneReader:
    """A reader that runs. `shares` are those of its clients' users, by the clients' numbers."""

    control: Channel
    process: StartedProgram | None = None

    def __init__(self, feed: asyncio.WriteTransport) -> None:
        self.feed = feed
        self.shares: dict[int, Share] = {}
        self.is_ready = self.was_ready = False
        self.last_message = asyncio.get_running_loop().time()

    def end(self) -> None:
        """It gets no clients any more."""
        self.is_ready = False

    def kill(self) -> None:
        if self.process is not None and self.process.returncode is None:
            kill(self.process.pid)


class ReaderPool:
    """`words` are those of each reader, but for its place and descriptors."""

    def __init__(self, words: ReaderWords, report: Callable[[str], None]) -> None:
        self.published = Published.made()
        self._words = words
        self._report = report
        self._readers: list[OneReader] = []
        self._tasks: list[asyncio.Task[None]] = []
        self._is_ending = False
        self._started = 0  # How many have been.

    def begin(self, shares: Shares, relayed: Relayed, count: int, is_sliced: bool) -> None:
        """Starts them; `count` is the number of the last change so far, and `is_sliced` whether the service holds the
        keyring in slices."""
        self._shares, self._relayed, self._is_sliced = shares, relayed, is_sliced
        self.published.number = max(self.published.number, count)
        loop = asyncio.get_running_loop()
        self._tasks = [loop.create_task(self._keep()) for _ in range(self._words.readers)]

    @property
    def is_used(self) -> bool:
        """Whether there are readers at all."""
        return self._words.readers > 0

    @property
    def pids(self) -> list[int]:
        """The process numbers of the readers and their engines."""
        own = [one.process.pid for one in self._readers if one.process is not None]
        return [*own, *(pid for one in own for pid in children(one))]

    @property
    def ready(self) -> int:
        return sum(one.is_ready for one in self._readers)

    @property
    def clients(self) -> int:
        return sum(len(one.shares) for one in self._readers)

    def hand_over(self, connected: socket.socket, number: int, rights: Rights) -> bool:
        """Hands a client to the reader that has the fewest; False if none is ready, or the user has too many."""
        reader = min((one for one in self._readers if one.is_ready), key=lambda one: len(one.shares), default=None)
        if reader is None:
            return False
        user = actor_of(connected.fileno()).uid
        share = self._shares.join(user)
        if share is None:
            return False
        reader.shares[number] = share
        users = None if rights.users is None else sorted(rights.users)
        client = ClientWords(number, rights.may_change, rights.most_views, users)
        reader.control.send(client.spelled(), connected.detach())
        return True

    def made(self, lines: Numbered) -> None:
        """Publishes changes, before anybody gets a reply that rests on them, and has all readers take them."""
        if not lines:
            return
        self.published.number = max(self.published.number, lines[-1][0])
        if self._readers:
            self._write(b"".join([b"%d %s\n" % one for one in lines]))

    def sliced(self) -> None:
        self._is_sliced = True
        self._write(b"sliced\n")

    def replaced(self, number: int) -> None:
        """Other readers take the place of these; their clients are disconnected."""
        for one in self._readers:
            one.kill()
        self.published.number = number

    def _write(self, octets: bytes) -> None:
        for one in self._readers:
            if not one.feed.is_closing():
                one.feed.write(octets)

    def tend(self) -> None:
        """Ends readers that don't answer, or take no changes."""
        now = asyncio.get_running_loop().time()
        for one in self._readers:
            is_silent = one.is_ready and now - one.last_message > _LONGEST_SILENCE
            if is_silent or one.feed.get_write_buffer_size() > _MOST_UNREAD:
                self._report("a reader that doesn't go on is ended")
                one.kill()
            elif one.is_ready:
                one.control.send(b"ping")

    async def end(self) -> None:
        """Has them answer what was taken, and end."""
        self._is_ending = True
        for one in self._readers:
            one.control.send(b"end")
        if self._tasks:
            await asyncio.wait(self._tasks, timeout=_LONGEST_END)
        for one in self._readers:
            one.kill()
        await asyncio.gather(*self._tasks, return_exceptions=True)

    async def _keep(self) -> None:
        """Runs one reader after another."""
        loop, pause = asyncio.get_running_loop(), _PAUSE
        while not self._is_ending:
            begun, was_ready = loop.time(), False
            try:
                was_ready = await self._run()
            except OSError as error:
                self._report(f"a reader can't be started: {error}")
            pause = _PAUSE if was_ready else min(2 * pause, _LONGEST_PAUSE)
            if not self._is_ending:
                await asyncio.sleep(max(0.0, begun + pause - loop.time()))

    async def _run(self) -> bool:
        """Runs one, and gives whether it got ready. Its feed has all changes from before its start on, so that it
        misses none."""
        control, other_control = pair()
        feed, other_feed = socket.socketpair()
        feed.setblocking(False)
        with other_control, other_feed:
            transport, _ = await asyncio.get_running_loop().create_unix_connection(asyncio.Protocol, sock=feed)
            reader = OneReader(transport)
            reader.control = Channel(control, partial(self._received, reader), reader.end)
            self._readers.append(reader)
            try:
                reader.process = await self._start(other_control.fileno(), other_feed.fileno())
                other_control.close()
                other_feed.close()
                await reader.process.wait()
            finally:
                self._forget(reader)
        return reader.was_ready

    async def _start(self, control: int, feed: int) -> StartedProgram:
        self._started += 1
        order = self._words.order and f"{self._words.order}.{self._started}"
        words = replace(self._words, parent=os.getpid(), control=control, feed=feed, order=order,
                        published=self.published.descriptor, has_others=self._shares.has_others,
                        is_sliced=self._is_sliced)
        return await start_program([*_command(), words.spelled()], stdin=None, stdout=None,
                                   inherited=(control, feed, self.published.descriptor))

    def _forget(self, reader: OneReader) -> None:
        self._readers.remove(reader)
        if not self._is_ending and reader.process is not None:
            self._report(f"reader {reader.process.pid} has ended with {len(reader.shares)} clients; "
                         "another one takes its place")
        for share in reader.shares.values():
            self._shares.leave(share)
        reader.shares.clear()
        reader.control.close()
        reader.feed.abort()

    def _received(self, reader: OneReader, message: bytes, descriptor: int) -> None:
        reader.last_message = asyncio.get_running_loop().time()
        word, *numbers = message.split(b" ")
        if word == b"ready":
            reader.is_ready = reader.was_ready = True
        elif word == b"gone":
            share = reader.shares.pop(int(numbers[0]), None)
            if share is not None:
                self._shares.leave(share)
        elif word == b"relay":
            number, uid, pid, may_change = map(int, numbers)
            self._relayed(socket.socket(fileno=descriptor), number, Actor(uid, pid), bool(may_change))


def _command() -> Sequence[str]:
    """What starts a reader, with this package, wherever it is, and nothing of the directory that it is started in."""
    package = str(Path(__file__).resolve().parents[3])
    return [sys.executable, "-P", "-c", f"import sys; sys.path.insert(0, {package!r}); "
            "from tukyamid.service.readers.reader_process import begin; sys.exit(begin())"]
