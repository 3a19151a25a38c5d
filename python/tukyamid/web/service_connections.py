"""The service that the page's questions go to. Each question has a connection of its own, so that its views are its
own, and none waits for another."""

import asyncio
import contextlib
import os
from collections.abc import AsyncIterator, Callable
from typing import TypeVar

from ..client import Client, aio, connect
from ..keyrings.keyring import Keyring
from ..keyrings.service_keyring import served_keyring
from ..protocol.refusals import ServiceMissing

T = TypeVar("T")
MOST_AT_ONCE = 4
MOST_LONG = 3
PATIENCE = 600.0


class ServiceConnections:
    """`start` starts the service again if it has ended."""

    def __init__(self, socket: str | os.PathLike[str], start: Callable[[], object]) -> None:
        self.socket = os.fspath(socket)
        self._start = start
        self._places = asyncio.Semaphore(MOST_AT_ONCE)
        self._long_places = asyncio.Semaphore(MOST_LONG)
        self._kept: Client | None = None
        self._asking: set[Client] = set()

    async def do(self, work: Callable[[Keyring], T], is_long: bool = False) -> T:
        """Does something with the service's keyring, in a thread."""
        return await self.ask(lambda client: work(served_keyring(client)), is_long)

    async def ask(self, work: Callable[[Client], T], is_long: bool = False) -> T:
        """Does something with a connection to the service, in a thread. What may take long has places of its own, so
        that no other question waits for it."""
        async with self._long_places if is_long else self._places:
            return await asyncio.get_running_loop().run_in_executor(None, lambda: self._ask(work))

    def _ask(self, work: Callable[[Client], T]) -> T:
        with self.connect() as client:
            self._asking.add(client)
            try:
                return work(client)
            finally:
                self._asking.discard(client)

    def connect(self) -> Client:
        try:
            return connect(self.socket, PATIENCE)
        except ServiceMissing:
            self._start()
            return connect(self.socket, PATIENCE)

    def keep(self) -> None:
        """Keeps a connection, so that the service doesn't end while the page is open."""
        self._kept = self.connect()

    def close(self) -> None:
        """Ends all connections, so that nothing waits for a long answer that nobody wants any more."""
        for client in list(self._asking):
            client.end_at_once()
        if self._kept is not None:
            self._kept.close()

    @contextlib.asynccontextmanager
    async def talking(self) -> AsyncIterator[aio.Client]:
        """A connection whose replies needn't be read to their ends."""
        try:
            client = await aio.connect(self.socket)
        except ServiceMissing:
            await asyncio.to_thread(self._start)
            client = await aio.connect(self.socket)
        try:
            yield client
        finally:
            await client.close()
