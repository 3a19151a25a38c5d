"""What answers depend on beside the question: the last change of the keyring, and what waits to be verified."""

from __future__ import annotations

import asyncio
import hashlib
from typing import NamedTuple

from ..client import aio
from ..protocol.refusals import Refused, RefusedReadOnly, ServiceEnded, TukyamidError
from .read_only_service import NOBODYS, MayChange

PATIENCE = 10.0


class State(NamedTuple):
    """A state of the keyring. Two states with one `token` give the same answers: it has the whole line of the last
    change, since a database that was restored may give the number of a change again."""
    change: int
    token: str
    waiting: str | None


class LastChange:
    """Reads it over a connection of its own. Whoever asks gets a state that was read after that, and all who ask
    meanwhile share one reading."""

    def __init__(self, socket: str) -> None:
        self._socket = socket
        self._client: aio.Client | None = None
        self._running: asyncio.Task[State] | None = None
        self._next: asyncio.Task[State] | None = None

    async def now(self) -> State:
        """The state. TukyamidError if the service can't be asked."""
        if self._next is None:
            self._next = asyncio.create_task(self._after(self._running))
            self._next.add_done_callback(_note_end)
        return await asyncio.shield(self._next)

    async def _after(self, running: asyncio.Task[State] | None) -> State:
        if running is not None:
            await asyncio.wait([running])
        self._running, self._next = self._next, None
        try:
            async with asyncio.timeout(PATIENCE):
                return await self._read()
        except BaseException as error:
            self._forget()
            if isinstance(error, TimeoutError):
                raise TukyamidError("the service doesn't answer") from None
            raise

    async def _read(self) -> State:
        """A connection that was kept may have ended with the service, which then is asked over another one."""
        is_kept = self._client is not None
        try:
            return await self._read_once()
        except ServiceEnded:
            if not is_kept:
                raise
            self._forget()
            return await self._read_once()

    async def _read_once(self) -> State:
        if self._client is None:
            self._client = await self._connect()
        changes = [one async for one in await self._client.log(1)]
        found = await self._client.unverified()
        waiting = None if found is None else str(found)
        last = tuple((one.number, one.time, one.user, one.process, one.what) for one in changes)
        digest = hashlib.blake2b(repr((last, waiting)).encode(), digest_size=9).hexdigest()
        number = changes[0].number if changes else 0
        return State(number, f"{number}-{digest}", waiting)

    async def _connect(self) -> aio.Client:
        client = await aio.connect(self._socket)
        try:
            await client.send_line(NOBODYS)
        except RefusedReadOnly:
            return client
        except Refused:
            pass
        client.end_at_once()
        raise MayChange(self._socket)

    def _forget(self) -> None:
        if self._client is not None:
            self._client.end_at_once()
            self._client = None

    async def close(self) -> None:
        self._forget()


def _note_end(task: asyncio.Task[State]) -> None:
    if not task.cancelled():
        task.exception()  # Whoever waited for it may have gone.
