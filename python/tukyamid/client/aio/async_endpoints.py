"""The other side of an asynchronous connection: a program that this one starts, or a service at a Unix socket."""

from __future__ import annotations

import asyncio
import contextlib
import os
from collections.abc import Iterable
from typing import TYPE_CHECKING

from ...protocol.refusals import EngineEnded, EngineMissing, ServiceEnded, ServiceForeign, ServiceMissing
from ..engine import program_words
from ..socket_peers import check_listener
from .async_bulk import Bulk
from .async_connection import PIECE
from .async_service_calls import ServiceCalls

if TYPE_CHECKING:
    from ..engine import Program


class Engine(Bulk):
    """A running program. `start` makes one."""

    def __init__(self, process: asyncio.subprocess.Process) -> None:
        assert process.stdin is not None and process.stdout is not None
        self._process = process
        super().__init__(process.stdout, process.stdin)

    async def close(self) -> int:
        """Ends the input, waits for the program's end, and returns its exit status; what it still writes is dropped."""
        await self._close_output()
        return await self._process.wait()

    async def _end_error(self) -> EngineEnded:
        return EngineEnded(await self._process.wait())

    def end_at_once(self) -> None:
        """Ends the program. A call that waits for it raises EngineEnded."""
        with contextlib.suppress(ProcessLookupError):
            self._process.kill()

    def _abandon(self) -> None:
        self.end_at_once()


class Client(Bulk, ServiceCalls):
    """A connection to a service. `connect` makes one."""

    async def close(self) -> None:
        """Ends the connection. What was sent before counts."""
        await self._close_output()

    async def wait(self, seconds: float) -> bool:
        """Waits until something comes that no call has asked for, as watch lines do. Whether it does in this time."""
        with contextlib.suppress(TimeoutError):
            async with asyncio.timeout(seconds):
                await self._has_input.wait()
        if not self._conversation.has_watch_lines:
            await self._check()
        return self._conversation.has_watch_lines

    async def _end_error(self) -> ServiceEnded:
        return ServiceEnded("the connection to the service has ended")

    def end_at_once(self) -> None:
        """Ends the connection. A call that waits for the service raises ServiceEnded."""
        self._writer.transport.abort()

    def _abandon(self) -> None:
        self._writer.close()


async def start(program: Program | None = None, arguments: Iterable[str] = ("run",)) -> Engine:
    """Starts the engine: `program` is its path, or a list of words; by default what `find_program` finds."""
    words = program_words(program)
    try:
        process = await asyncio.create_subprocess_exec(
            *words, *arguments, stdin=asyncio.subprocess.PIPE, stdout=asyncio.subprocess.PIPE, limit=PIECE)
    except OSError as error:
        raise EngineMissing(f"the engine can't be started: {words[0]}: {error.strerror}") from None
    return Engine(process)


async def connect(path: str | os.PathLike[str], user: int | None = None) -> Client:
    """Connects to the service that listens at a path. Raises ServiceMissing if none does, and ServiceForeign if it is
    neither the caller's own, nor the host's, nor that of `user`."""
    try:
        reader, writer = await asyncio.open_unix_connection(os.fspath(path), limit=PIECE)
    except OSError as error:
        raise ServiceMissing(f"no service at {os.fspath(path)!r}: {error.strerror or error}") from None
    try:
        check_listener(writer.get_extra_info("socket"), path, user)
    except ServiceForeign:
        writer.transport.abort()
        raise
    return Client(reader, writer)
