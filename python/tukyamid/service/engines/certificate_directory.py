"""The certificate directory. An engine of its own reads and writes it, so that one alone does: what it has loaded goes
to the other engines as an import."""

from __future__ import annotations

import asyncio
import contextlib
from collections.abc import Awaitable, Callable, Sequence
from pathlib import Path
from typing import TypeVar

from .conversation import EngineGone, Talk

_FAULT = b"fault shelf\n"
_TRIES = 6  # Programs may be killed from outside, several in a row.
_R = TypeVar("_R")


class Directory:
    """Loads and stores entries, one after another. Its engine holds one certificate at most, and only meanwhile: where
    a client ends in between, so does the engine, and the next one holds nothing."""

    def __init__(self, program: Sequence[str], folder: Path) -> None:
        self.lock = asyncio.Lock()
        self._talk = Talk([*program, str(folder)])

    async def load(self, line: bytes) -> tuple[bytes, bytes | None]:
        """The reply to a line `load ..` by an engine that holds nothing, and the octets of the entry, or None.
        DirectoryFailed if engines end at it again and again."""
        return await self._again(lambda: self._load(line))

    async def store(self, line: bytes, octets: bytes) -> bytes:
        """The reply to a line `store FPR` by an engine that holds this certificate. DirectoryFailed as for `load`."""
        return await self._again(lambda: self._store(line, octets))

    async def _load(self, line: bytes) -> tuple[bytes, bytes | None]:
        reply = await self._say(line)
        if not reply.startswith(b"ok"):
            return reply, None
        listed = await self._say(b"keys")
        fpr = listed.split(b"\n")[1].split(b" ")[1]
        exported = await self._say(b"export " + fpr)
        await self._say(b"drop " + fpr)
        return reply, bytes.fromhex(exported[7:-1].decode())

    async def _store(self, line: bytes, octets: bytes) -> bytes:
        reply = await self._say(b"import " + octets.hex().encode())
        if not reply.startswith(b"ok"):
            return reply
        reply = await self._say(line)
        await self._say(b"drop " + line.partition(b" ")[2])
        return reply

    async def _say(self, line: bytes) -> bytes:
        (reply,) = await self._talk.run([line])
        return reply

    async def _again(self, call: Callable[[], Awaitable[_R]]) -> _R:
        """Does what an engine may end at, some times. Loading changes nothing yet, and storing twice is storing once.
        """
        for _ in range(_TRIES):
            with contextlib.suppress(EngineGone):
                return await self._whole(call)
        raise DirectoryFailed

    async def _whole(self, call: Callable[[], Awaitable[_R]]) -> _R:
        """Does it all, or ends the engine: nobody else may meet what it holds, or a reply that nobody read."""
        try:
            return await call()
        except BaseException:
            await self.close()
            raise

    async def close(self) -> None:
        await self._talk.close()


class DirectoryFailed(Exception):
    """The engine that reads the directory has ended."""

    reply = _FAULT
