"""The processes that answer questions. Each answers one at a time; one that takes too long is ended, with all that it
has started, and another takes its place."""

from __future__ import annotations

import asyncio
import contextlib
import os
import signal
from collections.abc import Awaitable
from typing import NamedTuple, TypeVar

from ..own_processes import environment, words_of
from ..process_end import ended
from ..protocol.refusals import TukyamidError

T = TypeVar("T")
LONGEST = 1 << 20
MOST_WAITING = 256


class Reply(NamedTuple):
    """A status of HTTP, and the JSON of the answer or the error."""
    status: int
    body: bytes


class Refusal(TukyamidError):
    """A question that isn't answered now, though it may be later; `metric` names the reason in the metrics."""

    def __init__(self, metric: str, reason: str) -> None:
        super().__init__(reason)
        self.metric = metric


class _Worker:
    """One process, which is started when it is needed."""

    def __init__(self, socket: str) -> None:
        self._socket = socket
        self._process: asyncio.subprocess.Process | None = None

    async def ask(self, line: bytes) -> Reply:
        process = self._process or await self._start()
        assert process.stdin is not None and process.stdout is not None
        process.stdin.write(line)
        await process.stdin.drain()
        status, size = map(int, (await process.stdout.readline()).split())
        return Reply(status, await process.stdout.readexactly(size))

    async def _start(self) -> asyncio.subprocess.Process:
        self._process = await asyncio.create_subprocess_exec(
            *words_of("public.worker"), self._socket, stdin=asyncio.subprocess.PIPE, stdout=asyncio.subprocess.PIPE,
            stderr=asyncio.subprocess.DEVNULL, limit=LONGEST, start_new_session=True, env=environment())
        return self._process

    async def end(self) -> None:
        process, self._process = self._process, None
        if process is not None:
            with contextlib.suppress(ProcessLookupError):
                os.killpg(process.pid, signal.SIGKILL)
            await ended(process)


class Workers:
    """`count` processes; a question may take `seconds`, and may wait as long for a process."""

    def __init__(self, socket: str, count: int, seconds: float) -> None:
        self._free: asyncio.LifoQueue[_Worker] = asyncio.LifoQueue()
        self._all = [_Worker(socket) for _ in range(count)]
        for worker in self._all:
            self._free.put_nowait(worker)
        self._long = asyncio.Semaphore(max(1, count // 2))
        self._seconds = seconds
        self.waiting = self.busy = 0

    async def ask(self, line: bytes, is_long: bool) -> Reply:
        """The reply to a question. What is long has half of the processes at most. Refusal if there are too many
        questions, or if it takes too long."""
        if self.waiting >= MOST_WAITING:
            raise Refusal("crowded", "too many questions wait to be answered")
        self.waiting += 1
        try:
            if not is_long:
                return await self._answered(line)
            await self._in_time(self._long.acquire())
            try:
                return await self._answered(line)
            finally:
                self._long.release()
        finally:
            self.waiting -= 1

    async def _in_time(self, waited: Awaitable[T]) -> T:
        try:
            return await asyncio.wait_for(waited, self._seconds)
        except TimeoutError:
            raise Refusal("crowded", "too many questions are under way") from None

    async def _answered(self, line: bytes) -> Reply:
        worker = await self._in_time(self._free.get())
        self.busy, is_whole = self.busy + 1, False
        try:
            async with asyncio.timeout(self._seconds):
                reply = await worker.ask(line)
            is_whole = True
            return reply
        except TimeoutError:
            raise Refusal("costly", f"this question takes more than {self._seconds:g} seconds, and isn't answered "
                          "here; ask an installed tukyamid") from None
        except (ValueError, OSError, EOFError) as error:
            raise Refusal("ended", f"what answers questions has ended: {type(error).__name__}") from None
        finally:
            self.busy -= 1
            if not is_whole:
                await worker.end()
            self._free.put_nowait(worker)

    async def close(self) -> None:
        for worker in self._all:
            await worker.end()
