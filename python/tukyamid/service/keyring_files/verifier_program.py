"""One run of the verifier's program, by the lines that it writes."""

from __future__ import annotations

import asyncio
import contextlib
from collections.abc import AsyncGenerator, AsyncIterator, Sequence

from ..started_program import PIPE, start_program

PIECE = 1 << 18
LATE = 5  # Its exit status if it has left something.


class NotVerified(Exception):
    """The verifier isn't there, or has failed; the text says why."""


class VerifierRun:
    """The verifier at work on some questions. `status` is its exit status when its lines are over."""

    def __init__(self, words: Sequence[str], questions: bytes) -> None:
        self._words = words
        self._questions = questions
        self.status = 0

    async def lines(self) -> AsyncGenerator[list[bytes], None]:
        """Its verdicts, as many at once as have come."""
        try:
            verifier = await start_program(self._words, stderr=PIPE, limit=PIECE)
        except OSError as error:
            raise NotVerified(f"the verifier can't be started: {error}") from None
        assert verifier.stdin is not None and verifier.stdout is not None and verifier.stderr is not None
        loop = asyncio.get_running_loop()
        writing = loop.create_task(_pour(verifier.stdin, self._questions))
        said = loop.create_task(verifier.stderr.read())
        try:
            async for lines in lines_with(b"verdict ", verifier.stdout):
                yield lines
            await writing
            self.status = await verifier.wait()
            if self.status not in (0, 1, LATE):
                raise NotVerified(f"the verifier failed: {(await said).decode(errors='replace').strip()}")
        finally:
            writing.cancel()
            said.cancel()
            if verifier.returncode is None:
                verifier.kill()
                await verifier.wait()


async def _pour(stdin: asyncio.StreamWriter, octets: bytes) -> None:
    with contextlib.suppress(ConnectionError, RuntimeError):  # A RuntimeError is uvloop's: a closed pipe.
        stdin.write(octets)
        await stdin.drain()
        stdin.close()


async def lines_with(word: bytes, stdout: asyncio.StreamReader) -> AsyncIterator[list[bytes]]:
    """The verifier's lines that begin with a word, as many at once as have come."""
    rest = b""
    while octets := await stdout.read(PIECE):
        *lines, rest = (rest + octets).split(b"\n")
        yield [line for line in lines if line.startswith(word)]
