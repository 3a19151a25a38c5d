"""The end of a process that asyncio has started with pipes."""

from __future__ import annotations

import asyncio
import contextlib

_PIECE = 1 << 18
_SECONDS = 10.0


async def ended(process: asyncio.subprocess.Process) -> None:
    """Waits until a process that was killed has ended. asyncio's `wait` also waits for the end of the pipes, and it
    doesn't read on while nobody takes what has come: so what is left in them is taken, and dropped. If another process
    still holds a pipe, this is given up."""
    with contextlib.suppress(TimeoutError):
        async with asyncio.timeout(_SECONDS):
            for pipe in process.stdout, process.stderr:
                while pipe is not None and await pipe.read(_PIECE):
                    pass
            await process.wait()
