"""The processes that the service has started: engines, the verifier, gpg. One that was stopped is ended, so that
whoever waits for it meets its end."""

from __future__ import annotations

import asyncio
import contextlib
import os
import signal
from collections.abc import Callable, Iterator
from pathlib import Path

_LOOK_SECONDS = 1.0
_STOPPED = "Tt"  # By a signal, or by a debugger.


def children(pid: int | None = None) -> Iterator[int]:
    """The process numbers of this process's children, or another's, whichever thread has started them."""
    with contextlib.suppress(OSError):  # It may have ended.
        for task in Path(f"/proc/{pid or 'self'}/task").iterdir():
            with contextlib.suppress(OSError):  # A thread may have ended meanwhile.
                yield from map(int, (task / "children").read_text().split())


def is_stopped(pid: int) -> bool:
    try:
        return Path(f"/proc/{pid}/stat").read_text().rpartition(")")[2].split()[0] in _STOPPED
    except (OSError, IndexError):
        return False


async def end_stopped(report: Callable[[str], None]) -> None:
    """Ends those that are stopped, and still are a second later; for ever."""
    before: set[int] = set()
    while True:
        stopped = {pid for pid in children() if is_stopped(pid)}
        for pid in stopped & before:
            report(f"process {pid} was stopped, and is ended")
            kill(pid)
        before = stopped
        await asyncio.sleep(_LOOK_SECONDS)


def kill(pid: int) -> None:
    with contextlib.suppress(ProcessLookupError):
        os.kill(pid, signal.SIGKILL)
