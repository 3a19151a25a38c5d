"""The end of the service: it begins at a signal, and has a bound, whatever the loop does."""

from __future__ import annotations

import asyncio
import contextlib
import os
import signal
import socket
import threading
import time
from collections.abc import Callable

from .child_processes import children, kill

_SIGNALS = (signal.SIGTERM, signal.SIGINT)
_MOST_SECONDS = 8.0  # Then the service ends without what hangs.
_LAST_SECONDS = 9.0  # Then the kernel ends the process.


class Ending:
    """A thread waits for the signal, because the loop may be held when it comes. From then on the process has some
    seconds: what is acknowledged is on the disk."""

    def __init__(self, report: Callable[[str], None]) -> None:
        self._report = report
        self._wakeup_end, self._wakeup = socket.socketpair()
        self._wakeup.setblocking(False)

    def watch(self, begun: Callable[[], None], clear: Callable[[], None]) -> None:
        """Has `begun` called in this thread's loop once the end begins, and `clear` before the process is ended. This
        is for the main thread."""
        signal.set_wakeup_fd(self._wakeup.fileno(), warn_on_full_buffer=False)
        for number in _SIGNALS:
            signal.signal(number, lambda *_: None)
        signal.signal(signal.SIGALRM, signal.SIG_DFL)
        loop = asyncio.get_running_loop()
        threading.Thread(target=self._wait, args=(loop, begun, clear), name="ending", daemon=True).start()

    def begin(self) -> None:
        """Begins the end, unless it has begun."""
        with contextlib.suppress(BlockingIOError):
            self._wakeup.send(b"\0")

    def _wait(self, loop: asyncio.AbstractEventLoop, begun: Callable[[], None], clear: Callable[[], None]) -> None:
        self._wakeup_end.recv(1)
        signal.setitimer(signal.ITIMER_REAL, _LAST_SECONDS)
        with contextlib.suppress(RuntimeError):  # The loop may have ended.
            loop.call_soon_threadsafe(begun)
        time.sleep(_MOST_SECONDS)
        try:
            for pid in children():
                kill(pid)
            clear()
            self._report(f"something didn't end within {_MOST_SECONDS:.0f} seconds; the service ends without it")
        finally:
            os._exit(0)
