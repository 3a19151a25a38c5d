"""The loop that a service runs in."""

from __future__ import annotations

import asyncio
import importlib
from collections.abc import Callable, Coroutine


def run(main_task: Callable[[], Coroutine[None, None, None]]) -> None:
    """Runs the loop of uvloop, where that is installed, since it is the quicker one."""
    try:
        uvloop = importlib.import_module("uvloop")
    except ImportError:
        asyncio.run(main_task())
        return
    with asyncio.Runner(loop_factory=uvloop.new_event_loop) as runner:
        runner.run(main_task())
