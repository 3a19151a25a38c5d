"""The changes of one client on their way to their place in the order of all lines."""

from __future__ import annotations

import asyncio
from collections.abc import Callable
from functools import partial

from ..engine_capacity import Capacity
from ..line_intake import LineIntake
from ..storage.database import Actor
from ..storage.journal import Done
from ..storage.read_ahead import LONG_LINE


class OwnChanges:
    """`resume` is called when lines behind a change may begin, and `give_up` when something fails."""

    def __init__(self, intake: LineIntake, number: int, resume: Callable[[], None],
                 give_up: Callable[[Exception], None]) -> None:
        self.actor = Actor(-1, -1)
        self.waiting = 0
        self.is_reading = False  # A long line, behind which all others wait.
        self._intake = intake
        self._number = number
        self._resume = resume
        self._give_up = give_up
        self._task: asyncio.Task[None] | None = None

    def begin(self, line: bytes, done: Done) -> None:
        self.waiting += 1
        if len(line) <= LONG_LINE:
            self._change(line, done)
        else:
            self.is_reading = True
            self._task = asyncio.get_running_loop().create_task(self._change_long(line, done))

    def _change(self, line: bytes, done: Done) -> None:
        self._intake.change(line, self.actor, done, partial(self._begun, line))

    async def _change_long(self, line: bytes, done: Done) -> None:
        """Has a long change made once another thread has read it."""
        try:
            await asyncio.to_thread(Capacity.read_ahead, line)
            self._change(line, done)
        except Exception as error:
            self._give_up(error)
            done(None, 0)
        finally:
            self.is_reading = False
        self._resume()

    def _begun(self, line: bytes) -> None:
        """A change has its place in the order, and so lines behind it may."""
        self.waiting -= 1
        if len(line) > LONG_LINE:
            Capacity.forget(line)
        self._intake.note_change(self._number, line)
        self._resume()
