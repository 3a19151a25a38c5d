"""The lines of one client that have come, within the share of its user."""

from __future__ import annotations

import asyncio
from collections import deque

from tukyamid.protocol.spelling import has_reply

from ..engines.framing import LineCutter
from .command_kinds import COSTS, FIND, FREE, cost_of
from .outbox import Slot
from .user_shares import Share, Waiter

_LONG_LINE = 1 << 16  # Octets; longer ones are few at a time.


class Intake:
    """A client is read from while none of its lines waits to begin. A long line is taken from few clients of a user at
    a time, until it is answered. `lines` has None for one that was too long."""

    def __init__(self, share: Share, client: Waiter, transport: asyncio.Transport) -> None:
        self.lines: deque[bytes | None] = deque()
        self.share = share
        self._client = client
        self._transport = transport
        self._cutter = LineCutter()
        self._last_octets = 0.0
        self._kind = FREE
        self._is_paused = False
        self._is_held_up = False  # Until another long line is answered.
        self._has_long_line = False

    def take(self, data: bytes) -> None:
        self.lines.extend(line for line in self._cutter.cut(data) if line is None or has_reply(line))
        if self._cutter.unfinished > _LONG_LINE:
            self._last_octets = asyncio.get_running_loop().time()
            if not self._has_long_line:
                self._take_long_line()

    def has_room(self, word: bytes, line: bytes) -> bool:
        """Whether this line may begin now; if not, the client goes on once it may."""
        kind, share = COSTS.get(word, FREE), self.share
        self._kind = kind = cost_of(word, line) if kind == FIND else kind
        if share.left_of_round > 0 and share.under_way[kind] < share.most[kind]:
            return True  # As `Share.has_room`, for every line.
        return share.has_room(kind, self._client)

    def begin(self, slot: Slot) -> None:
        """The line that had room begins."""
        slot.kind, slot.share = self._kind, self.share
        self.share.begin(self._kind)

    def steer(self, under_way: int) -> None:
        """Reads on, or doesn't; `under_way` are the octets of lines that aren't answered."""
        if self._is_held_up:
            self._take_long_line()
        elif self._has_long_line and self._cutter.unfinished <= _LONG_LINE and not self.lines:
            if under_way <= _LONG_LINE:
                self._end_long_line()
        must_pause = bool(self.lines) or self._is_held_up
        if must_pause != self._is_paused and not self._transport.is_closing():
            self._is_paused = must_pause
            (self._transport.pause_reading if must_pause else self._transport.resume_reading)()

    def close(self) -> None:
        self.lines.clear()
        self._end_long_line()

    def _take_long_line(self) -> None:
        self._has_long_line = self.share.take_long_line(self._client)
        self._is_held_up = not self._has_long_line

    def _end_long_line(self) -> None:
        if self._has_long_line:
            self._has_long_line = False
            self.share.end_long_line()

    def holds_up_others(self, now: float, patience: float) -> bool:
        """Whether others wait for its long line, of which nothing has come for long."""
        return self._has_long_line and self.share.has_waiting and now - self._last_octets > patience
