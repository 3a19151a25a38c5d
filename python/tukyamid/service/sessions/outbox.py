"""The replies of one client: in the order of their lines, and no faster than they are read."""

from __future__ import annotations

import asyncio
from collections import deque
from collections.abc import Callable, Generator

from .spooled_replies import Spooled, spooled
from .user_shares import Share

# A reply in pieces, which are taken as the client reads. The first piece of a generator has no octets: it is taken at
# once.
Generated = Generator[bytes, None, None]
Pieces = Generated | Spooled

_MOST_IN_MEMORY = 1 << 20


class Slot:
    """The place of a line's reply, or of a watch line, among the replies. `finish` makes the client's reply of
    the engine's, by the number of the last change before it."""
    __slots__ = ("word", "size", "watch", "reply", "is_answered", "finish", "kind", "share", "reports")

    def __init__(self, word: bytes, size: int) -> None:
        self.word = word
        self.size = size
        self.watch: bytes | None = None
        self.reply: bytes | Pieces | None = None
        self.is_answered = False
        self.finish: Callable[[bytes, int], bytes] | None = None
        self.kind = 0
        self.share: Share | None = None
        self.reports: bytes | None = None  # The watch whose line this is.

    def end(self) -> None:
        """The line no longer counts towards its user's share."""
        share, self.share = self.share, None
        if share is not None:
            share.end(self.kind)


class Outbox:
    """Slots in order. A reply that is long, or that comes in pieces, is written piece by piece as it is read."""

    def __init__(self, transport: asyncio.Transport, more: Callable[[], None],
                 give_up: Callable[[Exception], None]) -> None:
        """`more` is called when there is room, and `give_up` when a reply breaks off."""
        self.slots: deque[Slot] = deque()
        self.octets = 0
        self.can_write = True
        self._transport = transport
        self._more = more
        self._give_up = give_up
        self._loop = asyncio.get_running_loop()
        self._buffer: list[bytes] = []
        self._pump: Pieces | None = None
        self._written = 0
        self.pinned_since = float("inf")  # Since when a reply comes from the database as it was then.
        self.spooled = 0  # The octets of a reply in a file, of which not all is read.
        self.spooled_since = 0.0
        self._taken = (-1, 0.0)

    def add(self, slot: Slot) -> None:
        self.slots.append(slot)
        self.octets += slot.size

    def add_watch_line(self, watch: bytes, reply: bytes) -> None:
        """A watch line comes after the replies so far, but before the reply to a line of the same watch."""
        slot = Slot(b"watch", 0)
        slot.reply, slot.is_answered, slot.reports = reply, True, watch
        self._drop_outdated(watch)
        place = next((at for at, other in enumerate(self.slots) if other.watch == watch and not other.is_answered),
                     len(self.slots))
        self.slots.insert(place, slot)
        self.deliver()

    def _drop_outdated(self, watch: bytes) -> None:
        """A line of a watch that isn't written yet is out of date now, unless the watch began again."""
        for other in reversed(self.slots):
            if other.watch == watch:
                return
            if other.reports == watch:
                self.slots.remove(other)
                return

    def answer(self, slot: Slot, reply: bytes | Pieces | None) -> None:
        """The reply to a slot's line; None drops the client, whose line nobody could answer."""
        slot.reply, slot.is_answered = reply, True
        share = slot.share
        if share is not None:
            slot.share = None
            share.end(slot.kind)
        if not isinstance(reply, bytes) and isinstance(reply, Generator):
            self.pinned_since = self._loop.time()
        if self.slots and self.slots[0] is slot:
            self.deliver()

    def say(self, octets: bytes) -> None:
        """Writes what comes before the reply to the first line, and belongs to it."""
        self._write(octets)

    def deliver(self) -> None:
        """Writes the answered replies at the beginning of the row."""
        while self._pump is None and self.slots and self.slots[0].is_answered:
            if self.slots[0].reports is not None and not self.can_write:
                break  # Nobody reads: a later one may take its place.
            slot = self.slots.popleft()
            self.octets -= slot.size
            reply, slot.reply = slot.reply, None
            if reply is None:
                self.drop()
            elif isinstance(reply, bytes) and len(reply) <= _MOST_IN_MEMORY:
                self._write(reply)
            elif isinstance(reply, bytes):
                self._start_spooled(reply)
            else:
                self._start(reply)
        self._more()

    def drop(self) -> None:
        """Ends the connection at once."""
        self._transport.abort()

    def flush(self) -> None:
        if self._buffer and not self._transport.is_closing():
            self._transport.write(b"".join(self._buffer))
        self._buffer.clear()

    @property
    def is_done(self) -> bool:
        return not self.slots and self._pump is None

    def close(self) -> None:
        """The client is gone."""
        self.slots.clear()
        self._end_pump()

    def set_can_write(self, can_write: bool) -> None:
        self.can_write = can_write
        if can_write:
            self._run_pump()
            self.deliver()

    def drop_where_unread(self, now: float, patience: float) -> bool:
        """Drops a client that has taken no octet for `patience` seconds while there are some for it."""
        unread = self._transport.get_write_buffer_size()
        taken, since = self._taken
        if not unread or self._written - unread != taken:
            self._taken = self._written - unread, now
        elif now - since > patience:
            self.drop()
            return True
        return False

    def _write(self, octets: bytes) -> None:
        """Writes at the end of this round of the loop, with what else there is by then."""
        if self._transport.is_closing():
            return
        if not self._buffer:
            self._loop.call_soon(self.flush)
        self._written += len(octets)
        self._buffer.append(octets)

    def _start_spooled(self, reply: bytes) -> None:
        try:
            self._start(spooled(reply))
        except OSError as error:  # The disk is full. Without this reply, no later one would belong to its line.
            self._give_up(error)

    def _start(self, pump: Pieces) -> None:
        self.flush()
        if isinstance(pump, Spooled):
            self.spooled, self.spooled_since = pump.octets, self._loop.time()
        else:
            next(pump)
        self._pump = pump
        self._loop.call_soon(self._run_pump)

    def _run_pump(self) -> None:
        """Writes one piece; then other clients go on."""
        if self._pump is None or not self.can_write or self._transport.is_closing():
            return
        try:
            piece = next(self._pump, None)
        except Exception as error:
            self._give_up(error)
            return
        if piece is None:
            self._end_pump()
            self.deliver()
            return
        self._written += len(piece)
        self._transport.write(piece)
        if self.can_write:
            self._loop.call_soon(self._run_pump)

    def _end_pump(self) -> None:
        self.pinned_since, self.spooled = float("inf"), 0
        if self._pump is not None:
            self._pump.close()
            self._pump = None
