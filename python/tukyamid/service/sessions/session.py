"""One client's connection: its lines in, their replies out."""

from __future__ import annotations

import asyncio
from collections.abc import Callable, Coroutine
from functools import partial
from typing import cast

from ..line_intake import LineIntake
from ..sliced.sliced_keyring import Sliced
from ..storage.database import Actor, Snapshot
from ..storage.group_commit import FAULT
from .client_rights import NOBODY, Rights, actor_of
from .command_kinds import (ALONE, CHANGES, MAY_CHANGE, OF_A_VIEW, OF_THE_DIRECTORY, OF_THE_KEYRING, QUESTIONS,
                            REFUSED_CLIENTS, REFUSED_LINE, REFUSED_LONG, REFUSED_READ_ONLY, WITHOUT_EFFECT)
from .cursors import Cursors
from .long_replies import dump_of
from .incoming_lines import Intake
from .outbox import Outbox, Pieces, Slot
from .own_changes import OwnChanges
from .user_shares import Joining
from .views import Views, is_name
from .watches import Watches

# Does the lines that the service itself answers, and those of the certificate directory.
Helper = Callable[["Session", Slot, bytes], Coroutine[None, None, None]]
_MOST_LINES, _MOST_OCTETS, _UNREAD_OCTETS = 64, 1 << 20, 1 << 17
# All sessions share it, as what was read is taken at once. Few octets: they may be thousands of lines.
_BUFFER = bytearray(1 << 15)


class Session(asyncio.BufferedProtocol):
    """Takes lines and hands them on at once, up to a bound; replies go out in the order of their lines."""

    def __init__(self, number: int, line_intake: LineIntake, helper: Helper, rights: Rights, shares: Joining,
                 made: Callable[[Session], None]) -> None:
        """`made` is called once the connection is there."""
        self.number = number
        self.line_intake = line_intake
        self.rights = rights
        self.actor = Actor(NOBODY, NOBODY)
        self._loop = asyncio.get_running_loop()
        self.over: asyncio.Future[None] = self._loop.create_future()
        self._helper = helper
        self._made = made
        self._shares = shares
        self._views = Views(rights.most_views)
        self._changes = OwnChanges(line_intake, number, self._begin_lines, self._give_up)
        self._is_beginning = self._is_ended = False
        self._task: asyncio.Task[None] | None = None

    def connection_made(self, transport: asyncio.BaseTransport) -> None:
        self._transport = cast(asyncio.Transport, transport)  # uvloop's is one by what it does, not by its class.
        self._transport.set_write_buffer_limits(high=_UNREAD_OCTETS)
        self.actor = self._changes.actor = self._peer()
        self.outbox = Outbox(self._transport, self._begin_lines, self._give_up)
        share = self._shares.join(self.actor.uid)
        if share is None:
            self._transport.write(REFUSED_CLIENTS)
            self._transport.close()
            return
        self._views.budget = share.views
        self.intake = Intake(share, self, self._transport)
        self.watches = self.line_intake.watches(self.outbox, self._views, share)
        self.cursors = self.line_intake.cursors(self._views, share)
        self.line_intake.clients.add(self)
        self._made(self)
        if not self.rights.admit(self.actor):
            self._give_up(PermissionError(f"user {self.actor.uid} may not use this socket"))

    def _peer(self) -> Actor:
        return actor_of(self._transport.get_extra_info("socket").fileno())

    def get_buffer(self, sizehint: int) -> bytearray:
        return _BUFFER

    def buffer_updated(self, nbytes: int) -> None:
        if not self._transport.is_closing():
            self.intake.take(bytes(memoryview(_BUFFER)[:nbytes]))
            self._begin_lines()

    def eof_received(self) -> bool:
        """Behind the last line feed is no line: its sender may have died within it."""
        self.stop()
        return True

    def pause_writing(self) -> None:
        self.outbox.set_can_write(False)

    def resume_writing(self) -> None:
        self.outbox.set_can_write(True)

    def connection_lost(self, exc: Exception | None) -> None:
        self._is_ended = True
        self.outbox.close()
        if self._task is not None:
            self._task.cancel()
        if self in self.line_intake.clients:
            self.line_intake.clients.discard(self)
            self.watches.close()
            self.cursors.close()
            self.intake.close()
            self._views.close()
            self._shares.leave(self.intake.share)
        if not self.over.done():
            self.over.set_result(None)

    def use_slices(self, sliced: Sliced) -> None:
        """The keyring is sliced from now on."""
        assert isinstance(self.watches, Watches) and isinstance(self.cursors, Cursors)
        self.watches, self.cursors = self.watches.over_slices(sliced), self.cursors.over_slices(sliced)

    def resume(self) -> None:
        self._begin_lines()

    def stop(self, is_at_once: bool = False) -> None:
        """Takes no more lines; those taken are answered. At once: those that wait to be taken aren't."""
        self._is_ended = True
        if is_at_once:
            self.intake.lines.clear()
            self._transport.pause_reading()
        self._begin_lines()

    def _begin_lines(self) -> None:
        """Takes lines while there is room."""
        if self._is_beginning:
            return
        self._is_beginning, lines = True, self.intake.lines
        try:
            while lines and self.outbox.can_write and self._has_room(lines[0] or b""):
                self._begin(lines.popleft())
        except Exception as error:  # Whatever one client meets, the others go on.
            self._give_up(error)
        finally:
            self._is_beginning = False
        if self._is_ended and not lines and self.outbox.is_done:
            self.outbox.flush()
            self._transport.close()
        else:
            self.intake.steer(self.outbox.octets)

    def _has_room(self, line: bytes) -> bool:
        """Whether one more line may be under way."""
        slots, word = self.outbox.slots, line.partition(b" ")[0]
        if self._changes.is_reading or not self.line_intake.takes(line):
            return False
        if not self.outbox.is_done:
            if len(slots) >= _MOST_LINES or self.outbox.octets + len(line) > _MOST_OCTETS or word in ALONE:
                return False
            if not slots or slots[-1].word in ALONE or self._changes.waiting and word not in CHANGES or (
                    word == b"watch" and any(slot.word == b"watch" for slot in slots)):
                return False
        return self.intake.has_room(word, line)  # At last: where it has none, the client waits for others' lines.

    def _begin(self, line: bytes | None) -> None:
        word = (line or b"").partition(b" ")[0]
        slot = Slot(word, len(line or b""))
        self.outbox.add(slot)
        self.intake.begin(slot)
        is_too_old = word in QUESTIONS and self.line_intake.is_too_old
        if line is None or is_too_old:
            self.outbox.answer(slot, FAULT if is_too_old else REFUSED_LONG)
            return
        if word in OF_THE_DIRECTORY and self.rights.may_change or word == b"service":
            self._task = self._loop.create_task(self._help(slot, line))
            return
        if word in CHANGES and self.rights.may_change:
            self._changes.begin(line, partial(self._answered, slot))
            return
        if line == b"dump":
            dumped = partial(self._dumped, slot, list(self._views.lines()))
            self.line_intake.snapshot(dumped, partial(self.line_intake.note, self.number, line))
            return
        self.line_intake.note(self.number, line)
        if word in MAY_CHANGE and not self.rights.may_change:
            self.outbox.answer(slot, REFUSED_READ_ONLY)
        elif word in OF_A_VIEW:
            self._ask_view(slot, line)
        elif line == b"keys":
            self.line_intake.keys(partial(self._answered, slot))
        elif word in OF_THE_KEYRING:
            self.line_intake.ask(line, partial(self._answered, slot))
        elif word == b"view":
            self._take_view(slot, line)
        elif word == b"watch":
            self.watches.begin(slot, line, partial(self._answered, slot))
        elif word == b"cursor":
            self.cursors.begin(slot, line, partial(self._answered, slot))
        else:
            self.outbox.answer(slot, REFUSED_LINE)

    def _answered(self, slot: Slot, reply: bytes | Pieces | None, count: int) -> None:
        try:
            if reply and slot.word in WITHOUT_EFFECT and self.line_intake.is_too_old:
                reply = FAULT  # It has grown old meanwhile.
            elif reply is None:
                self.line_intake.report(f"client {self.number} is disconnected: a line killed the engine several times")
            elif slot.finish is not None and isinstance(reply, bytes):
                reply = slot.finish(reply, count)
            self.outbox.answer(slot, reply)
        except Exception as error:  # Its caller has others to answer.
            self._give_up(error)

    def _ask_view(self, slot: Slot, line: bytes) -> None:
        word, space, rest = line.partition(b" ")
        name, space, rest = rest.partition(b" ")
        view = self._views.get(name)
        if not is_name(name):
            self.outbox.answer(slot, REFUSED_LINE)
        elif view is None:  # No view has the name `-` in its place.
            self.line_intake.ask(b"%s -%s%s" % (word, space, rest), partial(self._answered, slot))
        elif self.line_intake.early is not None:
            self.line_intake.early.question(word, view.value, space + rest, partial(self._answered, slot))
        else:
            self.watches.ask(name, word, view.value, space + rest, partial(self._answered, slot))

    def _take_view(self, slot: Slot, line: bytes) -> None:
        reply = self._views.take(line)
        if not self.watches.forward(line, reply, partial(self._answered, slot)):
            self.outbox.answer(slot, reply)

    def _dumped(self, slot: Slot, views: list[bytes], snapshot: Snapshot | None) -> None:
        try:
            if snapshot is None:
                self.outbox.answer(slot, FAULT)
            elif self._transport.is_closing():
                snapshot.close()
            else:
                self.outbox.answer(slot, dump_of(snapshot, views))
        except Exception as error:
            self._give_up(error)

    async def _help(self, slot: Slot, line: bytes) -> None:
        try:
            await self._helper(self, slot, line)
        except Exception as error:
            self._give_up(error)
        finally:
            slot.end()

    def drop(self, why: str) -> None:
        """Ends the connection at once."""
        self.line_intake.report(f"client {self.number} {why} and is disconnected")
        self.outbox.drop()

    def _give_up(self, error: Exception) -> None:
        self.line_intake.report(f"client {self.number}: {error!r}")
        self.intake.lines.clear()
        self.outbox.drop()
