"""Cursors over a keyring that is larger than an engine. The first piece has the whole list made, and the others are
read from a file; a change of the keyring makes the cursor stale anyway."""

from __future__ import annotations

import tempfile
from functools import partial
from typing import IO, TYPE_CHECKING

from ..sessions.cursor_lines import MOST_CURSORS, fields_of
from ..sessions.outbox import Slot
from ..sessions.user_shares import Share
from ..sessions.views import Value, Views
from ..storage.journal import Done
from .sliced_questions import Asker, listing

if TYPE_CHECKING:
    from .sliced_keyring import Sliced

_MOST_IN_MEMORY = 1 << 16
_MOST_OF_A_USER = 128


class SlicedCursor:
    """A cursor of the client over its view of this name, which had that revision and value at the start; the number of
    the last change then; and the lines of the list from which pieces are taken."""
    __slots__ = ("view", "revision", "value", "wanted", "count", "lines", "taken")

    def __init__(self, view: bytes, revision: int, value: Value, wanted: int) -> None:
        self.view = view
        self.revision = revision
        self.value = value
        self.wanted = wanted
        self.count = 0
        self.lines: IO[bytes] | None = None
        self.taken = 0

    def close(self) -> None:
        if self.lines is not None:
            self.lines.close()

    async def fill(self, asker: Asker) -> bytes:
        """Has the list made."""
        lines = tempfile.SpooledTemporaryFile(_MOST_IN_MEMORY, prefix="tukyamid-")
        async for line in asker.bindings(self.value, self.wanted):
            lines.write(line)
        lines.seek(0)
        for _ in range(self.taken):
            lines.readline()
        self.lines = lines
        return b""

    def piece(self, count: int) -> bytes:
        assert self.lines is not None
        taken: list[bytes] = []
        while len(taken) < count and (line := self.lines.readline()):
            taken.append(line)
        return listing(b"piece", taken)


class SlicedCursors:
    """The cursors of one client, of whose lines one at most is under way."""

    def __init__(self, sliced: Sliced, views: Views, share: Share) -> None:
        self._sliced = sliced
        self._share = share
        self._views = views
        self._cursors: dict[bytes, SlicedCursor] = {}

    def take(self, name: bytes, cursor: SlicedCursor, count: int, taken: int) -> None:
        """Takes over a cursor from which this many bindings were taken."""
        cursor.count, cursor.taken = count, taken
        self._cursors[name] = cursor
        self._share.pins[True] += 1

    def begin(self, slot: Slot, line: bytes, done: Done) -> None:
        """Does a line `cursor ..`."""
        fields = fields_of(line)
        if fields is None:
            done(b"refused line\n", 0)
            return
        name, view, wanted, count = fields
        cursor = self._cursors.get(name)
        if wanted is not None:
            self._over(name, view, int(wanted), done)
        elif cursor is None:
            done(b"refused cursor\n", 0)
        elif count is None:
            self._share.pins[True] -= 1
            self._cursors.pop(name).close()
            done(b"ok\n", 0)
        else:
            self._sliced.enqueue(partial(self._next, cursor, int(count)), done)

    def _over(self, name: bytes, view_name: bytes, wanted: int, done: Done) -> None:
        view = self._views.get(view_name)
        if view is None:
            done(b"refused view\n", 0)
        elif name not in self._cursors and (len(self._cursors) >= MOST_CURSORS
                                            or self._share.pins[True] >= _MOST_OF_A_USER):
            done(b"refused full cursors\n", 0)
        else:
            cursor = SlicedCursor(view_name, view.revision, view.value, wanted)
            self._sliced.enqueue(partial(self._set, name, cursor), done)

    async def _set(self, name: bytes, cursor: SlicedCursor, done: Done) -> None:
        cursor.count = self._sliced.count
        before = self._cursors.pop(name, None)
        if before is not None:
            before.close()
        else:
            self._share.pins[True] += 1
        self._cursors[name] = cursor
        done(b"ok\n", cursor.count)

    async def _next(self, cursor: SlicedCursor, count: int, done: Done) -> None:
        view, now = self._views.get(cursor.view), self._sliced.count
        if view is None:
            done(b"refused view\n", now)
        elif cursor.count != now:
            done(b"stale keyring %d %d\n" % (cursor.count, now), now)
        elif cursor.revision != view.revision:
            done(b"stale view %d %d\n" % (cursor.revision, view.revision), now)
        elif cursor.lines is None:
            filled = partial(self._filled, cursor, count, done)
            await self._sliced.go_over(cursor.value, cursor.wanted, cursor.fill, filled)
        else:
            done(cursor.piece(count), now)

    @staticmethod
    def _filled(cursor: SlicedCursor, count: int, done: Done, reply: bytes | None, now: int) -> None:
        done(cursor.piece(count) if reply == b"" else reply, now)

    def close(self) -> None:
        """The client is gone."""
        self._share.pins[True] -= len(self._cursors)
        for cursor in self._cursors.values():
            cursor.close()
        self._cursors.clear()
