"""The cursors of one client. The counts of the service decide whether one is stale: an engine that took another's
place has counts of its own."""

from __future__ import annotations

from functools import partial

from ..engines.in_flight import ignore
from ..engines.shared_views import EngineView
from ..sliced.sliced_cursors import SlicedCursor, SlicedCursors
from ..sliced.sliced_keyring import Sliced
from ..storage.journal import Done
from ..whole.engine_pool import Hub
from .cursor_lines import MOST_CURSORS, fields_of
from .outbox import Slot
from .user_shares import Share
from .views import Views



class Cursor:
    """A cursor of the client: the view of an engine that it goes over, its name there, the client's view with its
    revision at the start, and the number of the last change then."""
    __slots__ = ("engine_view", "name", "view", "revision", "count")

    def __init__(self, engine_view: EngineView, name: bytes, view: bytes, revision: int) -> None:
        self.engine_view = engine_view
        self.name = name
        self.view = view
        self.revision = revision
        self.count = 0


class Cursors:
    def __init__(self, hub: Hub, views: Views, share: Share) -> None:
        self._hub = hub
        self._share = share
        self._views = views
        self._cursors: dict[bytes, Cursor] = {}

    def begin(self, slot: Slot, line: bytes, done: Done) -> None:
        """Runs a line `cursor ..`."""
        fields = fields_of(line)
        if fields is None:
            done(b"refused line\n", 0)
            return
        name, view_name, wanted, count = fields
        if wanted is not None:
            self._over(slot, name, view_name, wanted, done)
            return
        cursor = self._cursors.get(name)
        if cursor is None:
            done(b"refused cursor\n", 0)
        elif count is None:
            del self._cursors[name]
            self._end(cursor)
            done(b"ok\n", 0)
        else:
            self._next(slot, cursor, count, done)

    def _over(self, slot: Slot, name: bytes, view_name: bytes, wanted: bytes, done: Done) -> None:
        view = self._views.get(view_name)
        if view is None:
            done(b"refused view\n", 0)
            return
        before = self._cursors.pop(name, None)
        if before is not None:
            self._end(before)
        engine_view = None
        if len(self._cursors) < MOST_CURSORS:
            engine_view = self._hub.engine_views.pin(view.value, has_cursor=True, own=self._share.pins[True])
        if engine_view is None:
            done(b"refused full cursors\n", 0)
            return
        self._share.pins[True] += 1
        inner_name = self._hub.engine_views.next_name(b"c")
        cursor = self._cursors[name] = Cursor(engine_view, inner_name, view_name, view.revision)
        slot.finish = partial(self._begun, cursor)
        engine_view.engine.send(b"cursor %s over %s %s" % (cursor.name, engine_view.name, wanted), done)

    @staticmethod
    def _begun(cursor: Cursor, reply: bytes, count: int) -> bytes:
        cursor.count = count
        return reply

    def _next(self, slot: Slot, cursor: Cursor, count: bytes, done: Done) -> None:
        view = self._views.get(cursor.view)
        if view is None:
            done(b"refused view\n", 0)
            return
        slot.finish = partial(self._unless_stale, cursor, view.revision)
        cursor.engine_view.engine.send(b"cursor %s next %s" % (cursor.name, count), done)

    @staticmethod
    def _unless_stale(cursor: Cursor, revision: int, reply: bytes, count: int) -> bytes:
        if cursor.count != count:
            return b"stale keyring %d %d\n" % (cursor.count, count)
        return reply if cursor.revision == revision else b"stale view %d %d\n" % (cursor.revision, revision)

    def _end(self, cursor: Cursor) -> None:
        self._share.pins[True] -= 1
        cursor.engine_view.engine.send(b"cursor %s close" % cursor.name, ignore, is_inner=True)
        self._hub.engine_views.unpin(cursor.engine_view, has_cursor=True)

    def over_slices(self, sliced: Sliced) -> SlicedCursors:
        """The client's cursors, over a keyring that is sliced from now on."""
        sliced_cursors = SlicedCursors(sliced, self._views, self._share)
        self._share.pins[True] -= len(self._cursors)
        for name, cursor in self._cursors.items():
            begun = cursor.engine_view.engine.replayed.cursors.get(cursor.name)
            if begun is not None and cursor.engine_view.value is not None:
                line, taken = begun
                wanted = int(line.split(b" ")[4])
                sliced_cursors.take(name, SlicedCursor(cursor.view, cursor.revision, cursor.engine_view.value, wanted),
                                    cursor.count, taken)
        return sliced_cursors

    def close(self) -> None:
        """The client is gone."""
        for cursor in self._cursors.values():
            self._end(cursor)
        self._cursors.clear()
