"""The watches of one client. A view that is watched is the client's own in one engine, which reports changes."""

from __future__ import annotations

from functools import partial

from ..engines.in_flight import ignore
from ..engines.shared_views import EngineView
from ..engines.supervised_engine import Engine
from ..engines.watch_places import Place
from ..sliced.sliced_keyring import Sliced
from ..sliced.sliced_watches import SlicedWatches
from ..storage.journal import Done
from ..whole.engine_pool import Hub
from .outbox import Outbox, Slot
from .user_shares import Share
from .views import Value, Views, is_name

_REFUSED_LINE = b"refused line\n"
_REFUSED_FULL = b"refused full watches\n"
_NONE = b"-"


class Watching:
    """A watch of the client: the engine that has it, the name that it has there, and its place."""
    __slots__ = ("engine", "name", "place")

    def __init__(self, engine: Engine, name: bytes, place: Place) -> None:
        self.engine = engine
        self.name = name
        self.place = place


def renamed(watch: bytes, reply: bytes) -> bytes:
    """A watch line, with the client's name for the watch."""
    return b"watch %s %s" % (watch, reply.split(b" ", 2)[2])


class Watches:
    """`engine_views` are the views that are watched, or were: they stay the client's own until they are closed."""

    def __init__(self, hub: Hub, outbox: Outbox, views: Views, share: Share) -> None:
        self.engine_views: dict[bytes, EngineView] = {}
        self._hub = hub
        self._outbox = outbox
        self._views = views
        self._share = share
        self._watches: dict[bytes, Watching] = {}
        self._is_closed = False

    def ask(self, name: bytes, word: bytes, value: Value, rest: bytes, done: Done) -> None:
        """A line that asks from the client's view of this name; `rest` is what follows the view."""
        engine_view = self.engine_views.get(name) or self._hub.engine_views.find(value)
        engine_view.engine.send(b"%s %s%s" % (word, engine_view.name, rest), done)

    def forward(self, line: bytes, reply: bytes, done: Done) -> bool:
        """Passes on a line of a view that is watched, so that its watches report it; False if it isn't watched."""
        if reply != b"ok\n" or not self.engine_views:
            return False
        _, name, rest = line.split(b" ", 2)
        engine_view = self.engine_views.get(name)
        if engine_view is None:
            return False
        if rest == b"close":
            del self.engine_views[name]
            engine_view.engine.send(b"view %s close" % engine_view.name, done)
            self._hub.engine_views.leave(engine_view)
            self._share.pins[False] -= 1
        else:
            engine_view.engine.send(b"view %s %s" % (engine_view.name, rest), done)
        return True

    def begin(self, slot: Slot, line: bytes, done: Done) -> None:
        """Runs a line `watch ..`."""
        watch, _, rest = line[6:].partition(b" ")
        if not is_name(watch):
            done(_REFUSED_LINE, 0)
            return
        slot.watch = watch
        known = self._watches.get(watch)
        word, space, question = rest.partition(b" ")
        name, space, question = question.partition(b" ")
        if word == b"on" and is_name(name):
            self._set(watch, known, name, space + question, done)
        elif known is None:
            self._hub.ask(b"watch %s %s" % (_NONE, rest), done)
        else:
            known.engine.send(b"watch %s %s" % (known.name, rest), partial(self._ended, watch, done))

    def _set(self, watch: bytes, known: Watching | None, name: bytes, question: bytes, done: Done) -> None:
        """Begins a watch at the engine that has its view, under its name there, or under one that no other has."""
        view = self._views.get(name)
        if view is None:
            self._hub.ask(b"watch %s on %s%s" % (_NONE, _NONE, question), done)
            return
        engine_view = self.engine_views.get(name)
        if engine_view is None:
            engine_view = self._hub.engine_views.pin(view.value, has_cursor=False, own=self._share.pins[False])
            if engine_view is None:
                done(_REFUSED_FULL, 0)
                return
            self.engine_views[name] = engine_view
            self._share.pins[False] += 1
        begun = self._placed(known, engine_view.engine)
        if begun is None:
            done(_REFUSED_FULL, 0)
            return
        engine_view.engine.send_watch(b"watch %s on %s%s" % (begun.name, engine_view.name, question),
                                      partial(self._begun, watch, begun, done), partial(self._reported, watch, begun))

    def _placed(self, known: Watching | None, engine: Engine) -> Watching | None:
        """A watch at this engine, in the place of the one that is known if that is there; None if there is no place."""
        if known is not None and known.engine is engine:
            return Watching(engine, known.name, known.place)
        place = self._hub.watch_places.take(engine, self._share)
        return None if place is None else Watching(engine, self._hub.engine_views.next_name(b"w"), place)

    def _begun(self, watch: bytes, begun: Watching, done: Done, reply: bytes | None, count: int) -> None:
        before = self._watches.get(watch)
        if reply is not None and reply.startswith(b"watch ") and not self._is_closed:
            if before is not None and before.engine is not begun.engine:
                before.engine.send(b"watch %s off" % before.name, ignore, is_inner=True)
                before.place.free()
            begun.place.hold()  # It may have gone meanwhile.
            self._watches[watch] = begun
            reply = renamed(watch, reply)
        elif before is None or before.place is not begun.place:
            begun.place.free()
        done(reply, count)

    def _ended(self, watch: bytes, done: Done, reply: bytes | None, count: int) -> None:
        if reply == b"ok\n" and (ended := self._watches.pop(watch, None)) is not None:
            ended.place.free()
        done(reply, count)

    def _reported(self, watch: bytes, begun: Watching, reply: bytes) -> None:
        """A watch line behind a reply to anybody. It comes after the replies to the client's own lines so
        far, but before the reply to one that restarts the same watch."""
        known = self._watches.get(watch)
        if known is None or known.name != begun.name:
            return
        if reply.endswith(b" gone\n"):
            self._watches.pop(watch).place.free()
        self._outbox.add_watch_line(watch, renamed(watch, reply))

    def over_slices(self, sliced: Sliced) -> SlicedWatches:
        """The client's watches, over a keyring that is sliced from now on."""
        self._share.pins[False] -= len(self.engine_views)
        sliced_watches = SlicedWatches(sliced, self._outbox, self._views, self._share)
        names = {engine_view.name: name for name, engine_view in self.engine_views.items()}
        for watch, watching in self._watches.items():
            known = watching.engine.replayed.watches.get(watching.name)
            if known is None:
                continue
            _, _, _, engine_view, question = known.line.split(b" ", 4)
            name = names[engine_view]
            view = self._views.get(name)
            if view is not None:
                sliced_watches.take(watch, name, view.value, b" " + question, known.reported.split()[3])
        return sliced_watches

    def close(self) -> None:
        """The client is gone, and with it its views: their watches are gone too."""
        self._share.pins[False] -= len(self.engine_views)
        for engine_view in self.engine_views.values():
            self._hub.engine_views.unpin(engine_view, has_cursor=False)
        for watching in self._watches.values():
            watching.place.free()
        self.engine_views.clear()
        self._watches.clear()
        self._is_closed = True
