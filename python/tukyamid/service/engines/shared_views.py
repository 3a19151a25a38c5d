"""Views of the engines: clients whose views are equal share one, and one that nobody used for long makes room."""

from __future__ import annotations

from collections.abc import Callable
from itertools import count

from ..sessions.views import Value, lines_of
from .in_flight import ignore
from .supervised_engine import Engine

VIEWS_OF_AN_ENGINE = 16
CURSORS_OF_AN_ENGINE = 16
_MOST_PINNED = VIEWS_OF_AN_ENGINE - 1  # So that a question always finds a place.
KEPT_FOR_OTHERS = 4
_BACKLOG = 8
_MOST_MOVED = 86_400  # Seconds: what has begun or ended within a day is little of a keyring.


class EngineView:
    """A view of an engine. One that is pinned stays until whoever pinned it lets go."""
    __slots__ = ("engine", "name", "value", "pins", "used")

    def __init__(self, engine: Engine, name: bytes, value: Value | None, used: int) -> None:
        self.engine = engine
        self.name = name
        self.value = value
        self.pins = 0
        self.used = used


class EngineViews:
    def __init__(self, least_busy: Callable[[], Engine], more: Callable[[], Engine | None],
                 engines: list[Engine], most_engines: int) -> None:
        """`more` starts another engine, unless there are as many as there may be."""
        self._most_engines = most_engines
        self._least_busy = least_busy
        self._more = more
        self._engines = engines
        self._of_engine: dict[Engine, list[EngineView]] = {}
        self._shared: dict[Value, list[EngineView]] = {}
        self._cursors: dict[Engine, int] = {}
        self._ticks = count()
        self._names = count(1)

    def find(self, value: Value) -> EngineView:
        """A view of this value, at an engine that isn't busier than others need be."""
        shared = self._shared.get(value)
        if shared:
            view = shared[0] if len(shared) == 1 else min(shared, key=lambda one: len(one.engine.waiting))
            if len(view.engine.waiting) <= _BACKLOG or len(self._engines) == 1 and view.engine.lag() < 0.01:
                view.used = next(self._ticks)
                return view
            engine = self._least_busy()
            if len(engine.waiting) + _BACKLOG >= len(view.engine.waiting):
                view.used = next(self._ticks)
                return view
            return self._open(engine, value)
        engine = self._least_busy()
        return self._moved(engine, value) or self._open(engine, value)

    def pin(self, value: Value, has_cursor: bool, own: int = 0) -> EngineView | None:
        """A view of this value that stays; None if no engine has room, and no other may be started. One with a cursor
        is shared, since no line ever changes it; any other belongs to its client. `own` is how many its user has: the
        last ones are kept for others."""
        if own >= KEPT_FOR_OTHERS and self._free(has_cursor) <= KEPT_FOR_OTHERS:
            return None
        for engine in sorted(self._engines, key=lambda one: len(self._of_engine.get(one, ()))):
            view = self._pin_at(engine, value, has_cursor)
            if view is not None:
                return view
        another = self._more()
        return None if another is None else self._pin_at(another, value, has_cursor)

    def _free(self, has_cursor: bool) -> int:
        """How many more may stay, at all engines that there may be."""
        pinned = sum(one.pins > 0 for views in self._of_engine.values() for one in views)
        left = self._most_engines * _MOST_PINNED - pinned
        cursors = self._most_engines * CURSORS_OF_AN_ENGINE - sum(self._cursors.values())
        return min(left, cursors) if has_cursor else left

    def _pin_at(self, engine: Engine, value: Value, has_cursor: bool) -> EngineView | None:
        if has_cursor and self._cursors.get(engine, 0) >= CURSORS_OF_AN_ENGINE:
            return None
        view = next((one for one in self._shared.get(value, ()) if one.engine is engine), None)
        if not has_cursor or view is None:
            if sum(one.pins > 0 for one in self._of_engine.get(engine, ())) >= _MOST_PINNED:
                return None
            view = self._open(engine, value, is_shared=has_cursor)
        if has_cursor:
            self._cursors[engine] = self._cursors.get(engine, 0) + 1
        view.pins += 1
        return view

    def unpin(self, view: EngineView, has_cursor: bool) -> None:
        view.pins -= 1
        if has_cursor:
            self._cursors[view.engine] -= 1
        elif not view.pins:
            self._close(view)

    def leave(self, view: EngineView) -> None:
        """A view of a client's own that the client has closed."""
        self._of_engine[view.engine].remove(view)

    def next_name(self, letter: bytes) -> bytes:
        """A name that an engine has for nothing else."""
        return b"%s%d" % (letter, next(self._names))

    def _open(self, engine: Engine, value: Value, is_shared: bool = True) -> EngineView:
        views = self._of_engine.setdefault(engine, [])
        if len(views) >= VIEWS_OF_AN_ENGINE:
            self._close(min((one for one in views if not one.pins), key=lambda one: one.used))
        view = EngineView(engine, self.next_name(b"v"), value if is_shared else None, next(self._ticks))
        views.append(view)
        if is_shared:
            self._shared.setdefault(value, []).append(view)
        for line in lines_of(view.name, value):
            engine.send(line, ignore, is_inner=True)
        return view

    def _moved(self, engine: Engine, value: Value) -> EngineView | None:
        """A view of these roots at a somewhat earlier time, moved on to the time of `value`; None if there is none. It
        costs an engine far less than a new view, so whoever asks about the current time each time needn't wait."""
        time, roots = value
        earlier = [view for view in self._of_engine.get(engine, ()) if view.value is not None and not view.pins
                   and view.value[1] == roots and 0 < int(time) - int(view.value[0]) <= _MOST_MOVED]
        if not earlier:
            return None
        view = max(earlier, key=lambda one: int(one.value[0]) if one.value is not None else 0)
        self._forget(view)
        view.value, view.used = value, next(self._ticks)
        self._shared.setdefault(value, []).append(view)
        engine.send(b"view %s time %s" % (view.name, time), ignore, is_inner=True)
        return view

    def _close(self, view: EngineView) -> None:
        view.engine.send(b"view %s close" % view.name, ignore, is_inner=True)
        self._of_engine[view.engine].remove(view)
        self._forget(view)

    def _forget(self, view: EngineView) -> None:
        """Nobody finds the view by its value any more."""
        if view.value is not None:
            shared = self._shared[view.value]
            shared.remove(view)
            if not shared:
                del self._shared[view.value]
