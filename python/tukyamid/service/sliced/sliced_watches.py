"""Watches over a keyring that is larger than an engine: behind each change, those that rest on it are asked again."""

from __future__ import annotations

import re
from collections.abc import Callable, Collection
from functools import partial
from typing import TYPE_CHECKING

from ..sessions.outbox import Outbox, Slot
from ..sessions.user_shares import Share
from ..sessions.views import Value, Views, is_name
from ..storage.journal import Done
from .reply_dependencies import roots_of

if TYPE_CHECKING:
    from .sliced_keyring import Sliced

_MOST_WATCHES = 64
_MOST_OF_A_USER = 512
_REFUSED_LINE = b"refused line\n"
_ON = re.compile(rb"on ([a-z0-9_-]{1,32})( ((?:[0-9a-fA-F]{24})?[0-9a-fA-F]{40}) .*)", re.DOTALL)


class Watch:
    """A watch of a client over its view of this name: the view's value, the question behind it, the last reported
    amount, and who gets another one. `on_report` gets None when the watch is gone."""
    __slots__ = ("name", "view", "value", "rest", "target", "reported", "on_report")

    def __init__(self, name: bytes, view: bytes, value: Value, rest: bytes, target: bytes) -> None:
        self.name = name
        self.view = view
        self.value = value
        self.rest = rest
        self.target = target
        self.reported = b""
        self.on_report: Callable[[bytes | None], None] = lambda amount: None


class Watched:
    """The watches of all clients."""

    def __init__(self, sliced: Sliced) -> None:
        self._sliced = sliced
        self.watches: set[Watch] = set()

    def roots(self) -> set[tuple[bytes, ...]]:
        """The roots of all views that are watched."""
        return {roots_of(watch.value) for watch in self.watches}

    async def change(self, touched: Collection[bytes], reached: Collection[tuple[bytes, ...]]) -> None:
        """Looks at those of changed certificates, and at those whose slice was reached."""
        await self._look_at([watch for watch in sorted(self.watches, key=lambda one: one.name)
                             if watch.target in touched or roots_of(watch.value) in reached])

    async def look_at_all(self) -> None:
        await self._look_at([*self.watches])

    async def _look_at(self, watches: Collection[Watch]) -> None:
        for watch in watches:
            try:
                await self.look_at(watch)
            except Exception as error:  # Whatever one watch meets, the others are looked at.
                self._sliced.access.report(repr(error))
                self.lose(watch)

    async def look_at(self, watch: Watch) -> None:
        """Reports an amount that isn't the last one. A watch that can't be answered any more is gone."""
        await self._sliced.answer(partial(self._sliced.amount, watch.value, watch.rest), partial(self._report, watch))

    def lose(self, watch: Watch) -> None:
        """A watch that can't be answered any more is gone, which its client is notified of."""
        self._report(watch, None, 0)

    def _report(self, watch: Watch, reply: bytes | None, _: int) -> None:
        amount = amount_of(reply)
        if watch not in self.watches or amount == watch.reported:
            return
        if amount is None:
            self.watches.discard(watch)
        else:
            watch.reported = amount
        watch.on_report(amount)


def amount_of(reply: bytes | None) -> bytes | None:
    return reply.split(b" ", 2)[1] if reply is not None and reply.startswith(b"amount ") else None


class SlicedWatches:
    """The watches of one client."""

    def __init__(self, sliced: Sliced, outbox: Outbox, views: Views, share: Share) -> None:
        self._sliced = sliced
        self._outbox = outbox
        self._views = views
        self._share = share
        self._watches: dict[bytes, Watch] = {}
        self._is_used = False

    def take(self, name: bytes, view: bytes, value: Value, rest: bytes, reported: bytes) -> None:
        """Takes over a watch whose last reported amount is this."""
        one = self._watches[name] = Watch(name, view, value, rest, bytes.fromhex(rest.split(b" ")[1].decode()))
        self._share.pins[False] += 1
        one.reported, one.on_report, self._is_used = reported, partial(self._reported, name, one), True
        self._sliced.watched.watches.add(one)

    def ask(self, name: bytes, word: bytes, value: Value, rest: bytes, done: Done) -> None:
        self._sliced.question(word, value, rest, done)

    def forward(self, line: bytes, reply: bytes, done: Done) -> bool:
        """Has the watches of a view looked at that a line has changed."""
        if reply == b"ok\n" and self._is_used:
            name = line.split(b" ", 2)[1]
            view = self._views.get(name)
            self._sliced.enqueue_inner(partial(self._view_changed, name, None if view is None else view.value),
                                       partial(self._lose, name))
        return False

    async def _view_changed(self, name: bytes, value: Value | None) -> None:
        for watch, one in sorted(self._watches.items()):
            if one.view == name and value is None:
                self._sliced.watched.watches.discard(one)
                self._reported(watch, one, None)
            elif one.view == name and value is not None and one.value != value:
                one.value = value
                await self._sliced.watched.look_at(one)

    def _lose(self, name: bytes, _: Exception) -> None:
        """The watches of a view can't be answered any more."""
        for one in [one for one in self._watches.values() if one.view == name]:
            self._sliced.watched.lose(one)

    def begin(self, slot: Slot, line: bytes, done: Done) -> None:
        """Runs a line `watch ..`."""
        watch, _, rest = line[6:].partition(b" ")
        match = _ON.fullmatch(rest)
        if not is_name(watch) or match is None and rest != b"off":
            done(_REFUSED_LINE, 0)
            return
        slot.watch, self._is_used = watch, True
        if match is None:
            self._sliced.enqueue(partial(self._end, watch), done)
            return
        view = self._views.get(match[1])
        value = None if view is None else view.value
        one = Watch(watch, match[1], value or (b"0", ()), match[2], bytes.fromhex(match[3].decode()))
        one.on_report = partial(self._reported, watch, one)
        self._sliced.enqueue(partial(self._set, watch, one, value is not None), done)

    async def _end(self, watch: bytes, done: Done) -> None:
        one = self._pop(watch)
        if one is not None:
            self._sliced.watched.watches.discard(one)
        done(b"refused watch\n" if one is None else b"ok\n", self._sliced.count)

    async def _set(self, watch: bytes, one: Watch, is_open: bool, done: Done) -> None:
        if not is_open:
            await self._sliced.answer(partial(self._sliced.say, b"ask -" + one.rest), done)
            return
        is_full = len(self._watches) >= _MOST_WATCHES or self._share.pins[False] >= _MOST_OF_A_USER
        if watch not in self._watches and is_full:
            done(b"refused full watches\n", self._sliced.count)
            return
        await self._sliced.answer(partial(self._sliced.amount, one.value, one.rest),
                                  partial(self._begun, watch, one, done))

    def _begun(self, watch: bytes, one: Watch, done: Done, reply: bytes | None, count: int) -> None:
        amount = amount_of(reply)
        if amount is not None:
            before = self._pop(watch)
            self._share.pins[False] += 1
            if before is not None:
                self._sliced.watched.watches.discard(before)
            one.reported = amount
            self._watches[watch] = one
            self._sliced.watched.watches.add(one)
            reply = b"watch %s amount %s\n" % (watch, amount)
        done(reply, count)

    def _pop(self, watch: bytes) -> Watch | None:
        one = self._watches.pop(watch, None)
        self._share.pins[False] -= one is not None
        return one

    def _reported(self, watch: bytes, one: Watch, amount: bytes | None) -> None:
        if self._watches.get(watch) is not one:
            return
        if amount is None:
            self._pop(watch)
        reported = b"watch %s gone\n" % watch if amount is None else b"watch %s amount %s\n" % (watch, amount)
        self._outbox.add_watch_line(watch, reported)

    def close(self) -> None:
        """The client is gone."""
        self._sliced.watched.watches.difference_update(self._watches.values())
        self._share.pins[False] -= len(self._watches)
        self._watches.clear()
