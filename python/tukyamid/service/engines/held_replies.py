"""Replies of an engine that rest on changes that aren't committed yet."""

from __future__ import annotations

from collections import deque

from ..storage.journal import Point
from .in_flight import Held, Sent
from .replayed_state import ReplayedState, Watch


class HeldReplies:
    def __init__(self) -> None:
        self._held: deque[Held] = deque()

    def __bool__(self) -> bool:
        return bool(self._held)

    def add(self, point: Point, sent: Sent | None, reply: bytes, watch: Watch | None) -> None:
        """Hands a reply on when all changes that it rests on are committed."""
        if self._held or point.count is None:
            self._held.append(Held(point, sent, reply, watch))
        elif sent is not None and watch is None:  # As nearly always.
            sent.done(reply, point.count)
        else:
            _hand_on(Held(point, sent, reply, watch))

    def release(self) -> None:
        """Hands on what rests on committed changes alone."""
        while self._held and self._held[0].point.count is not None:
            _hand_on(self._held.popleft())

    def take_back(self, point: Point, replayed: ReplayedState) -> list[Sent]:
        """The changes behind this point are none: gives what has to be asked for once more."""
        again, held = [], self._held
        self._held = deque()
        for one in held:
            if one.sent is None:
                continue
            if one.reply == b"ok\n":
                _hand_on(Held(point, one.sent, one.reply, None))
            else:
                replayed.take_back(one.sent.line, one.reply)
                again.append(one.sent)
        for watch in replayed.watches.values():
            watch.reported = watch.handed_on
        return again


def _hand_on(held: Held) -> None:
    if held.watch is not None:
        held.watch.handed_on = held.reply
    if held.sent is not None:
        assert held.point.count is not None
        held.sent.done(held.reply, held.point.count)
    elif held.watch is not None:
        held.watch.on_report(held.reply)
