"""A line on its way to an engine, a reply on its way back, and what an engine reports."""

from __future__ import annotations

from collections.abc import Iterable, Iterator
from typing import Protocol

from ..storage.journal import Change, Done, Point
from .replayed_state import Watch


NO_ENGINE = b"fault engine\n"
_LASTING = (b"view ", b"watch ", b"cursor ")


class Sent:
    """A line that waits for its reply: `done` is called with it, or with None where the line was given up. `change` is
    the change of the keyring that it makes, `watch` the watch that it begins, if any. The reply to an inner line goes
    to nobody outside, so it needn't wait until it rests on what was committed. Several inner lines may stand for one:
    `done` is called with each of their replies, and its place among them."""
    __slots__ = ("line", "done", "change", "watch", "is_inner", "since", "replies", "left")

    def __init__(self, line: bytes, done: Done, change: Change | None, watch: Watch | None, is_inner: bool,
                 since: float) -> None:
        self.line = line
        self.done = done
        self.change = change
        self.watch = watch
        self.is_inner = is_inner
        self.since = since
        self.replies = self.left = 1

    def again(self) -> bytes:
        """The line, for another program."""
        self.left = self.replies
        return self.line

    def give_up(self) -> None:
        """Nobody answers it."""
        while self.take(None):
            pass
        self.done(None, self.replies - 1)

    def take(self, reply: bytes | None) -> bool:
        """Takes a reply that isn't the last one; False if it is."""
        if self.left == 1:
            return False
        self.done(reply, self.replies - self.left)
        self.left -= 1
        return True


class Held:
    """A reply, or a watch line, that rests on a change that isn't committed yet."""
    __slots__ = ("point", "sent", "reply", "watch")

    def __init__(self, point: Point, sent: Sent | None, reply: bytes, watch: Watch | None) -> None:
        self.point = point
        self.sent = sent
        self.reply = reply
        self.watch = watch


class Home(Protocol):
    """What an engine reports to the hub."""

    def report(self, text: str) -> None: ...

    def withdraw_where_all_are_stuck(self, change: Change) -> None: ...

    def refuse_changes(self, why: str) -> None:
        """Refuses all changes that wait for this engine."""


def ignore(reply: bytes | None, count: int) -> None:
    """For a line whose reply nobody wants."""


def answered_without(waiting: Iterable[Sent]) -> Iterator[Sent]:
    """Answers lines for which there is no engine. Gives those that the next one gets all the same: changes, and what
    opens or closes something."""
    for sent in waiting:
        if sent.change is not None or sent.is_inner:
            yield sent
            continue
        if sent.line.startswith(_LASTING):
            yield Sent(sent.line, ignore, None, sent.watch, True, sent.since)
        sent.done(NO_ENGINE, 0)
