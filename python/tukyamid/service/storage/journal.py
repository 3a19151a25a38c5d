"""The changes of the keyring in their one order: the last snapshot of the database, and each change since."""

from __future__ import annotations

from collections import deque
from collections.abc import Callable, Iterator, Sequence
from typing import TYPE_CHECKING

from . import database
from .database import Actor, PutCertificate
from .unlooked import Looked

if TYPE_CHECKING:
    from ..engines.supervised_engine import Engine

# A snapshot is cheap to open, and what it contains needn't be held in memory.
MOST_OCTETS = 1 << 20
MOST_CHANGES = 2_000

_NOBODY = Actor(0, 0)

# A reply, or None where the line was given up; and the number of the last change before it.
Done = Callable[["bytes | None", int], None]


class Point:
    """A moment in the order of changes: behind the `place`-th since the service began. `count` is the number of the
    last change that the database has by then; None while it hasn't been committed."""
    __slots__ = ("place", "count")

    def __init__(self, place: int, count: int | None) -> None:
        self.place = place
        self.count = count


class Change(Point):
    """A line that changes certificates or verdicts. `left` are the engines that haven't answered it yet. Its effects
    are known where `exported` has an engine's reply to `export` behind the line for each certificate that it brings."""
    __slots__ = ("line", "left", "reply", "done", "actor", "fprs", "exported", "is_over")

    def __init__(self, line: bytes, place: int, left: set[Engine], actor: Actor, fprs: tuple[bytes, ...],
                 done: Done) -> None:
        super().__init__(place, None)
        self.line: bytes | None = line
        self.left = left
        self.reply: bytes | None = None
        self.done: Done | None = done
        self.actor = actor
        self.fprs = fprs
        self.exported: dict[bytes, bytes] = {}
        self.is_over = False

    def finish(self, reply: bytes | None, count: int) -> None:
        """Hands on its reply; `count` is the number of the last change of the database by now. The journal keeps the
        line for long, and so nothing else is left of it: what waits for a reply holds a whole client."""
        done, self.done, self.count = self.done, None, count
        self.exported.clear()
        if done is not None:
            done(reply, count)

    @property
    def is_answered(self) -> bool:
        """Whether nothing is to be waited for but the database."""
        return self.is_over or not self.left and len(self.exported) == len(self.fprs)

    @property
    def is_made(self) -> bool:
        """Whether the engines say that it may have changed something."""
        return self.line is not None and self.reply is not None and self.reply.startswith(b"ok") \
            and not self.reply.endswith(b" new 0\n")

    @property
    def feed_line(self) -> bytes:
        """The line by which those who follow the service are notified of it."""
        return self.line or b""

    def entry(self) -> database.Change:
        """What it does to the database."""
        assert self.line is not None
        word, _, rest = self.line.partition(b" ")
        if word == b"import":
            puts = tuple(PutCertificate(fpr, bytes.fromhex(reply[7:-1].decode()))
                         for fpr, reply in self.exported.items() if reply.startswith(b"export "))
            if not puts:
                raise database.DatabaseFault("the engine exported nothing of what it took")
            what = " ".join(["import", *(put.fpr.hex() for put in puts)])
            return database.Change(what, self.actor, puts, self.line)
        if word == b"drop":
            fpr = bytes.fromhex(rest.decode())
            return database.Change(f"drop {fpr.hex()}", self.actor, (database.DropCertificate(fpr),), self.line)
        number, _, said = rest.lower().decode().partition(" ")
        issuer = database.BAD if said == "bad" else bytes.fromhex(said[5:]) if said != "none" else None
        return database.Change(f"verdict {number} {said}", self.actor,
                               (database.SetVerdict(bytes.fromhex(number), issuer),), self.line)


class Verdicts(Change):
    """What the verifier says of some certificates, by their fingerprints: verdicts, and that it has looked at them. It
    is no client's line, and no engine gets it."""
    __slots__ = ("verdicts", "looked", "targets")

    def __init__(self, verdicts: Sequence[tuple[bytes, bytes]], looked: Sequence[Looked], targets: Sequence[bytes],
                 actor: Actor, done: Done) -> None:
        super().__init__(b"verdicts", 0, set(), actor, (), done)
        self.verdicts, self.looked, self.targets = verdicts, looked, targets

    @property
    def feed_line(self) -> bytes:
        return b" ".join([b"verdicts", *(fpr.hex().encode() for fpr in self.targets)])

    @classmethod
    def from_feed(cls, line: bytes, done: Done) -> Verdicts:
        """Verdicts of which only the certificates are known, from their `feed_line`."""
        return cls((), (), [bytes.fromhex(fpr.decode()) for fpr in line.split(b" ")[1:]], _NOBODY, done)

    def entry(self) -> database.Change:
        what = " ".join([f"verdicts {len(self.verdicts)} on", *(fpr.hex() for fpr in self.targets)])
        return database.Change(what, self.actor, (
            *(database.SetVerdict(number, issuer) for number, issuer in self.verdicts),
            database.HaveLooked(tuple(self.looked))))


class Journal:
    """What a new engine needs to come to a place in the order of changes: a snapshot, and the changes since.

    A newer snapshot is offered as soon as there is one, and taken once no engine is at an earlier place: one that is
    may have to be started again, with lines that were sent before that snapshot. If no engine reads the snapshot, it is
    lent to the database, which renews it; meanwhile no engine may begin to."""

    def __init__(self, snapshot: database.Snapshot) -> None:
        self.is_there = True
        self._readers = 0
        self._snapshot = snapshot
        self._changes: deque[Change] = deque()
        self._first = Point(0, snapshot.change)
        self._octets = 0
        self._offered: tuple[Point, database.Snapshot] | None = None

    @property
    def first(self) -> Point:
        return self._first

    @property
    def last(self) -> Point:
        return self._changes[-1] if self._changes else self._first

    def add(self, line: bytes, left: set[Engine], actor: Actor, fprs: tuple[bytes, ...], done: Done) -> Change:
        change = Change(line, self.last.place + 1, left, actor, fprs, done)
        self._changes.append(change)
        self._octets += len(line)
        return change

    def add_committed(self, line: bytes, left: set[Engine], number: int, done: Done) -> Change:
        """A change that another service has committed. Its engine answered it, so it is never withdrawn here."""
        change = self.add(line, left, _NOBODY, (), done)
        change.count, change.reply = number, b"ok\n"
        return change

    def behind(self, number: int) -> Point | None:
        """The point behind the change of this number; None if that isn't among the changes since the snapshot."""
        return next((change for change in self._changes if change.count == number), None)

    def begin_again(self, snapshot: database.Snapshot) -> Point:
        """Has this snapshot replace all changes so far, and returns its place."""
        self._first = Point(self.last.place + 1, snapshot.change)
        self._snapshot, self._offered = snapshot, None  # What still reads the old one has its own hold on it.
        self._changes.clear()
        self._octets = 0
        return self._first

    def forget(self, change: Change) -> None:
        """A change that was refused, withdrawn, or couldn't be committed is nothing to a new engine."""
        self._octets -= len(change.line or b"")
        change.line = None

    def lines(self, place: int) -> tuple[int, Iterator[bytes]]:
        """The lines that bring a fresh engine to this place, and how many they are."""
        changes = (change.line for change, _ in zip(self._changes, range(place - self._first.place)))
        since = [line for line in changes if line is not None]
        lines = self._read(since)
        next(lines)
        return self._snapshot.count() + len(since), lines

    def _read(self, since: list[bytes]) -> Iterator[bytes]:
        """Before the lines comes none, from which on they are counted as being read."""
        snapshot = self._snapshot  # A newer one may take its place meanwhile.
        self._readers += 1
        try:
            yield b""
            yield from snapshot.lines()
            yield from since
        finally:
            self._readers -= 1

    def lend(self) -> database.Snapshot | None:
        """The snapshot, until another one is offered in its place; None if an engine reads it."""
        if self._readers or self._offered is not None:
            return None
        self.is_there = False
        return self._snapshot

    def is_long(self, cost: int = 1) -> bool:
        """Whether a newer snapshot is worth its making; `cost` is how much dearer that is than opening one."""
        return self._octets > cost * MOST_OCTETS or len(self._changes) > cost * MOST_CHANGES

    def offer(self, point: Point, snapshot: database.Snapshot) -> None:
        if self._offered is not None:
            self._offered[1].close()
        self._offered = point, snapshot
        self.is_there = True

    def take_offered(self, least: int) -> None:
        """Takes the offered snapshot if all engines have come to `least`, and the snapshot's place isn't later."""
        if self._offered is None or self._offered[0].place > least:
            return
        point, self._snapshot = self._offered  # What still reads the old one has its own hold on it.
        self._offered = None
        while self._first.place < point.place:
            self._first = self._changes.popleft()
            self._octets -= len(self._first.line or b"")
        self._first = point

    def close(self) -> None:
        self._snapshot.close()
        if self._offered is not None:
            self._offered[1].close()
