"""What each user may have at a time: connections, unfinished lines, lines under way. The bounds come from the
descriptors and the memory that there are, and from how far the engines are behind."""

from __future__ import annotations

import asyncio
import os
import resource
from collections.abc import Callable
from dataclasses import dataclass
from pathlib import Path
from typing import Protocol

from ..user_accounts import account_of
from .command_kinds import ASK
from .views import ViewBudget

_RESERVED_DESCRIPTORS = 128  # For engines, the database, long lists and what Python opens.
_DESCRIPTORS_OF_A_CLIENT = 4  # Its socket, a dump's database and log, and a long reply's file.
_OCTETS_OF_A_CLIENT = 1 << 18
_PART_OF_MEMORY = 4
_FEWEST = 8
_MOST_LONG_LINES = 2
_MOST_VIEWS_AND_ROOTS = 1 << 16  # Some 20 MB.
_LOOK_SECONDS, _LATE, _QUICK = 0.005, 0.02, 0.005
_LOOK_ANSWERS = 16  # The clock is read after that many answers, because reading it is slower than the rest here.
_FIRST_WINDOW, _LARGEST_WINDOW = 64.0, 4096.0
_LINES_OF_A_ROUND = 256  # Each costs 5 to 60 us.

_LONG_LINES = 5  # What a client waits for that has sent a part of a long line.


class Waiter(Protocol):
    """A client that waits for a part of its user's share."""

    def resume(self) -> None: ...


@dataclass(frozen=True)
class Bounds:
    """How many clients there may be, and how many of one user."""
    clients: int
    of_a_user: int


def bounds() -> Bounds:
    """Has this process open as many files as it may, and gives what these and the memory are enough for."""
    most = resource.getrlimit(resource.RLIMIT_NOFILE)[1]
    resource.setrlimit(resource.RLIMIT_NOFILE, (most, most))
    by_descriptors = (most - _RESERVED_DESCRIPTORS) // _DESCRIPTORS_OF_A_CLIENT
    by_memory = _memory() // _PART_OF_MEMORY // _OCTETS_OF_A_CLIENT
    clients = max(_FEWEST, min(by_descriptors, by_memory))
    return Bounds(clients, clients // 2)


def _memory() -> int:
    """The octets of memory that there are for this process."""
    most = os.sysconf("SC_PAGE_SIZE") * os.sysconf("SC_PHYS_PAGES")
    try:
        group = Path("/proc/self/cgroup").read_text().rpartition("::")[2].strip()
        return min(most, int(Path(f"/sys/fs/cgroup{group}/memory.max").read_text()))
    except (OSError, ValueError):
        return most  # There is no such bound.


class Share:
    """What one user has. Quick questions are under way up to a window, which grows while engines answer at once, and
    shrinks while lines wait for them: so a user's own flood fills no engine's queue. `has_others` says whether other
    users may connect. A user has this many `parts`, each at another process."""

    def __init__(self, lag: Callable[[], float], has_others: bool, parts: int = 1) -> None:
        self.has_others = has_others
        self.clients = 0
        self.pins = {True: 0, False: 0}  # Cursors, and watched views.
        self.views = ViewBudget(_MOST_VIEWS_AND_ROOTS // parts)
        self.long_lines = 0
        self.under_way = [0] * 5
        self.most = [_FIRST_WINDOW, 2.0, 2.0, 1024.0, float("inf")]
        self._lag = lag
        self._looked = 0.0
        self._unlooked = 0  # Questions that were answered since the clock was read.
        self._waiting: dict[Waiter, int] = {}  # Those that wait, in their order, and for what.
        self._is_waking = False
        self.left_of_round = _LINES_OF_A_ROUND
        self._for_next_round: dict[Waiter, None] = {}  # Those who wait for the user's next round.
        self._loop = asyncio.get_running_loop()

    @property
    def is_used(self) -> bool:
        return bool(self.clients or any(self.under_way))

    def has_room(self, kind: int, one: Waiter) -> bool:
        """Whether one more line may be under way; if not, this client goes on once there is room."""
        if self.under_way[kind] < self.most[kind] and self.left_of_round > 0:
            return True
        if self.left_of_round <= 0:
            self._for_next_round[one] = None
        else:
            self._waiting[one] = kind
        return False

    def begin(self, kind: int) -> None:
        """A line of this kind is under way. All clients of a user begin few lines while the loop goes round once: a new
        round begins only once half of the last one is used, since beginning one costs as much as some lines."""
        self.under_way[kind] += 1
        self.left_of_round -= 1
        if self.left_of_round == _LINES_OF_A_ROUND // 2:
            self._loop.call_soon(self._begin_round)

    def _begin_round(self) -> None:
        self.left_of_round = _LINES_OF_A_ROUND
        waiting, self._for_next_round = self._for_next_round, {}
        for one in list(waiting):
            if self.left_of_round <= 0:
                break
            del waiting[one]
            one.resume()
        self._for_next_round = {**waiting, **self._for_next_round}

    def end(self, kind: int) -> None:
        """A line of this kind is answered."""
        self.under_way[kind] -= 1
        if kind == ASK:
            self._unlooked += 1
            if self._unlooked == _LOOK_ANSWERS:
                self._look()
        if self._waiting:
            self._wake()

    def _look(self) -> None:
        self._unlooked, now = 0, self._loop.time()
        if now - self._looked > _LOOK_SECONDS:
            self._looked = now
            self._set_window(self._lag())

    def _set_window(self, lag: float) -> None:
        if lag > _LATE:
            self.most[ASK] = max(1.0, self.most[ASK] / 2)
        elif lag < _QUICK:
            self.most[ASK] = min(_LARGEST_WINDOW, self.most[ASK] * 2)

    def take_long_line(self, one: Waiter) -> bool:
        """Whether one more long line may be held; if not, this client goes on once there is room."""
        if self.long_lines < _MOST_LONG_LINES:
            self.long_lines += 1
            return True
        self._waiting[one] = _LONG_LINES
        return False

    @property
    def has_waiting(self) -> bool:
        return bool(self._waiting)

    def end_long_line(self) -> None:
        self.long_lines -= 1
        self._wake()

    def _wake(self) -> None:
        """Has those go on that wait for what there is room for, in the order in which they came."""
        if not self._is_waking:
            self._is_waking = True
            self._loop.call_soon(self._resume)

    def _resume(self) -> None:
        self._is_waking = False
        for one, kind in list(self._waiting.items()):
            if self._has_room_again(kind) and self._waiting.pop(one, None) is not None:
                one.resume()

    def _has_room_again(self, kind: int) -> bool:
        if kind == _LONG_LINES:
            return self.long_lines < _MOST_LONG_LINES
        return self.under_way[kind] < self.most[kind]


class Joining(Protocol):
    """Where a client gets its user's share."""

    def join(self, uid: int) -> Share | None: ...

    def leave(self, share: Share) -> None: ...


class Shares:
    """The shares of all users; each user has this many `parts`, of which one is here. `lag` says for how many seconds
    lines have waited for the engines."""

    def __init__(self, most: Bounds, lag: Callable[[], float], parts: int = 1) -> None:
        self.has_others = False
        self._parts = parts
        self._most = most
        self._lag = lag
        self._clients = 0
        self._shares: dict[int, Share] = {}

    def has_room(self, uid: int, more: int, of_all: int) -> bool:
        """Whether a user may have one more client, after that many more of its own, and of all users."""
        share = self._shares.get(uid)
        return ((share.clients if share else 0) + more < self._most.of_a_user
                and self._clients + of_all < self._most.clients)

    def join(self, uid: int) -> Share | None:
        """A user's share, for one more client; None if there are too many."""
        share = self.of(uid)
        if self._clients >= self._most.clients or share.clients >= self._most.of_a_user:
            return None
        self._clients += 1
        share.clients += 1
        return share

    def of(self, uid: int) -> Share:
        """A user's share, for a client that is counted already."""
        uid = account_of(uid)
        share = self._shares.get(uid)
        if share is None:
            self._shares = {user: one for user, one in self._shares.items() if one.is_used}
            share = self._shares[uid] = Share(self._lag, self.has_others, self._parts)
        return share

    def leave(self, share: Share) -> None:
        self._clients -= 1
        share.clients -= 1
