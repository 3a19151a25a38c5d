"""Where all lines come in. While one engine can hold the keyring, each engine holds all of it; a keyring that has grown
larger is held in slices from then on."""

from __future__ import annotations

import asyncio
import contextlib
from collections.abc import Awaitable, Callable, Sequence
from dataclasses import replace
from functools import partial
from typing import Protocol

from .engine_capacity import Capacity
from .keyring_holder import Holding
from .sessions.command_kinds import OF_THE_WHOLE
from .sessions.cursors import Cursors
from .sessions.outbox import Outbox, Pieces
from .sessions.user_shares import Share
from .sessions.views import Views
from .sessions.watches import Watches
from .sliced.shared_sliced_keyring import SharedSliced
from .sliced.sliced_cursors import SlicedCursors
from .sliced.sliced_keyring import Sliced
from .sliced.sliced_watches import SlicedWatches
from .storage.database import Actor, DatabaseFault, Snapshot
from .storage.database_threads import Access
from .storage.group_commit import FAULT
from .storage.journal import Done
from .storage.partial_reads import MOST, HasParts, SharedInParts
from .storage.shared_database import News, Shared
from .storage.locked_changes import Begun, Waiting
from .waiting_lines import Place, WaitingLines
from .whole.engine_pool import Hub
from .whole.shared_engine_pool import SharedHub

LOADED_AT_ONCE = 2 << 20  # Octets of certificates: an engine loads them in less than a tenth of a second.
_PAUSE = 1.0
_PATIENCE = 30.0


class IntakeClient(Protocol):
    """A client whose lines come in here."""

    def use_slices(self, sliced: Sliced) -> None:
        """The keyring is sliced from now on. Nothing of the client is under way."""

    def resume(self) -> None:
        """Lines that have come meanwhile may begin."""


class LineIntake(Holding):
    """`budget` is how many certificates an engine may hold."""

    def __init__(self, program: Sequence[str], most_engines: int, access: Access, budget: int,
                 most_age: float | None = None) -> None:
        most = replace(MOST, certificates=min(budget, MOST.certificates))
        super().__init__(access, Capacity(access.database, most), most_age)
        self.clients: set[IntakeClient] = set()
        self._waiting = WaitingLines(self._resumed, access.report)
        self._program = program
        self._most_engines = most_engines
        self.early: Sliced | None = None
        self._task: asyncio.Task[None] | None = None

    async def start(self) -> None:
        """Starts the first engine; OSError, ValueError or DatabaseFault where it can't take the database. If there is
        much to load, questions are answered from slices until `load` is over."""
        held: Hub | Sliced = self._whole() if await self._capacity.has_all() else self._sliced()
        self._held = held
        if not isinstance(held, Hub) or self._capacity.octets <= LOADED_AT_ONCE or isinstance(self.database, Shared):
            await held.start()
            return
        await held.begin()
        early = self._sliced()
        await early.start()
        self.early = early

    async def load(self) -> None:
        """Waits until the first engine has taken all of the database; the errors are those of `start`."""
        if self.early is None or not isinstance(self.held, Hub):
            return
        await self.held.load()
        self._waiting.is_held_up = True  # Until all that was asked early is answered, no change may be made.
        try:
            await self.early.close()
        except Exception as error:
            self.report(repr(error))
        finally:
            self.early = None
            self._waiting.resume([])

    def takes(self, line: bytes) -> bool:
        """Whether this line may begin now."""
        if self.early is None:
            return not (self._waiting.is_held_up or self._waiting.waiting)  # As `is_clear`, for every line.
        return not self._waiting.is_held_up and line.partition(b" ")[0] not in OF_THE_WHOLE

    async def close(self) -> None:
        if self._task is not None:
            with contextlib.suppress(asyncio.TimeoutError):
                await asyncio.wait_for(self._task, _PATIENCE)
        if self.early is not None:
            await self.early.close()
        if self._held is not None:
            await self._held.close()
        self._access.close()

    def watches(self, outbox: Outbox, views: Views, share: Share) -> Watches | SlicedWatches:
        """A client's watches."""
        if isinstance(self.held, Sliced):
            return SlicedWatches(self.held, outbox, views, share)
        return Watches(self.held, outbox, views, share)

    def cursors(self, views: Views, share: Share) -> Cursors | SlicedCursors:
        """A client's cursors."""
        if isinstance(self.held, Sliced):
            return SlicedCursors(self.held, views, share)
        return Cursors(self.held, views, share)

    def change(self, line: bytes, actor: Actor, done: Done, begun: Begun = lambda: None) -> None:
        """Has a change made; `done` gets its reply once it is committed, and `begun` is called when it has its place in
        the order of lines."""
        self._place(partial(self._change, Waiting(line, actor, done, begun)))

    def _place(self, place: Place) -> None:
        if self.early is None and self._waiting.is_clear:
            place()
        else:
            self._waiting.add(place)

    def _change(self, one: Waiting) -> None:
        held = self.held
        try:
            if isinstance(held, Hub) and not held.fault and not self._capacity.takes(one.line):
                self._begin_slicing(held, lambda: self._capacity.takes_measured(one.line), one)
                return
        except Exception as error:
            self._fail(one, error)
            return
        self._hand_on(one)

    def _hand_on(self, one: Waiting) -> None:
        try:
            self.held.change(one.line, one.actor, one.done, one.begun)
        except Exception as error:
            self._fail(one, error)

    def _fail(self, one: Waiting, error: Exception) -> None:
        self.report(f"a change is refused: {error!r}")
        one.begun()
        one.done(FAULT, self.count or 0)

    async def _takes_news(self, news: News) -> bool:
        """Whether engines that hold everything have room for what other services have changed. If they haven't, the
        keyring is sliced from now on."""
        if await self._capacity.takes_news(news):
            return True
        if not self._waiting.is_held_up and isinstance(self.held, Hub):
            self._begin_slicing(self.held, self._capacity.has_all, None)
        return False

    def _begin_slicing(self, hub: Hub, has_room: Callable[[], Awaitable[bool]], change: Waiting | None) -> None:
        self._waiting.is_held_up = True
        self._task = asyncio.get_running_loop().create_task(self._slice_and_go_on(hub, has_room, change))

    async def _slice_and_go_on(self, hub: Hub, has_room: Callable[[], Awaitable[bool]], change: Waiting | None) -> None:
        """When all that came before is done, the keyring is sliced unless an engine has room for it. Then this change
        is made, after those that have waited."""
        waiting: list[Waiting] = []
        try:
            await hub.wait_until_idle()
            waiting = hub.waiting()
            await self._slice_unless(hub, has_room)
        except Exception as error:  # It is the doing of this change; the others go on.
            if change is None:
                self.report(repr(error))
            else:
                self._fail(change, error)
                change = None
        finally:
            behind = [] if change is None else [partial(self._hand_on, change)]
            self._waiting.resume([*(partial(self._change, one) for one in waiting), *behind])

    async def _slice_unless(self, hub: Hub, has_room: Callable[[], Awaitable[bool]]) -> None:
        while self.held is hub:
            try:
                if await has_room():
                    return
                await self._slice(hub)
            except (DatabaseFault, OSError) as fault:
                self.report(str(fault))
                if not hub.is_outgrown:
                    return
                await asyncio.sleep(_PAUSE)

    def _resumed(self) -> None:
        for clients in list(self.clients):
            clients.resume()

    async def _slice(self, hub: Hub) -> None:
        sliced = self._sliced()
        try:
            await sliced.start()
        except BaseException:
            await sliced.close()
            raise
        self._held = sliced
        self._access.feed.sliced()
        for clients in list(self.clients):
            clients.use_slices(sliced)
        self.report("the keyring is now larger than an engine, and is held in slices")
        await hub.close()

    def _whole(self) -> Hub:
        if isinstance(self.database, Shared):
            return SharedHub(self._program, self._most_engines, self.database, self._access, self._takes_news)
        return Hub(self._program, self._most_engines, self.database, self._access)

    def _sliced(self) -> Sliced:
        if isinstance(self.database, SharedInParts):
            return SharedSliced(self._program, self._access, self.database, self._capacity.certificates)
        assert isinstance(self.database, HasParts)
        return Sliced(self._program, self._access, self.database, self._capacity.certificates)

    def ask(self, line: bytes, done: Done) -> None:
        """Asks what is no view's, and changes nothing."""
        if self.takes(line):
            self._ask(line, done)
        else:
            self._waiting.add(partial(self._ask, line, done))

    def _ask(self, line: bytes, done: Done) -> None:
        (self.early or self.held).ask(line, done)

    def keys(self, done: Callable[[bytes | Pieces | None, int], None]) -> None:
        if isinstance(self.held, Sliced):
            self.held.keys(done)
        else:
            self.held.ask(b"keys", done)

    def snapshot(self, done: Callable[[Snapshot | None], None], begun: Begun = lambda: None) -> None:
        """Asks for a snapshot of the keyring behind the changes so far; `begun` as with a change."""
        self._place(partial(self._snapshot, done, begun))

    def _snapshot(self, done: Callable[[Snapshot | None], None], begun: Begun) -> None:
        if isinstance(self.held, Sliced):
            begun()
            self.held.snapshot(done)
        else:
            self.held.snapshot(done, begun)
