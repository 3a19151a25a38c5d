"""All engines over one keyring, and which line goes where."""

from __future__ import annotations

import asyncio
from collections.abc import Callable, Sequence
from functools import partial

from ..engines.in_flight import NO_ENGINE, ignore
from ..engines.shared_views import EngineViews
from ..engines.supervised_engine import Engine
from ..engines.watch_places import WatchPlaces
from ..storage.certificate_rows import brought, exports
from ..storage.change_feed import Numbered
from ..storage.database import Actor, Database, Snapshot
from ..storage.database_threads import Access
from ..storage.group_commit import FAULT, Barrier, Committer
from ..storage.journal import Change, Done, Journal, Point
from ..storage.locked_changes import Begun, Waiting

_BUSY_SECONDS = 0.05
_LONGER_FOR_CHANGES = 5
_RENEWING_SECONDS = 1.0


class Hub:
    """Sends every change to all engines in one order, and a question to one of them. Nothing here waits: a line's place
    in the order is the moment at which it is handed in. `SharedHub` is one over a database that others change too."""

    _renewing_cost = 1  # How much dearer a newer snapshot is than opening one.

    def __init__(self, program: Sequence[str], most_engines: int, database: Database,
                 access: Access | None = None) -> None:
        self.engines: list[Engine] = []
        self.engine_views = EngineViews(self._least_busy, self._another, self.engines, most_engines)
        self.watch_places = WatchPlaces()
        self.access = access or Access(database)
        self._owns_access = access is None
        self._program = program
        self._most_engines = most_engines
        self._committer = Committer(database, self.access.writing, self._release, self._roll_back, self.access.feed)
        self._journal: Journal | None = None
        self._is_renewing = False

    @property
    def fault(self) -> str:
        """Why nothing can be committed at present; empty where all is well."""
        return self._committer.fault

    @property
    def count(self) -> int:
        """The number of the last change that is committed."""
        return self._committer.count

    @property
    def pids(self) -> list[int]:
        return [engine.pid for engine in self.engines if engine.pid is not None]

    def lag(self) -> float:
        """For how many seconds a line has waited: a question for the engine that has the least to do, and a change for
        all of them, of which it may take more."""
        lags = [engine.lag() for engine in self.engines] or [0.0]
        return max(min(lags), max(lags) / _LONGER_FOR_CHANGES)

    async def start(self) -> None:
        """Starts the first engine, and waits until it has taken the whole database; the errors are those of `begin`."""
        await self.begin()
        await self.load()

    async def begin(self) -> None:
        """Starts the first engine, and waits until it takes the database; OSError, ValueError or DatabaseFault where it
        can't."""
        snapshot = await self.access.write(self.access.database.snapshot)
        self._committer.count = snapshot.change
        self._journal = Journal(snapshot)
        await self._start_engine().has_begun

    async def load(self) -> None:
        """Waits until the first engine has taken all of the database; the errors are those of `begin`."""
        await asyncio.shield(self.engines[0].ready)

    async def close(self) -> None:
        """Ends the engines. What was handed in is answered first, and so is committed."""
        await asyncio.gather(*(engine.close() for engine in self.engines))
        while self._committer.is_busy:
            await asyncio.sleep(0.01)
        await self._end_locking()
        if self._journal is not None:
            self._journal.close()
        if self._owns_access:
            self.access.close()

    async def _end_locking(self) -> None:
        """Makes no more changes, if the database is shared."""

    async def wait_until_idle(self) -> None:
        """Comes back when all that was handed in is answered, and committed."""
        while self._committer.is_busy or any(engine.is_busy for engine in self.engines):
            await asyncio.sleep(0.002)

    @property
    def is_outgrown(self) -> bool:
        """Whether others have made the keyring larger than an engine: then this takes no change any more."""
        return False

    def waiting(self) -> list[Waiting]:
        """The changes that wait for the lock, if the database is shared."""
        return []

    def report(self, text: str) -> None:
        self.access.report(text)

    def change(self, line: bytes, actor: Actor, done: Done, begun: Begun = lambda: None) -> None:
        """Has a change made; `done` gets its reply once all engines have answered and it is committed. `begun` is
        called when it is sent to them: at once, unless it waits for the lock of a shared database."""
        if self._committer.refuses():
            begun()
            done(FAULT, self.count)
        else:
            self.send_change(line, actor, done)
            begun()

    def send_change(self, line: bytes, actor: Actor, done: Done) -> None:
        """Sends a change to all engines, and hands it to the committer."""
        assert self._journal is not None
        fprs = brought(line)
        change = self._journal.add(line, set(self.engines), actor, fprs, done)
        self._committer.add(change)
        for engine in self.engines:
            engine.send(line, partial(self._changed, change, engine), change)
        if fprs:
            self.engines[0].send(exports(line), partial(self._exported, change), is_inner=True, replies=len(fprs))

    def take_committed(self, lines: Numbered) -> None:
        """Has all engines take what was committed elsewhere. Nothing is under way in them that isn't committed."""
        assert self._journal is not None
        for number, line in lines:
            self.access.note(0, line)
            change = self._journal.add_committed(line, set(self.engines), number, ignore)
            self._committer.count = number
            for engine in self.engines:
                engine.send(line, ignore, change)
        if lines:
            self._release()

    def ask(self, line: bytes, done: Done) -> None:
        """Sends a line that is no view's, and changes nothing, to the engine that has the least to do."""
        self._least_busy().send(line, done)

    def snapshot(self, done: Callable[[Snapshot | None], None], begun: Begun = lambda: None) -> None:
        """Asks for a snapshot of the keyring behind the changes so far; of a shared database, also behind later ones.
        `begun` is called when its place among them is known."""
        begun()
        self._committer.add(Barrier(done))

    def withdraw_where_all_are_stuck(self, change: Change) -> None:
        """A change that ends every program, and that none has answered, is withdrawn from all."""
        assert self._journal is not None
        if change.reply is None and all(engine.stuck is change for engine in change.left):
            for engine in change.left:
                engine.give_up_first()
            self._journal.forget(change)
            change.is_over = True
            self._committer.advance()

    def refuse_changes(self, why: str) -> None:
        self._committer.refuse_all(why, NO_ENGINE)

    def _least_busy(self) -> Engine:
        """The engine that has the least to do. Where all have much, another one is started for what comes later."""
        ready = [engine for engine in self.engines if engine.ready.done()] or self.engines
        engine = min(ready, key=lambda one: len(one.waiting))
        if len(ready) == len(self.engines) < self._most_engines and engine.lag() > _BUSY_SECONDS:
            self._start_engine()
        return engine

    def _another(self) -> Engine | None:
        """Starts another engine; None where there are as many as there may be."""
        return self._start_engine() if len(self.engines) < self._most_engines else None

    def _start_engine(self) -> Engine:
        assert self._journal is not None
        engine = Engine(self._program, self._journal, self, self._journal.last)
        self.engines.append(engine)
        return engine

    def _changed(self, change: Change, engine: Engine, reply: bytes | None, _: int) -> None:
        assert self._journal is not None
        change.left.discard(engine)
        if change.reply is None:
            change.reply = reply
        elif change.reply != reply:
            self.report("engines gave different replies to one line: "
                        f"{change.reply[:80]!r} and {(reply or b'')[:80]!r}")
        if not change.left:
            if change.reply is not None and not change.reply.startswith(b"ok"):
                self._journal.forget(change)
                change.is_over = True
            self._committer.advance()

    def _exported(self, change: Change, reply: bytes | None, place: int) -> None:
        if change.count is not None:
            return  # It was refused meanwhile.
        fpr = change.fprs[place]
        change.exported[fpr] = reply or b""
        if change.is_answered:
            self._committer.advance()

    def _release(self) -> None:
        assert self._journal is not None
        for engine in self.engines:
            engine.release()
        self._take_offered()
        if self._journal.is_long(self._renewing_cost) and not self._is_renewing:
            self._renew()

    def _renew(self) -> None:
        """Has a newer snapshot made behind the changes so far. By then all engines have answered these."""
        assert self._journal is not None
        self._is_renewing = True
        self._committer.add(Barrier(partial(self._renewed, self._journal.last), self._journal.lend))

    def _take_offered(self) -> None:
        assert self._journal is not None
        self._journal.take_offered(min(engine.point.place for engine in self.engines))

    def _renewed(self, point: Point | None, snapshot: Snapshot | None) -> None:
        """Takes a snapshot behind this point; of a shared database it is behind all changes so far."""
        self._is_renewing = False
        assert self._journal is not None
        if snapshot is not None:
            self._journal.offer(point or self._journal.last, snapshot)
            self._take_offered()
        elif not self._journal.is_there:  # It was lent, and engines may wait for it.
            self._is_renewing = True
            asyncio.get_running_loop().call_later(_RENEWING_SECONDS, self._renew)

    def _roll_back(self, failed: list[Change], why: str) -> None:
        """These changes couldn't be committed: all engines go back to the place before them."""
        assert self._journal is not None
        self.report(f"{len(failed)} changes were refused, because they can't be stored: {why}")
        for change in failed:
            self._journal.forget(change)
        for engine in self.engines:
            engine.roll_back(failed[-1])
