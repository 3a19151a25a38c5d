"""What holds a keyring: engines that hold everything, or slices; and what is reported of it."""

from __future__ import annotations

import asyncio
from collections.abc import Callable, Sequence
from functools import partial
from typing import TypeVar

from .engine_capacity import Capacity
from .sliced.shared_sliced_keyring import SharedSliced
from .sliced.sliced_keyring import Sliced
from .storage.database import Actor, Database, DatabaseFault, Finder
from .storage.database_threads import Access
from .storage.journal import Verdicts
from .storage.shared_database import Shared
from .storage.unlooked import Looked
from .whole.engine_pool import Hub
from .whole.shared_engine_pool import SharedHub

_R = TypeVar("_R")


_LONGEST_SILENCE = 3.0  # Seconds within which a primary that isn't cut off gets something from its standby.


class Holding:
    def __init__(self, access: Access, capacity: Capacity, most_age: float | None = None) -> None:
        """`most_age` is how old an answer may be, in seconds; None is as old as it is."""
        self._access = access
        self._capacity = capacity
        self._held: Hub | Sliced | None = None
        self.most_age = most_age

    @property
    def held(self) -> Hub | Sliced:
        assert self._held is not None
        return self._held

    @property
    def database(self) -> Database:
        return self._access.database

    @property
    def fault(self) -> str:
        """Why nothing can be committed at present; empty where all is well."""
        return self.held.fault

    @property
    def count(self) -> int | None:
        """The number of the last change that all engines have; None of a sliced keyring that nobody else changes."""
        return self.held.count if isinstance(self.held, Hub | SharedSliced) else None

    @property
    def age(self) -> float:
        """For how many seconds changes of other services may have been missed."""
        return self.held.age if isinstance(self.held, SharedHub | SharedSliced) else 0.0

    @property
    def is_too_old(self) -> bool:
        """Whether an answer isn't known to be as young as it has to be. At first nothing is known."""
        return self.most_age is not None and isinstance(self._held, SharedHub | SharedSliced) and (
            self.standby is None or self.age > self.most_age)

    def lag(self) -> float:
        """For how many seconds lines have waited for the engines."""
        return self.held.lag() if self._held is not None else 0.0

    @property
    def is_away(self) -> bool:
        """Whether a shared database can't be reached, as far as is known, so that asking it would take long."""
        return isinstance(self._held, SharedHub | SharedSliced) and (
            bool(self.fault) or self.age > _LONGEST_SILENCE)

    @property
    def state(self) -> str:
        """`ok`, or why nothing can be committed as far as is known."""
        if self.fault or not isinstance(self.held, SharedHub | SharedSliced):
            return self.fault or "ok"
        if self.standby is None:
            return f"{self.database.name}: no standby has confirmed anything yet"
        if self.age > _LONGEST_SILENCE:
            return f"{self.database.name}: no standby has confirmed anything for {int(self.age)} seconds"
        return "ok"

    @property
    def standby(self) -> str | None:
        """The setting that names the standby that confirms changes; empty if none does, None if it isn't known."""
        return self.held.standby if isinstance(self.held, SharedHub | SharedSliced) else None

    @property
    def pids(self) -> list[int]:
        """The engines' process numbers."""
        return self.held.pids

    @property
    def loaded(self) -> int | None:
        """How many certificates are loaded of a sliced keyring; None if each engine holds all."""
        return self.held.loaded if isinstance(self.held, Sliced) else None

    @property
    def budget(self) -> int:
        return self._capacity.certificates

    async def pending(self) -> int | None:
        """How many signatures of a sliced keyring have no verdict, well-formed or not; None if engines hold all."""
        return await self.held.read(lambda parts: parts.pending()) if isinstance(self.held, Sliced) else None

    def report(self, text: str) -> None:
        self._access.report(text)

    def note_change(self, session: int, line: bytes) -> None:
        """Writes down a change when it has begun."""
        self._access.note(session, line)

    def note(self, session: int, line: bytes) -> None:
        """Writes down any other line when it is handed in."""
        if not self._access.notes:
            return
        if isinstance(self.held, SharedSliced):
            self.held.note(session, line)
        else:
            self._access.note(session, line)

    def cut_stuck(self) -> None:
        """Ends what a server of the database hasn't answered for long."""
        self._access.cut_stuck()

    async def write(self, call: Callable[[], _R]) -> _R:
        return await self._access.write(call)

    @property
    def takes_verdicts(self) -> bool:
        """Whether many verdicts can be made at once: no engine of this service or of another holds everything."""
        return isinstance(self._held, Sliced) and not isinstance(self.database, Shared)

    async def set_verdicts(self, verdicts: Sequence[tuple[bytes, bytes]], looked: Sequence[Looked],
                           targets: Sequence[bytes], actor: Actor) -> None:
        """Makes verdicts, each by a signature's number, on these certificates, and notes that the verifier has looked
        at some. DatabaseFault if that can't be committed."""
        assert isinstance(self._held, Sliced)
        answer: asyncio.Future[bytes | None] = asyncio.get_running_loop().create_future()

        def done(reply: bytes | None, _: int) -> None:
            if not answer.done():
                answer.set_result(reply)

        self._held.set_verdicts(Verdicts(verdicts, looked, targets, actor, done))
        if await answer != b"ok\n":
            raise DatabaseFault(f"{len(verdicts)} verdicts couldn't be committed")

    async def put_looked(self, looked: Sequence[Looked]) -> None:
        """Notes what the verifier has looked at."""
        note = partial(self.database.put_looked, looked)
        await (asyncio.to_thread(note) if isinstance(self.database, Shared) else self.write(note))

    async def find(self, look: Callable[[Finder], _R]) -> _R:
        return await self._access.find(look)

    async def search(self, look: Callable[[Finder], _R]) -> _R:
        return await self._access.search(look)
