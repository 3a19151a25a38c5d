"""Loads large keyrings part by part. Other lines are answered between two parts."""

from __future__ import annotations

import asyncio
from collections.abc import Callable
from contextlib import aclosing
from dataclasses import replace

from ..line_intake import LineIntake
from ..storage.database import UNVERIFIED, Actor, Source
from .fault_texts import fault_of
from .file_changes import FileChanges
from .keyring_contents import stamp_of
from .keyring_records import Records
from .large_keyrings import Load, are_whole
from .progress import Progress, Say
from .verification import Verification
from .watched_files import Unreadable


class LargeUpdates:
    """`lock` is held while anything is made of a keyring. `report` is called with how far a load is."""

    def __init__(self, intake: LineIntake, records: Records, verification: Verification, lock: asyncio.Lock,
                 report: Callable[[str], None]) -> None:
        self._intake = intake
        self._records = records
        self._verification = verification
        self._lock = lock
        self._report = report
        self._loads: dict[str, asyncio.Lock] = {}

    def is_loading(self, name: str | None = None) -> bool:
        """Whether this keyring is being loaded, or any."""
        return any(lock.locked() for own, lock in self._loads.items() if name in (own, None))

    async def note_unchanged(self, name: str, files: FileChanges) -> bool:
        """Whether all of a keyring is loaded as it is now. Then that is noted."""
        loaded = await self._intake.find(lambda finder: finder.loaded(name))
        stamp = await asyncio.to_thread(stamp_of, name)
        is_unchanged = await asyncio.to_thread(are_whole, name, loaded)
        if is_unchanged:
            files.note_read(name, stamp)
        return is_unchanged

    async def load(self, name: str, actor: Actor, say: Say, is_asked: bool) -> Source:
        """Loads what isn't loaded of a keyring yet. Returns it as it is recorded once all is verified. If somebody
        asked for a keyring that was loaded before, all of it is loaded again."""
        async with self._loads.setdefault(name, asyncio.Lock()):
            async with self._lock:
                source = await self._records.of(name)
                if is_asked and (source is None or source.is_verified):
                    await self._intake.write(lambda: self._intake.database.drop_loaded(name))
                await self._put(source or Source(name), 0.0)
            load = Load(self._intake, name, self._verification.program()[:-2])
            await self._take_all(load, name, actor, say)
            return await self._loaded(load, name, source)

    async def _take_all(self, load: Load, name: str, actor: Actor, say: Say) -> None:
        progress = Progress(say, "certificates")
        async with aclosing(load.parts(progress)) as parts:
            async for part in parts:
                async with self._lock:
                    source = await self._records.of(name)
                    if source is None:
                        raise Unreadable(f"{name}: it is no longer watched")
                    await load.take(part, actor, progress)
                    await self._put(replace(source, certificates=load.certificates), load.share)

    async def _loaded(self, load: Load, name: str, before: Source | None) -> Source:
        total, left_out = load.certificates, load.left_out
        async with self._lock:
            if left_out and not total and before is None:
                await self._records.drop(name)
                raise Unreadable(left_out[0])
            await self._put(Source(name, certificates=total), 1.0)
        return Source(name, load.digest, total, fault_of(0, total, left_out))

    async def _put(self, source: Source, share: float) -> None:
        why = f"{100 * share:.0f} % is loaded, and then all is verified"
        self._report(why)
        self._verification.left = (await self._intake.find(lambda finder: finder.figures())).pending
        await self._records.put(replace(source, digest=UNVERIFIED, fault=why))
