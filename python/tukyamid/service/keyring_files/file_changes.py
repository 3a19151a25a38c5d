"""Which keyrings have other files than when they were read: by the kernel's notices, and by looking now and then."""

from __future__ import annotations

import asyncio
from collections.abc import Collection

from .file_notices import Names, Notices
from .keyring_contents import Stamp, folders_of, stamp_of
from .watched_files import Unreadable

# How often files are looked at: those about which the kernel sends no notices, and all of them.
_PAUSE = 2.0
_SECONDS_OF_NOTICES = 60.0
_SHARE = 20  # Looking takes no more than this part of the time.


class FileChanges:
    """Keyrings are known by their names. One that can't be read has None for a stamp."""

    def __init__(self) -> None:
        self._stamps: dict[str, Stamp | None] = {}
        self._notices = Notices()
        self._noticed: set[str] = set()
        self._all_at = 0.0
        self._pause = _PAUSE

    async def changed(self, names: Collection[str], faulty: Collection[str]) -> list[str]:
        """Which of these keyrings are to be read. Those that were `faulty` are read again now and then."""
        loop = asyncio.get_running_loop()
        begun, noticed = loop.time(), self._noticed
        self._noticed = set()
        if begun >= self._all_at:
            noticed, self._all_at = set(names), begun + _SECONDS_OF_NOTICES
            for name in faulty:
                self._stamps.pop(name, None)
        due = [name for name in names if name in noticed or not self._notices.is_watched(name)]
        for name, folders in zip(due, await asyncio.to_thread(lambda: list(map(_folders, due)))):
            self._notices.watch(name, folders)
        stamps = await asyncio.to_thread(lambda: list(map(_stamp, due)))
        self._pause = max(_PAUSE, _SHARE * (loop.time() - begun))
        return [name for name, stamp in zip(due, stamps)
                if name not in self._stamps or self._stamps[name] != stamp]

    async def wait(self, is_at_rest: bool) -> None:
        """Waits until something may have changed, or until it is time to look. At rest, nothing else has to be done
        meanwhile."""
        seconds = _SECONDS_OF_NOTICES if is_at_rest and self._stamps and all(
            map(self._notices.is_watched, self._stamps)) else self._pause
        self._noticed |= await self._notices.wait(seconds)

    def note_read(self, name: str, stamp: Stamp | None) -> None:
        """A keyring was read, and had this stamp before that."""
        self._stamps[name] = stamp
        if not self._notices.is_watched(name):
            self._notices.notice(name)

    async def note_unreadable(self, name: str) -> None:
        """A keyring couldn't be read: it is read again when its files change, and now and then."""
        self.note_read(name, await asyncio.to_thread(_stamp, name))

    def forget(self, name: str) -> None:
        """A keyring is no longer watched, or is to be read again in any case."""
        self._stamps.pop(name, None)
        self._notices.forget(name)

    def close(self) -> None:
        self._notices.close()


def _stamp(name: str) -> Stamp | None:
    try:
        return stamp_of(name)
    except Unreadable:
        return None


def _folders(name: str) -> dict[str, Names]:
    try:
        return folders_of(name)
    except OSError:
        return {}
