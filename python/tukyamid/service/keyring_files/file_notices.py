"""The kernel's notices about the files of watched keyrings (inotify), by the calls of python3-watchdog.

A notice only says that a keyring may have changed: whether it has is seen by its files. So notices may be lost, be too
many, or be about something else, and anyone who can write to a directory can't do more than have its files looked at
five times a second. The library's own reader isn't used: it has two threads for each directory, and keeps every notice.
"""

from __future__ import annotations

import asyncio
import importlib
import os
import struct
from collections.abc import Callable, Iterator, Mapping
from typing import Protocol

_PAUSE = 0.2
_HEAD = struct.Struct("iIII")
_MOST_READ = 1 << 16

Names = frozenset[bytes] | None


class _Kernel(Protocol):
    """The calls of the library; each returns -1 if it fails."""
    inotify_init: Callable[[], int]
    inotify_add_watch: Callable[[int, bytes, int], int]
    inotify_rm_watch: Callable[[int, int], int]


def _kernel() -> tuple[_Kernel, int, int] | None:
    """The calls, the events of a directory that matter, and those that say that it went away; None if the library
    isn't installed."""
    try:
        found = importlib.import_module("watchdog.observers.inotify_c")
    except Exception:  # It isn't there, or doesn't know this system.
        return None
    about = found.InotifyConstants
    noticed = (about.IN_CLOSE_WRITE | about.IN_CREATE | about.IN_DELETE | about.IN_MOVE | about.IN_ATTRIB
               | about.IN_DELETE_SELF | about.IN_MOVE_SELF | about.IN_ONLYDIR)
    return found, noticed, about.IN_IGNORED


class Notices:
    """Notices about keyrings, by their names. Without the kernel's help none come, and `watch` returns False."""

    def __init__(self) -> None:
        self._noticed: set[str] = set()
        self._event = asyncio.Event()
        self._kernel: tuple[_Kernel, int, int] | None = None
        self._number = -1
        self._is_asked = False
        # By the number of a watched directory: the keyrings whose files are there, and which files.
        self._watched: dict[int, dict[str, Names]] = {}
        self._folders: dict[str, set[int]] = {}

    def watch(self, name: str, folders: Mapping[str, Names]) -> bool:
        """Has changes in these directories noticed, and returns whether that can be done."""
        if not self._is_asked:
            self._is_asked = True
            self._open()
        if self._kernel is None:
            return False
        self.forget(name)
        own = self._folders[name] = set()
        for folder, names in folders.items():
            number = self._kernel[0].inotify_add_watch(self._number, os.fsencode(folder), self._kernel[1])
            if number < 0:  # The directory isn't there, or the user watches too many.
                self.forget(name)
                return False
            self._watched.setdefault(number, {})[name] = names
            own.add(number)
        return True

    def is_watched(self, name: str) -> bool:
        return name in self._folders

    def forget(self, name: str) -> None:
        for number in self._folders.pop(name, ()):
            of = self._watched.get(number, {})
            of.pop(name, None)
            if not of and self._watched.pop(number, None) is not None and self._kernel is not None:
                self._kernel[0].inotify_rm_watch(self._number, number)

    async def wait(self, seconds: float) -> set[str]:
        """Waits for notices, this long at most; returns the names of the keyrings that may have changed."""
        try:
            await asyncio.wait_for(self._event.wait(), seconds)
        except asyncio.TimeoutError:
            pass
        self._event.clear()
        noticed, self._noticed = self._noticed, set()
        return noticed

    def notice(self, name: str) -> None:
        """A keyring is to be looked at."""
        self._noticed.add(name)
        self._event.set()

    def close(self) -> None:
        if self._number >= 0:
            asyncio.get_running_loop().remove_reader(self._number)
            os.close(self._number)
            self._number, self._kernel = -1, None

    def _open(self) -> None:
        self._kernel = _kernel()
        self._number = self._kernel[0].inotify_init() if self._kernel is not None else -1
        if self._number < 0:
            self._kernel = None
            return
        os.set_blocking(self._number, False)
        os.set_inheritable(self._number, False)
        asyncio.get_running_loop().add_reader(self._number, self._read)

    def _read(self) -> None:
        """Takes what came, and then nothing for a while: what comes meanwhile says the same."""
        loop = asyncio.get_running_loop()
        loop.remove_reader(self._number)
        try:
            octets = os.read(self._number, _MOST_READ)
        except BlockingIOError:
            octets = b""
        for number, mask, file in _cut(octets):
            self._take(number, mask, file)
        loop.call_later(_PAUSE, self._read_on)

    def _read_on(self) -> None:
        if self._noticed:
            self._event.set()
        if self._number >= 0:
            asyncio.get_running_loop().add_reader(self._number, self._read)

    def _take(self, number: int, mask: int, file: bytes) -> None:
        if number < 0:  # More came than the kernel keeps: anything may have changed.
            self._noticed.update(self._folders)
            return
        of = self._watched.get(number, {})
        is_gone = self._kernel is not None and bool(mask & self._kernel[2])
        self._noticed.update(name for name, names in of.items()
                             if is_gone or names is None or not file or file in names)
        if is_gone:
            for name in list(of):
                self._watched.pop(number, None)
                self.forget(name)


def _cut(octets: bytes) -> Iterator[tuple[int, int, bytes]]:
    """The number, the mask and the file's name of each notice."""
    at = 0
    while at + _HEAD.size <= len(octets):
        number, mask, _, length = _HEAD.unpack_from(octets, at)
        at += _HEAD.size + length
        yield number, mask, octets[at - length:at].rstrip(b"\0")
