"""The files of the SQLite database: that they are still those that were opened, and that nobody else has them."""

from __future__ import annotations

import contextlib
import os
from pathlib import Path

from ..paths_and_locks import Lock, Taken, beside
from .database import DatabaseFault

LOG, SHARED_MEMORY = "-wal", "-shm"


class Files:
    """A database and its log. SQLite opens both by their names. It keeps the log beside the name of the database, and
    deletes a log that it finds beside an empty one."""

    def __init__(self, path: Path) -> None:
        self._path = path
        self._identities = self._read_identities()

    def check(self) -> None:
        """DatabaseFault if another file, or none, has taken the place of one of them: what is written then is gone."""
        try:
            is_same = self._read_identities() == self._identities
        except FileNotFoundError:
            is_same = False
        if not is_same:
            raise DatabaseFault(f"{self._path}: the database's file was taken away")

    def _read_identities(self) -> list[tuple[int, int]]:
        return [(found.st_dev, found.st_ino) for found in map(os.stat, (self._path, beside(self._path, LOG)))]


def only_log(path: Path) -> str:
    """What is wrong if there is a log without its database; empty if all is well."""
    log = beside(path, LOG)
    if _size(path) or not _size(log):
        return ""
    return f"{path}: only its log is there, {log.name}; put the database's file back, or move the log away"


def more_names(path: Path) -> str:
    """What is wrong if the file has other names too; empty if all is well. Each name would have a log of its own."""
    with contextlib.suppress(FileNotFoundError):
        names = path.stat().st_nlink
        if names > 1:
            return f"{path}: this file has {names} names (hard links); remove the others, or make a copy with backup"
    return ""


def _refuse(wrong: str) -> None:
    if wrong:
        raise DatabaseFault(wrong)


def _size(path: Path) -> int:
    try:
        return path.stat().st_size
    except FileNotFoundError:
        return 0


class FileLock:
    """Keeps a database to one process, by whatever name that knows it: its lock file is beside its name, and the file
    itself is locked too."""

    def __init__(self, path: Path) -> None:
        """`Taken` if another process has it; DatabaseFault if it can't be opened."""
        with contextlib.ExitStack() as stack:
            stack.enter_context(Lock(beside(path, ".lock")))
            _refuse(only_log(path))
            try:
                stack.enter_context(Lock(path))
            except Taken:
                raise Taken(f"another process uses {path}") from None
            _refuse(more_names(path))
            self._locks = stack.pop_all()

    def __enter__(self) -> FileLock:
        return self

    def __exit__(self, *_: object) -> None:
        self._locks.close()
