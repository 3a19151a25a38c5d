"""Which database it is: a file of SQLite's, or PostgreSQL by a URL."""

from __future__ import annotations

import contextlib
import os
from pathlib import Path

from tukyamid.safe_folders import make_folder

from ..paths_and_locks import default_database, state_folder
from .database import Actor, Database, DatabaseFault
from .dumps import opened_copy, restore
from .sqlite_database import Sqlite
from .sqlite_files import FileLock
from .sqlite_reading import SqliteReading

_URLS = ("postgresql://", "postgres://")


class Chosen:
    """A database by its name: a path, or a URL. Without a name it is the user's own."""

    def __init__(self, name: str | None) -> None:
        self._url = name if name is not None and name.startswith(_URLS) else None
        self._path = (Path(name) if name is not None else default_database()).resolve()

    @property
    def files(self) -> list[Path]:
        """The database files that no output may replace: this one, and the user's own."""
        return [default_database(), *([self._path] if self._url is None else [])]

    @property
    def is_shared(self) -> bool:
        return self._url is not None

    def lock(self) -> contextlib.AbstractContextManager[object]:
        """Keeps a file to one service. A shared database needs no such lock: services lock it for each change."""
        if self._url is not None:
            return contextlib.nullcontext()
        make_folder(str(self._path.parent))
        return FileLock(self._path)

    def open(self, is_made: bool = True) -> contextlib.closing[Database]:
        """Opens it; DatabaseFault if it can't be used."""
        database: Database = Sqlite(self._path, is_made) if self._url is None else _postgres(self._url)
        return contextlib.closing(database)

    def served(self) -> contextlib.closing[Database]:
        """Opens it for a service, which remembers what it acknowledges if others change the database too."""
        return self.open() if self._url is None else contextlib.closing(_postgres(self._url, state_folder()))

    def read(self) -> contextlib.closing[Database]:
        """Opens it for a process that only reads, beside the service that has it locked."""
        database: Database = SqliteReading(self._path) if self._url is None else _postgres(self._url, is_reader=True)
        return contextlib.closing(database)

    @property
    def name(self) -> str:
        """By which another process opens it."""
        return self._url or str(self._path)

    def restore(self, copy: Path) -> Path | None:
        """Puts a copy that `backup` made into its place. A damaged file is set aside, and its new name given."""
        if self._url is None:
            return restore(self._path, copy)
        with opened_copy(copy) as source, contextlib.closing(source.snapshot()) as snapshot, self.open() as database:
            database.fill(snapshot.lines(), f"restore {copy}", Actor(os.getuid(), os.getpid()))
        return None


def _postgres(url: str, state: Path | None = None, is_reader: bool = False) -> Database:
    try:
        from ..postgres import Postgres, PostgresReading
    except ImportError as error:
        raise DatabaseFault(f"PostgreSQL needs the package python3-psycopg: {error}") from None
    return PostgresReading(url) if is_reader else Postgres(url, state)
