"""A database file in a reader's process: another process writes to it and holds its lock."""

from __future__ import annotations

import contextlib
import sqlite3
from pathlib import Path

from .database import DatabaseFault
from .sqlite_database import Sqlite, connect
from .sqlite_partial_reads import SqliteParts


class SqliteReading(Sqlite):
    """Nothing can be written through it."""

    def __init__(self, path: Path) -> None:
        super().__init__(path, is_made=False)

    def _open(self, is_made: bool) -> sqlite3.Connection:
        connection = connect(self.path)
        connection.execute("PRAGMA query_only = ON")
        return connection

    def moments(self) -> SqliteMoments:
        return SqliteMoments(self)


class SqliteMoments:
    """While something is read the log can't begin again, so a moment ends with the line for which it began."""

    def __init__(self, database: SqliteReading) -> None:
        self._database = database
        self._parts: SqliteParts | None = None

    @property
    def is_local(self) -> bool:
        return True

    @property
    def parts(self) -> SqliteParts:
        if self._parts is None:
            self._parts = self._database.parts()
        return self._parts

    def begin(self) -> int:
        try:
            self.parts.end()
            return self.parts.begin()
        except sqlite3.Error as error:
            self.close()
            raise DatabaseFault(f"{self._database.path}: {error}") from None

    def end(self) -> bool:
        if self._parts is not None:
            with contextlib.suppress(sqlite3.Error):
                self._parts.end()
        return True

    def frozen(self) -> SqliteParts:
        """The connection that reads now; another one takes its place."""
        parts, self._parts = self.parts, None
        return parts

    def close(self) -> None:
        if self._parts is not None:
            self._parts.close()
            self._parts = None
