"""Reading the SQLite database in parts."""

import sqlite3
from collections.abc import Callable, Iterator
from pathlib import Path

from .database import DatabaseFault
from .partial_queries import QueriedParts


class SqliteParts(QueriedParts):
    """Reads parts of the database by connections that `connect` makes."""

    def __init__(self, connect: Callable[[Path], sqlite3.Connection], path: Path, is_frozen: bool = False) -> None:
        self._connect = connect
        self._path = path
        self._connection = connect(path)
        self._connection.execute("PRAGMA query_only = ON")
        if is_frozen:
            self._connection.execute("BEGIN")
            self.count()  # The transaction begins to read here.

    def begin(self) -> int:
        """Reads what is committed now until `end`, and gives the number of the last change of that."""
        self._connection.execute("BEGIN")
        (number,) = self._rows("SELECT coalesce(max(number), 0) FROM changes")
        assert isinstance(number[0], int)
        return number[0]

    def end(self) -> None:
        if self._connection.in_transaction:
            self._connection.execute("ROLLBACK")

    def frozen(self) -> "SqliteParts":
        return SqliteParts(self._connect, self._path, is_frozen=True)

    def _rows(self, query: str, *values: object) -> Iterator[tuple[object, ...]]:
        try:
            yield from self._connection.execute(query, values)
        except sqlite3.Error as error:
            raise DatabaseFault(f"{self._path}: {error}") from None

    def _all(self, query: str, *values: object) -> list[tuple[object, ...]]:
        try:
            return self._connection.execute(query, values).fetchall()
        except sqlite3.Error as error:
            raise DatabaseFault(f"{self._path}: {error}") from None

    def close(self) -> None:
        self._connection.close()
