"""What changes do to the tables in PostgreSQL beside what they do in any database: other services are notified."""

import secrets

from ..storage.database import Change
from ..storage.shared_database import Place
from ..storage.table_changes import Writing
from .notifications import CHANNEL
from .postgres_statements import Statements

_KEPT_LINES = 10_000
_KEPT_LONG_LINES = 20
_LONG = 1 << 16


class SharedWriting(Writing):
    """Changes under one lock. The lines of the last ones are kept for the other services, fewer if they are long."""

    def __init__(self, statements: Statements, machine: str) -> None:
        super().__init__(statements)
        self._statements = statements
        self._machine = machine
        self._before = self._number
        self._changes: list[tuple[object, ...]] = []
        self.lines: list[tuple[int, bytes, bytes | None]] = []
        self.place: Place | None = None

    def _log(self, change: Change, now: int) -> None:
        self._number += 1
        self.place = Place(self._number, secrets.token_bytes(16))
        self._changes.append((self._number, now, change.actor.uid, change.actor.pid, change.what, self._machine,
                              self.place.mark))
        self.lines.append((*row_of(self.place), change.line or None))

    def report(self) -> None:
        """Logs the changes, and notifies the other services of them once they are committed."""
        if self.place is not None:
            self._statements.executemany("INSERT INTO changes VALUES (?, ?, ?, ?, ?, ?, ?)", self._changes)
            self._statements.executemany("INSERT INTO lines VALUES (?, ?, ?)", self.lines)
            self._statements.execute("UPDATE head SET number = ?, mark = ?", row_of(self.place))
            self._statements.execute("DELETE FROM lines WHERE number < ?", (self._number - _KEPT_LINES,))
            self._statements.execute(
                "UPDATE lines SET line = NULL WHERE number BETWEEN ? AND ? AND length(line) > ?",
                (self._before - _KEPT_LONG_LINES, self._number - _KEPT_LONG_LINES, _LONG))
            self._statements.connection.execute(f"NOTIFY {CHANNEL}".encode())


def row_of(place: Place) -> tuple[int, bytes]:
    return place.number, place.mark
