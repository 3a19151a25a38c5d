"""Whether the tables of the SQLite database are of this version, and how they are brought to it."""

import contextlib
import sqlite3
from collections.abc import Iterator

from .database import DatabaseFault
from .sqlite_tables import steps_from
from .upgrade_steps import UPGRADE, Upgrade, make_all

APPLICATION_ID = 0x54756B79  # "Tuky", so that `file` and the service know it from other databases.
VERSION = 5
# Most certificates are shorter than two thousand octets, and few of them share a smaller page without waste.
PAGE_OCTETS = 8192
_SMALLER = 3  # From the version before this one on, a file has room that nothing needs.


def version_of(connection: sqlite3.Connection) -> int:
    return int(connection.execute("PRAGMA user_version").fetchone()[0])


class _Upgraded:
    """The file whose tables become those of this version."""

    def __init__(self, connection: sqlite3.Connection) -> None:
        self.statements = connection

    @contextlib.contextmanager
    def transaction(self) -> Iterator[None]:
        self.statements.execute("BEGIN IMMEDIATE")
        try:
            yield
        except BaseException:
            with contextlib.suppress(sqlite3.Error):
                self.statements.execute("ROLLBACK")
            raise
        self.statements.execute("COMMIT")

    def is_over(self) -> bool:
        return not self.statements.execute("SELECT count(*) FROM sqlite_schema WHERE name = 'upgrade'").fetchone()[0]

    def finish(self) -> None:
        """Nothing: the file has this version's number since the first step, so that no earlier one takes it."""

    def begin(self, version: int) -> None:
        """Makes the tables of a new file, or has the upgrade of this version begin."""
        with self.transaction():
            if version_of(self.statements) != version:
                return  # Somebody else was faster.
            if version:
                self.statements.execute(UPGRADE)
                self.statements.execute("INSERT INTO upgrade VALUES (?, 0, 0)", (version,))
            else:
                make_all(self.statements, steps_from(0))
            self.statements.execute(f"PRAGMA user_version = {VERSION}")
            self.statements.execute(f"PRAGMA application_id = {APPLICATION_ID}")


def prepare(connection: sqlite3.Connection, path: str) -> None:
    """Makes the tables, or brings them to this version; DatabaseFault where the file is none of the service's, or of a
    later version."""
    version = version_of(connection)
    owner = int(connection.execute("PRAGMA application_id").fetchone()[0])
    is_empty = not connection.execute("SELECT count(*) FROM sqlite_schema").fetchone()[0]
    if owner != APPLICATION_ID and not (is_empty and not owner and not version):
        raise DatabaseFault(f"{path} is another program's database")
    if version > VERSION:
        raise DatabaseFault(f"{path} has version {version}, and this program reads versions up to {VERSION}; "
                            "it was made by a later Tukyamid")
    connection.execute(f"PRAGMA page_size = {PAGE_OCTETS}")  # Of a new file, or of one that is rewritten.
    upgraded = _Upgraded(connection)
    if version < VERSION:
        upgraded.begin(version)
    if 0 < Upgrade(path, upgraded, steps_from).run() < _SMALLER:
        with contextlib.suppress(sqlite3.OperationalError):  # With no room for a copy, it stays as large as it is.
            connection.execute("PRAGMA journal_mode = DELETE")
            connection.execute("VACUUM")
