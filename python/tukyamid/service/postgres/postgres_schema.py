"""Whether the tables in PostgreSQL are of this version, and how they are brought to it."""

import contextlib
from collections.abc import Callable, Iterator

import psycopg

from ..storage.database import DatabaseFault
from ..storage.upgrade_steps import LONGEST_STEP, UPGRADE, Upgrade, make_all
from .postgres_connection import Wire
from .postgres_statements import Statements
from .postgres_tables import steps_from

VERSION = 5
_LOCK = 0x54756B79  # "Tuky": so that of two services that start at once one makes the tables.
_UPGRADING = _LOCK + 1  # Whoever upgrades them has this one.


def version_of(statements: Statements, name: str) -> int:
    """The tables' version, 0 if there are none; DatabaseFault if it is a later one."""
    if not statements.row("SELECT to_regclass('tukyamid') IS NOT NULL")[0]:
        return 0
    version = int(statements.row("SELECT version FROM tukyamid")[0])
    if version > VERSION:
        raise DatabaseFault(f"{name} has version {version}, and this program reads versions up to {VERSION}; "
                            "it was made by a later Tukyamid")
    return version


def is_current(connection: "psycopg.Connection[tuple[object, ...]]", name: str) -> bool:
    """Whether the tables are of this version, and no upgrade is under way; DatabaseFault if they are of a later one."""
    statements = Statements(connection)
    return version_of(statements, name) == VERSION and _is_over(statements)


def _is_over(statements: Statements) -> bool:
    """Whether no upgrade is under way."""
    return not statements.row("SELECT to_regclass('upgrade') IS NOT NULL")[0]


def prepare(wire: Wire, name: str) -> None:
    """Makes the tables, or brings them to this version; DatabaseFault if they are another program's, or of a later
    version, or if they are upgraded by somebody else at present."""
    upgraded = _Upgraded(Statements(wire.connection), wire.bounded)
    try:
        upgraded.begin(name)
        if upgraded.is_over():
            return
        with upgraded.alone(name):
            Upgrade(name, upgraded, steps_from).run()
    except psycopg.errors.InsufficientPrivilege:
        raise DatabaseFault(f"{name} has tables of an earlier version, which this role may not change; "
                            "have their owner run tukyamid-server check") from None


class _Upgraded:
    """The tables that become those of this version. From the first step to the last one they have another name for
    `head`, which whoever changes anything locks: so a service of an earlier version changes nothing meanwhile."""

    def __init__(self, statements: Statements,
                 bounded: Callable[[float], contextlib.AbstractContextManager[None]]) -> None:
        self.statements = statements
        self._bounded = bounded

    @contextlib.contextmanager
    def transaction(self) -> Iterator[None]:
        with self._bounded(LONGEST_STEP), self.statements.connection.transaction():
            yield

    def is_over(self) -> bool:
        return _is_over(self.statements)

    def finish(self) -> None:
        self.statements.execute("ALTER TABLE head_until_upgraded RENAME TO head")

    def begin(self, name: str) -> None:
        """Makes the tables where there are none, or has their upgrade begin."""
        with self.transaction():
            self.statements.execute(f"SELECT pg_advisory_xact_lock({_LOCK})")
            version = version_of(self.statements, name)
            if version == VERSION:
                return
            if version:
                self.statements.execute(UPGRADE)
                self.statements.execute("INSERT INTO upgrade VALUES (?, 0, 0)", (version,))
                self.statements.execute("ALTER TABLE head RENAME TO head_until_upgraded")
                self.statements.execute("UPDATE tukyamid SET version = ?", (VERSION,))
            else:
                self._make(name)

    def _make(self, name: str) -> None:
        if self.statements.row("SELECT to_regclass('certificates') IS NOT NULL")[0]:
            raise DatabaseFault(f"{name} is another program's database")
        self.statements.execute("CREATE TABLE tukyamid (version INTEGER NOT NULL)")
        self.statements.execute("INSERT INTO tukyamid VALUES (?)", (VERSION,))
        make_all(self.statements, steps_from(0))

    @contextlib.contextmanager
    def alone(self, name: str) -> Iterator[None]:
        """DatabaseFault if somebody else upgrades the tables."""
        if not self.statements.row(f"SELECT pg_try_advisory_lock({_UPGRADING})")[0]:
            raise DatabaseFault(f"{name} is upgraded by another service or command at present")
        try:
            yield
        finally:
            with contextlib.suppress(psycopg.Error):  # It ends with the connection.
                self.statements.execute(f"SELECT pg_advisory_unlock({_UPGRADING})")
