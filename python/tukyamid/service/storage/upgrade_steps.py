"""How tables of an earlier version become those of this one: in steps, each of which is a transaction. Those that bring
rows do so for some certificates after the others. Where it was interrupted, whoever opens the database next goes on."""

from __future__ import annotations

import time
from collections.abc import Callable, Iterable, Sequence
from contextlib import AbstractContextManager
from dataclasses import dataclass
from typing import Protocol

from ..listening_sockets import notify
from .certificate_rows import describe
from .database_threads import say
from .table_changes import LIST_SUBKEY, Statements

ROWS = 2000  # Certificates of one step, with what is kept of them.
# What is there until the upgrade is over: from which version, the next step, and the last certificate that it has done.
UPGRADE = "CREATE TABLE upgrade (before INTEGER NOT NULL, step INTEGER NOT NULL, place BIGINT NOT NULL)"
_SAY_SECONDS = 2.0
LONGEST_STEP = 600  # Seconds: an index of ten million rows takes about a minute.


@dataclass(frozen=True)
class Step:
    """What it brings, in words for people, and its statements. With `rows` these are done for certificates by their
    numbers, and have two values: they begin after the first one, and end with the second. `fill` is called with both.
    """
    what: str
    statements: Sequence[str] = ()
    rows: bool = False
    fill: Callable[[Statements, int, int], None] | None = None


def statements_of(script: str) -> list[str]:
    return [one for one in script.split(";\n") if one.strip()]


def indexes(script: str) -> list[Step]:
    """Each is a step of its own."""
    return [Step(f"the index {one.split('INDEX ')[1].split(' ')[0]}", [one]) for one in statements_of(script)]


def drops(*tables: str) -> list[Step]:
    return [Step(f"the end of the old {table}", [f"DROP TABLE {table}"]) for table in tables]


def fill_subkeys(statements: Statements, after: int, last: int) -> None:
    """Lists the subkeys of certificates that an earlier version has written."""
    kept = statements.execute("SELECT id, octets FROM certificates WHERE id > ? AND id <= ?", (after, last)).fetchall()
    for place, octets in kept:
        statements.executemany(LIST_SUBKEY, [(place, key_id) for key_id in describe(bytes(octets)).subkeys])


def make_all(statements: Statements, steps: Iterable[Step]) -> None:
    """Makes the tables where there are none."""
    for step in steps:
        if not step.rows:
            for statement in step.statements:
                statements.execute(statement)


class Upgraded(Protocol):
    """A database that is upgraded."""

    @property
    def statements(self) -> Statements: ...

    def transaction(self) -> AbstractContextManager[object]:
        """All that is done in it is kept, or nothing."""

    def is_over(self) -> bool:
        """Whether there is no table `upgrade`."""

    def finish(self) -> None:
        """Does what comes in the transaction of the last step."""


class Upgrade:
    """`steps` gives those that lead from a version to this one."""

    def __init__(self, name: str, database: Upgraded, steps: Callable[[int], Sequence[Step]]) -> None:
        self._name = name
        self._database = database
        self._steps = steps
        self._said = time.monotonic()
        self._before = 0

    def run(self) -> int:
        """Does what is left of it, and gives the version from which it led; 0 if others have done it."""
        while self._go_on():
            pass
        return self._before

    def _go_on(self) -> bool:
        """Does the next step, or a part of it; False if the upgrade is over. Others may do steps of it too."""
        with self._database.transaction():
            if self._database.is_over():
                return False
            statements = self._database.statements
            self._before, number, place = statements.execute("SELECT before, step, place FROM upgrade").fetchone()
            steps = self._steps(self._before)
            number, place = self._do(steps[number], number, place)
            if number < len(steps):
                statements.execute("UPDATE upgrade SET step = ?, place = ?", (number, place))
                return True
            statements.execute("DROP TABLE upgrade")
            self._database.finish()
        return False

    def _do(self, step: Step, number: int, place: int) -> tuple[int, int]:
        """Gives where the next transaction begins."""
        statements = self._database.statements
        last = _last_of(statements, place) if step.rows else None
        self._say(step.what, place, last)
        if step.rows and last is None:
            return number + 1, 0
        for statement in step.statements:
            statements.execute(statement, () if last is None else (place, last))
        if step.fill is not None and last is not None:
            step.fill(statements, place, last)
        return (number + 1, 0) if last is None else (number, last)

    def _say(self, what: str, place: int, last: int | None) -> None:
        """Says how far it is, if it takes long."""
        if last is not None:
            what += f", after certificate {place:,}"
        notify(f"EXTEND_TIMEOUT_USEC={LONGEST_STEP}000000\nSTATUS=Upgrading the database: {what}")
        if time.monotonic() - self._said > _SAY_SECONDS:
            self._said = time.monotonic()
            say(f"{self._name} is upgraded: {what}")


def _last_of(statements: Statements, place: int) -> int | None:
    """The number of the last certificate that the next part has; None if there is none."""
    part = f"SELECT id FROM certificates WHERE id > ? ORDER BY id LIMIT {ROWS}"
    (last,) = statements.execute(f"SELECT max(id) FROM ({part}) AS part", (place,)).fetchone()
    return None if last is None else int(last)
