"""The changes that lead from one place to another."""

from ..storage.shared_database import Place
from .acknowledged_check import Guard
from .postgres_statements import Statements
from .postgres_table_changes import row_of

_MOST_NEWS = 1000


def lines_between(statements: Statements, before: Place, now: Place,
                  guard: Guard) -> tuple[tuple[int, bytes], ...] | None:
    """The numbers and lines of these changes; None if they can't be listed. Then all is read again, unless this isn't
    where the changes lead that were acknowledged."""
    if before == now:
        return ()
    rows = statements.rows("SELECT number, mark, line FROM lines WHERE number >= ? ORDER BY number LIMIT ?",
                           before.number, _MOST_NEWS + 1)
    is_linked = rows[:1] and rows[0][:2] == row_of(before) and rows[-1][:2] == row_of(now)
    if not is_linked or any(line is None for _, _, line in rows[1:]):
        guard.check(statements.connection)
        return None
    guard.read((number, mark, line) for number, mark, line in rows[1:])
    return tuple((number, line) for number, _, line in rows[1:])
