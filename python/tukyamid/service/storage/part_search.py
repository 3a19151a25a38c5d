"""The search for user IDs by a part of them, in rows of any database."""

from collections.abc import Iterable
from itertools import islice

from .database import Binding

Row = tuple[bytes, bytes]


def with_part(rows: Iterable[Row], part: str, most: int | None) -> list[Binding]:
    """The bindings among rows of fingerprint and user ID whose user ID has this part, and no more than `most`. Rows
    behind the last of them aren't read."""
    sought = part.casefold()
    plain = sought.encode() if sought.isascii() else None  # Case is quick to ignore where all is ASCII.

    def has_part(row: Row) -> bool:
        if row[1].isascii():
            return plain is not None and plain in row[1].lower()
        return sought in row[1].decode("utf-8", "surrogateescape").casefold()

    return [Binding(fpr.hex(), user_id) for fpr, user_id in islice(filter(has_part, rows), most)]
