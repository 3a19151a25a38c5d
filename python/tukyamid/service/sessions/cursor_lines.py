"""The lines of cursors, and their bounds."""

import re
from typing import Any

LINE = re.compile(rb"cursor ([a-z0-9_-]{1,32}) (?:over ([a-z0-9_-]{1,32}) (0|[1-9][0-9]{0,9})|"
                   rb"next (0|[1-9][0-9]{0,9})|close)")
MOST_WANTED = 2**32 - 1
MOST_CURSORS = 16


def fields_of(line: bytes) -> tuple[Any, ...] | None:
    """The cursor, the view, the wanted amount and the count of a line `cursor ..`, which has some of them; None if the
    line is refused."""
    match = LINE.fullmatch(line)
    number = match and (match.group(3) or match.group(4))
    if match is None or number and not 1 <= int(number) <= MOST_WANTED:
        return None
    return match.groups()
