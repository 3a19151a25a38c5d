"""The reply to `service log`: read part by part, and other lines are answered between the parts."""

from __future__ import annotations

import os

from tukyamid.protocol.spelling import write_user_id

from ..line_intake import LineIntake
from ..storage.database import AFTER_ALL, Finder, LogEntry
from .spooled_replies import Spooled

_ENTRIES_AT_ONCE = 250  # They take some milliseconds.


async def log_reply(intake: LineIntake, count: int) -> Spooled:
    """The last `count` changes, or all if there are fewer."""
    made = Spooled()
    listed, before = 0, AFTER_ALL
    try:
        while listed < count:
            most = min(count - listed, _ENTRIES_AT_ONCE)
            lines, before = await intake.search(lambda finder: _part(finder, most, before))
            made.add(lines)
            listed += len(lines)
            if len(lines) < most:
                break
        return made.end(b"service log %d\n" % listed)
    except BaseException:
        made.close()
        raise


def _part(finder: Finder, most: int, before: int) -> tuple[list[bytes], int]:
    """The lines of these changes, and the number of the last of them."""
    entries = finder.log(most, before)
    return list(map(_line, entries)), entries[-1].number if entries else before


def _line(one: LogEntry) -> bytes:
    what = write_user_id(os.fsencode(one.what)).encode()
    return f"change {one.number} {one.time} {one.actor.uid} {one.actor.pid} ".encode() + what + b"\n"
