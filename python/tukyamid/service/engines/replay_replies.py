"""The replies of a program that is given the keyring and the views of the one whose place it takes."""

from __future__ import annotations

import asyncio
from collections import deque

from .replayed_state import Watch

NO_COMMAND = b"?"  # Its reply shows that a program is there, and changes nothing.


class Feed:
    """Drops the replies to the lines that restore a program's state: `count` for the keyring, then those for views and
    cursors, then the watches. The new program sends watch lines that the last one didn't."""

    def __init__(self, count: int, state: list[bytes], watches: dict[bytes, Watch]) -> None:
        self.following = [NO_COMMAND, *state, *(watch.line for watch in watches.values())]
        self.left = count + len(self.following)
        self._of_keyring = count
        self._watches = deque(watches.items())

    def take(self, reply: bytes) -> tuple[str, bytes | None]:
        """A fault, if a line of the keyring wasn't taken; and a watch line, if there is one."""
        self.left -= 1
        if self._of_keyring:
            self._of_keyring -= 1
            is_taken = reply.startswith((b"ok", b"refused absent"))
            return "" if is_taken else f"a line of the database was answered with {reply[:80]!r}", None
        if self.left < len(self._watches):
            name, watch = self._watches.popleft()
            reported = reply if reply.startswith(b"watch ") else b"watch %s gone\n" % name
            return "", reported if reported != watch.reported else None
        return "", None


def fail(error: Exception, *waited: asyncio.Future[None]) -> None:
    """Whoever waits for one of these gets this error."""
    for one in waited:
        if not one.done():
            one.set_exception(error)
            one.exception()  # If nobody waits, it counts as read.
