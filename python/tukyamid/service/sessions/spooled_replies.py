"""Long replies in files without a name: so what nobody reads takes little memory."""

from __future__ import annotations

import tempfile
from collections.abc import Iterable

_PIECE = 1 << 18
_MOST_IN_MEMORY = 1 << 20


class Spooled:
    """A reply that is written before it is read, piece by piece. `octets` is how much room it takes."""

    def __init__(self) -> None:
        self._file = tempfile.SpooledTemporaryFile(_MOST_IN_MEMORY, prefix="tukyamid-")
        self._head: bytes | None = None
        self.octets = 0

    def add(self, lines: Iterable[bytes]) -> None:
        """More of the reply. An OSError if the disk is full."""
        self.octets += self._file.write(b"".join(lines))

    def end(self, head: bytes = b"") -> Spooled:
        """The reply, which begins with this. An OSError if the disk is full."""
        self._file.flush()
        self._file.seek(0)
        self._head = head
        return self

    def __iter__(self) -> Spooled:
        return self

    def __next__(self) -> bytes:
        piece, self._head = self._head or self._file.read(_PIECE), None
        if not piece:
            raise StopIteration
        return piece

    def close(self) -> None:
        self._file.close()


def spooled(reply: bytes) -> Spooled:
    """A reply that is there."""
    made = Spooled()
    try:
        made.add([reply])
        return made.end()
    except BaseException:
        made.close()
        raise
