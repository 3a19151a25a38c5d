"""The keyring at one moment, in a file without a name: so it needs no database, and no open transaction, however long
it is kept."""

import tempfile
from binascii import unhexlify
from collections.abc import Iterator
from contextlib import closing

from .database import Snapshot


class SnapshotInFile:
    def __init__(self, change: int) -> None:
        self.change = change
        self._file = tempfile.TemporaryFile(prefix="tukyamid-")
        self._count = 0

    def count(self) -> int:
        return self._count

    def lines(self) -> Iterator[bytes]:
        with open(f"/proc/self/fd/{self._file.fileno()}", "rb") as file:  # Each reader has a place of its own.
            for line in file:
                yield line.removesuffix(b"\n")

    def certificates(self) -> Iterator[bytes]:
        for line in self.lines():
            word, _, octets = line.partition(b" ")
            if word != b"import":
                return
            yield unhexlify(octets)

    def close(self) -> None:
        self._file.close()


class CopiedSnapshot(SnapshotInFile):
    """A copy of another one, which is closed then."""

    def __init__(self, snapshot: Snapshot) -> None:
        super().__init__(snapshot.change)
        with closing(snapshot):
            for line in snapshot.lines():
                self._file.write(line + b"\n")
                self._count += 1
        self._file.flush()
