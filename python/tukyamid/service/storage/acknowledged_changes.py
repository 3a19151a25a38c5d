"""What a service over a shared database has read there and acknowledged, in a file of its own. A database that lacks
the last acknowledged change is noticed by it, also after a restart, and what is missing can be handed in again."""

from __future__ import annotations

import os
import threading
from collections.abc import Iterable, Iterator, Sequence
from dataclasses import dataclass
from pathlib import Path

from tukyamid.output_files import Output

from ..paths_and_locks import Lock, Taken
from .shared_database import Place

_MOST_OCTETS = 64 << 20  # Of a file; a full one takes the place of the one before.
_MOST_SERVICES = 64  # On one machine, over one database.
_READ, _KEPT, _REACHED = b"read", b"kept", b"reached"
_HEAD = b"# change "


@dataclass(frozen=True)
class Entry:
    """A change, and the line that makes it; None if everything was replaced."""
    place: Place
    line: bytes | None


class Ledger:
    """Each record is a line: a word, the change's number, its mark, and its line. `read` is a change that another
    service made, `kept` one of our own that is acknowledged. `reached` says that all changes up to that one are."""

    def __init__(self, folder: Path, name: str) -> None:
        """OSError if the file can't be opened."""
        folder.mkdir(mode=0o700, parents=True, exist_ok=True)
        self._folder = folder
        self._lock, self._path = _free(folder, name)
        self._before = self._path.with_name(self._path.name + ".before")
        self._guard = threading.Lock()
        self.fault = ""
        self.last = self._find_last()
        self._file = os.open(self._path, os.O_WRONLY | os.O_APPEND | os.O_CREAT, 0o600)
        self._size = os.fstat(self._file).st_size

    def _find_last(self) -> Place | None:
        """The place of the last acknowledged change. A record that was cut off in the middle is taken away."""
        last = None
        for word, entry in self._records():
            if word != _READ:
                last = entry.place
        return last

    def _records(self) -> Iterator[tuple[bytes, Entry]]:
        for path in (self._before, self._path):
            try:
                with open(path, "rb") as file:
                    for record in file:
                        if record.endswith(b"\n"):
                            yield _read(record)
                        else:
                            os.truncate(path, os.path.getsize(path) - len(record))
            except FileNotFoundError:
                continue

    def read(self, entries: Iterable[Entry]) -> None:
        """Notes changes of other services."""
        self._write(b"".join(_record(_READ, entry) for entry in entries))

    def kept(self, entries: Sequence[Entry]) -> None:
        """Notes changes of our own that are acknowledged."""
        if entries:
            self._write(b"".join(_record(_KEPT, entry) for entry in entries))
            self.last = entries[-1].place

    def reached(self, place: Place) -> None:
        """Notes that all changes up to this one are acknowledged."""
        self._write(_record(_REACHED, Entry(place, None)))
        self.last = place

    def _write(self, octets: bytes) -> None:
        """A ledger that can't be written stops nobody: the database has it all."""
        with self._guard:
            try:
                if self._size + len(octets) > _MOST_OCTETS and self._size:
                    self._begin_again()
                if os.write(self._file, octets) < len(octets):
                    raise OSError(f"{self._path}: the disk is full")
                self._size += len(octets)
                self.fault = ""
            except OSError as error:
                self.fault = str(error)

    def _begin_again(self) -> None:
        os.replace(self._path, self._before)
        os.close(self._file)
        self._file = os.open(self._path, os.O_WRONLY | os.O_APPEND | os.O_CREAT, 0o600)
        self._size = 0

    def entries(self) -> list[Entry]:
        """The changes up to the last acknowledged one, in their order, as far back as they are still known."""
        found: list[Entry] = []
        count = 0
        for word, entry in self._records():
            if word != _REACHED:
                found.append(entry)
            if word != _READ:
                count = len(found)
        return found[:count]

    def write_missing(self, entries: Sequence[Entry]) -> Path:
        """Writes a script of these changes, each with its number and mark; gives its path."""
        first, last = entries[0].place, entries[-1].place
        path = self._folder / f"missing-{first.number}-{last.number}-{last.mark.hex()[:8]}.wot"
        if not path.exists():
            with Output(str(path)) as output:
                output.write(_script(entries))
                output.keep()
        return path

    def close(self) -> None:
        os.close(self._file)
        self._lock.release()


def counted(count: int) -> str:
    """A count of changes, in words."""
    return f"{count} change" if count == 1 else f"{count} changes"


def _free(folder: Path, name: str) -> tuple[Lock, Path]:
    """A file that no other service has: each that runs on this machine has its own."""
    for count in range(_MOST_SERVICES):
        path = folder / f"acknowledged-{name}-{count}"
        try:
            return Lock(path.with_name(path.name + ".lock")), path
        except Taken:
            continue
    raise OSError(f"{folder}: more than {_MOST_SERVICES} services use this database here")


def _record(word: bytes, entry: Entry) -> bytes:
    return b"%s %d %s %s\n" % (word, entry.place.number, entry.place.mark.hex().encode(), entry.line or b"-")


def _read(record: bytes) -> tuple[bytes, Entry]:
    word, number, mark, line = record.removesuffix(b"\n").split(b" ", 3)
    return word, Entry(Place(int(number), bytes.fromhex(mark.decode())), line if line != b"-" else None)


def _script(entries: Iterable[Entry]) -> Iterator[bytes]:
    yield b"# Acknowledged changes that a database lacks; tukyamid-server hand-in makes them again.\n"
    for entry in entries:
        yield _HEAD + b"%d %s\n" % (entry.place.number, entry.place.mark.hex().encode())
        yield (entry.line or b"# everything was replaced, and this can't be made again") + b"\n"


def read_script(lines: Iterable[bytes]) -> Iterator[Entry]:
    """The changes of such a script; ValueError if it is none."""
    place: Place | None = None
    for line in lines:
        words = line.split()
        if line.startswith(_HEAD) and len(words) == 4:
            if place is not None:
                yield Entry(place, None)
            place = Place(int(words[2]), bytes.fromhex(words[3].decode()))
        elif not line.startswith(b"#"):
            if place is None:
                raise ValueError("it isn't a file of missing changes")
            yield Entry(place, line.removesuffix(b"\n"))
            place = None
    if place is not None:
        yield Entry(place, None)
