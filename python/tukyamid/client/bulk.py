"""Many lines at once: a thread of its own writes them, while the replies are read."""

from __future__ import annotations

from ..fast_imports import TYPE_CHECKING, Generic, SimpleQueue, TypeVar, allocate_lock, start_new_thread
from ..protocol.refusals import Refused
from ..protocol.spelling import has_reply
from .streams import PIECE, Wire

if TYPE_CHECKING:
    from collections.abc import Callable, Iterable, Iterator
    from typing import BinaryIO

T = TypeVar("T")
MOST_LINES = 4096


class _Writing(Generic[T]):
    """Writes what `pieces` brings, a pair of a note and octets each. In a `with`, it is an iterator of the notes; each
    comes before its octets are written. A fault of `pieces` is raised at the end, when all before it is written."""

    def __init__(self, wire: Wire, pieces: Iterable[tuple[T, bytes]], abandon: Callable[[], None]) -> None:
        self._wire, self._pieces, self._abandon = wire, pieces, abandon
        self._notes: SimpleQueue[tuple[T] | None] = SimpleQueue()
        self._fault: Exception | None = None
        self._is_writing = allocate_lock()

    def __enter__(self) -> Iterator[T]:
        self._is_writing.acquire()
        start_new_thread(self._write, ())
        return self._read_notes()

    def __exit__(self, kind: type[BaseException] | None, *_: object) -> None:
        if kind is not None:
            self._abandon()  # What the other side still has to read or to say is nobody's.
        self._is_writing.acquire()
        if kind is None and self._fault is not None:
            raise self._fault

    def _read_notes(self) -> Iterator[T]:
        while (note := self._notes.get()) is not None:
            yield note[0]

    def _write(self) -> None:
        try:
            self._write_pieces()
            self._wire.flush()
        except ConnectionError:
            pass  # The other side has ended. The reader of the replies meets that.
        except OSError as fault:
            self._fault = fault
        finally:
            self._notes.put(None)
            self._is_writing.release()

    def _write_pieces(self) -> None:
        pieces = iter(self._pieces)
        while True:
            try:
                note, octets = next(pieces)
            except StopIteration:
                return
            except Exception as fault:
                self._fault = fault
                return
            self._notes.put((note,))
            self._wire.write(octets)


def feed(wire: Wire, lines: Iterable[bytes], receive: Callable[[], None], abandon: Callable[[], None]) -> list[Refused]:
    """Sends lines, and calls `receive` for each reply. Returns the refusals that it raised."""
    refused = []
    with _Writing(wire, _batches(lines), abandon) as batches:
        for places in batches:
            for place in places:
                try:
                    receive()
                except Refused as refusal:
                    refusal.position = place
                    refused.append(refusal)
    return refused


def _batches(lines: Iterable[bytes]) -> Iterator[tuple[list[int], bytes]]:
    """Lines in batches, each with the numbers of its lines that have a reply."""
    batch: list[bytes] = []
    places: list[int] = []
    size = 0
    for place, line in enumerate(lines, 1):
        line = line.removesuffix(b"\n")
        if line.startswith(b"watch "):
            raise ValueError("a line that begins or ends a watch is sent by itself")
        batch.append(line + b"\n")
        size += len(line)
        if has_reply(line):
            places.append(place)
        if size > PIECE or len(batch) > MOST_LINES:
            yield places, b"".join(batch)
            batch, places, size = [], [], 0
    yield places, b"".join(batch)


def restore(wire: Wire, file: BinaryIO, abandon: Callable[[], None]) -> bool:
    """Sends a file's lines unchanged. Returns whether each of its lines was answered with a line that begins with `ok`;
    if not, the other side was abandoned."""
    with _Writing(wire, _pieces(file), abandon) as counts:
        is_whole = _skip_ok(wire, counts)
        if not is_whole:
            abandon()
    return is_whole


def _pieces(file: BinaryIO) -> Iterator[tuple[int, bytes]]:
    """What a file has, in pieces, each with the number of lines that end in it."""
    rest = b""
    while piece := file.read(PIECE):
        *lines, last = piece.split(b"\n")
        if not all(map(has_reply, [rest + line for line in lines[:1]] + lines[1:])):
            raise ValueError("a line of the file has no reply")
        rest = (b"" if lines else rest) + last[:1]
        yield len(lines), piece


def _skip_ok(wire: Wire, counts: Iterable[int]) -> bool:
    """Reads the replies to that many lines, and returns whether each is a line that begins with `ok`."""
    rest, left = b"\n", 0
    for count in counts:
        left += count  # Below 0 if replies have come to lines that weren't counted yet.
        while left > 0:
            rest += wire.some()
            end = rest.rindex(b"\n")
            lines = rest.count(b"\n", 0, end)
            if rest.count(b"\nok", 0, end) != lines:
                return False
            left -= lines
            rest = rest[end:]
    return True
