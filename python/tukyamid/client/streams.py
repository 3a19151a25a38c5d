"""Octets to the other side and back, over a pipe or a socket."""

from __future__ import annotations

import io

from ..fast_imports import TYPE_CHECKING
from ..protocol.refusals import ServiceEnded, TukyamidError

if TYPE_CHECKING:
    from collections.abc import Callable

PIECE = 1 << 20


class Wire:
    """`end` is called when the other side has closed its output, and returns the error that is then raised."""

    def __init__(self, reader: io.BufferedReader, writer: io.BufferedWriter, end: Callable[[], TukyamidError]) -> None:
        self._reader, self._writer, self._end = reader, writer, end

    @property
    def is_closed(self) -> bool:
        """Whether this side has closed its output."""
        return self._writer.closed

    def write(self, octets: bytes) -> None:
        """Buffers octets; ConnectionError if nobody reads them any more."""
        self._writer.write(octets)

    def flush(self) -> None:
        """Sends what is buffered; ConnectionError if nobody reads it any more."""
        self._writer.flush()

    def send(self, octets: bytes) -> None:
        """Sends octets. If nobody reads them, that shows when the replies are read: until then what the other side
        still wrote counts."""
        try:
            self.write(octets)
            self.flush()
        except TimeoutError:
            raise self._too_late() from None
        except ConnectionError:
            pass

    def line(self) -> str:
        """The next line, without its line feed."""
        line = self._read(self._reader.readline)
        if not line.endswith(b"\n"):
            raise self._end()
        return line[:-1].decode("latin-1")

    def some(self) -> bytes:
        """As many octets as are there, at least one."""
        octets = self._read(lambda: self._reader.read1(PIECE))
        if not octets:
            raise self._end()
        return octets

    def comes(self) -> bool:
        """Whether octets come before the connection's time is over. They aren't taken."""
        try:
            octets = self._reader.peek(1)
        except TimeoutError:
            return False
        except ConnectionError:
            octets = b""
        if not octets:
            raise self._end()
        return True

    def _read(self, read: Callable[[], bytes]) -> bytes:
        try:
            return b"" if self._reader.closed else read()
        except TimeoutError:
            raise self._too_late() from None
        except ConnectionError:
            return b""

    def close_output(self) -> None:
        """Says that nothing more comes."""
        try:
            self._writer.close()
        except ConnectionError:
            pass

    def drain(self) -> None:
        """Reads what still comes, and drops it."""
        try:
            while not self._reader.closed and self._reader.read(PIECE):
                pass
        except OSError:
            pass
        self._reader.close()

    @staticmethod
    def _too_late() -> TukyamidError:
        return ServiceEnded("the service didn't answer in time")
