"""What an engine holds beside the keyring: views, watches and cursors, according to the answered lines; a new program
in its place gets them again."""

from __future__ import annotations

from collections.abc import Callable, Iterator

from ..sessions.views import Views

OnReport = Callable[[bytes], None]


class Watch:
    """A watch of the program: its line, the last line that it reported, the last one that was handed on, and who gets
    them."""
    __slots__ = ("line", "reported", "handed_on", "on_report")

    def __init__(self, line: bytes, on_report: OnReport) -> None:
        self.line = line
        self.reported = b""
        self.handed_on = b""
        self.on_report = on_report


class ReplayedState:
    def __init__(self) -> None:
        self.watches: dict[bytes, Watch] = {}
        self._views = Views()
        # The line that began a cursor, and how many bindings were taken from it.
        self.cursors: dict[bytes, tuple[bytes, int]] = {}

    def take(self, line: bytes, reply: bytes) -> None:
        """Takes a line that was answered, if it is of a view, a watch or a cursor."""
        if line.startswith(b"view ") and reply == b"ok\n":
            self._views.take(line)
        elif line.startswith(b"watch ") and reply == b"ok\n":
            self.watches.pop(line.split(b" ")[1], None)
        elif line.startswith(b"cursor "):
            self._take_cursor(line, reply)

    def _take_cursor(self, line: bytes, reply: bytes) -> None:
        _, name, word, *_ = line.split(b" ")
        if reply.startswith(b"piece "):
            begun, taken = self.cursors[name]
            self.cursors[name] = begun, taken + int(reply[6:reply.index(b"\n")])
        elif reply == b"ok\n" and word == b"over":
            self.cursors[name] = line, 0
        elif reply == b"ok\n":
            self.cursors.pop(name, None)

    def take_back(self, line: bytes, reply: bytes) -> None:
        """A piece of a cursor that was answered is asked for once more."""
        if reply.startswith(b"piece "):
            name = line.split(b" ")[1]
            begun, taken = self.cursors[name]
            self.cursors[name] = begun, taken - int(reply[6:reply.index(b"\n")])

    def lines(self) -> Iterator[bytes]:
        """The lines that make the views and the cursors. Those of the watches go behind them."""
        yield from self._views.lines()
        for name, (line, taken) in self.cursors.items():
            yield line
            if taken:
                yield b"cursor %s next %d" % (name, taken)
