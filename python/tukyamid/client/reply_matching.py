"""What the synchronous and the asynchronous connection have in common: how a line and its reply belong together, and
what watch lines come in between."""

from __future__ import annotations

from ..fast_imports import TYPE_CHECKING
from ..protocol.replies import Done, Gone, Reply, Watched
from ..protocol.reply_reader import read_progress, read_reply_after, read_watch

if TYPE_CHECKING:
    from collections.abc import Callable

    from ..protocol.reply_reader import Reader

    Progress = Callable[[str], None]

PROBE, PROBED = b"?", "refused line"  # A line that is no command: no watch line follows its reply.


def no_progress(text: str) -> None:
    """For whom progress is nothing."""


def begun_watch(line: bytes) -> str | None:
    """The name of the watch that a line begins, or None."""
    words = line.split(b" ", 3)
    return words[1].decode("latin-1") if len(words) > 3 and words[0] == b"watch" and words[2] == b"on" else None


class Conversation:
    """The watches that are there, and their lines since `take_watch_lines`."""

    def __init__(self) -> None:
        self.watches: set[str] = set()
        self._watch_lines: list[Watched | Gone] = []

    @property
    def has_watch_lines(self) -> bool:
        """Whether watch lines have come since `take_watch_lines`."""
        return bool(self._watch_lines)

    def take_watch_lines(self) -> list[Watched | Gone]:
        """The watch lines since the last call."""
        watch_line, self._watch_lines = self._watch_lines, []
        return watch_line

    @staticmethod
    def octets_for(line: bytes) -> bytes:
        """What is sent for a line. A probe goes before a line that begins a watch: so lines of an earlier watch of
        this name aren't taken for the reply."""
        return (PROBE + b"\n" if begun_watch(line) else b"") + line + b"\n"

    def reply_to(self, line: bytes, progress: Progress) -> Reader[Reply]:
        """Reads the reply to a line, and before it watch lines: those behind earlier replies, or from a service at
        any time. `progress` is called with how far the service has come. A refusal is raised. Of a listing only the
        head is read."""
        watch = begun_watch(line)
        if watch is not None:
            yield from self.probe()
        first = yield from self._first_line(watch, progress)
        reply = yield from read_reply_after(first)
        if isinstance(reply, Watched):
            self.watches.add(reply.watch)
        elif isinstance(reply, Done) and line.startswith(b"watch "):
            self.watches.discard(line.split(b" ")[1].decode("latin-1"))
        return reply

    def probe(self) -> Reader[None]:
        """Reads watch lines, up to the reply to a probe."""
        while (line := (yield)) != PROBED:
            self.take_watch_line(line)

    def _first_line(self, watch: str | None, progress: Progress) -> Reader[str]:
        while True:
            line = yield
            if line.startswith("service progress "):
                progress(read_progress(line))
            elif not line.startswith("watch ") or watch is not None and line.startswith(f"watch {watch} "):
                return line
            else:
                self.take_watch_line(line)

    def take_watch_line(self, line: str) -> None:
        """Takes a watch line."""
        watch_line = read_watch(line)
        if isinstance(watch_line, Gone):
            self.watches.discard(watch_line.watch)
        self._watch_lines.append(watch_line)
