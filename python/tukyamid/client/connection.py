"""The synchronous connection: one exchange after another, over a program's pipes or a service's socket."""

from __future__ import annotations

from abc import abstractmethod

from ..fast_imports import TYPE_CHECKING, RLock
from ..protocol.refusals import ProtocolError, Refused, TukyamidError
from ..protocol.replies import Gone, Reply, Watched
from ..protocol.reply_reader import ListingHead, drive
from ..protocol.spelling import has_reply
from .calls import Calls
from .listing import Listing
from .reply_matching import PROBE, Conversation, no_progress
from .streams import Wire

if TYPE_CHECKING:
    import io
    from collections.abc import Iterable, Iterator
    from typing import BinaryIO, Self

    from ..protocol.reply_reader import Reader
    from .reply_matching import Progress


class Connection(Calls):
    """Several threads can use it: each call is one exchange, and exchanges follow one another."""

    def __init__(self, reader: io.BufferedReader, writer: io.BufferedWriter) -> None:
        self._wire = Wire(reader, writer, self._meet_end)
        self._lock = RLock()
        self._conversation = Conversation()
        self._open_listing: Listing[object] | None = None
        self._ahead: list[bytes] = []
        self._kept: dict[bytes, Reply | Listing[object] | Refused] = {}
        self._in_exchange = False
        self._has_ended = False

    def __enter__(self) -> Self:
        return self

    def __exit__(self, *_: object) -> None:
        self.close()

    @abstractmethod
    def close(self) -> object:
        """Ends the connection."""

    @abstractmethod
    def _end_error(self) -> TukyamidError:
        """What is raised by a call when the other side has ended, or this side was closed."""

    @abstractmethod
    def _abandon(self) -> None:
        """Has the other side end at once, so that no read or write waits for it any longer."""

    def send_line(self, line: bytes, progress: Progress = no_progress) -> Reply | Listing[object] | None:
        if b"\n" in line:
            raise ValueError("a line holds no line feed")
        with self._lock:
            if line in self._ahead or line in self._kept:
                return self._reply_ahead(line)
            self._begin()
            self._wire.send(self._conversation.octets_for(line))
            reply = self._receive(line, progress) if has_reply(line) else None
            self._in_exchange = False
            return reply

    def _send_ahead(self, lines: Iterable[bytes]) -> None:
        """Sends a few lines before the calls that they are of, so that not each of these waits for a reply. A call
        whose line is one of them returns the reply as it was then; each must have one. There must be no watch."""
        with self._lock:
            self._refuse_watches()
            self._begin()
            self._ahead += lines
            self._wire.send(b"".join(line + b"\n" for line in self._ahead))
            self._in_exchange = False

    def _reply_ahead(self, line: bytes) -> Reply | Listing[object]:
        """The reply to a line that was sent ahead."""
        while line not in self._kept:
            self._take_ahead()
        reply = self._kept.pop(line)
        if isinstance(reply, Refused):
            raise reply
        return reply

    def _take_ahead(self) -> None:
        """Reads the reply to the first of the lines that were sent ahead, and keeps it for its call."""
        self._begin_exchange()
        line = self._ahead.pop(0)
        try:
            reply: Reply | Listing[object] | Refused = self._receive(line)
        except Refused as refused:
            reply = refused
        if isinstance(reply, Listing):
            reply.read_ahead()
        self._kept[line] = reply
        self._in_exchange = False

    def told(self) -> list[Watched | Gone]:
        with self._lock:
            if self._conversation.watches:
                self._begin()
                self._wire.send(PROBE + b"\n")
                self._drive(self._conversation.probe())
                self._in_exchange = False
            return self._conversation.take_watch_lines()

    def run(self, lines: Iterable[bytes]) -> Iterator[Reply | Listing[object] | Refused]:
        """Sends lines one by one (a file opened for octets will do), and yields the reply to each that has one. A
        refusal is yielded here, not raised.

        >>> from tukyamid import Engine
        >>> with Engine() as engine:
        ...     [type(reply).__name__ for reply in engine.run([b"# nothing", b"keys", b"key"])]
        ['Listing', 'RefusedLine']
        """
        for line in lines:
            try:
                reply = self.send_line(line.removesuffix(b"\n"))
            except Refused as refused:
                yield refused
            else:
                if reply is not None:
                    yield reply

    def restore(self, file: BinaryIO) -> bool:
        """Sends a file's lines unchanged: `import` and `verdict`, as in a dump. This is the quickest way to fill an
        engine. Returns whether each was answered with `ok`; if not, the connection is ended. There must be no watch."""
        with self._lock:
            self._refuse_watches()
            self._begin()
            from . import bulk  # Its threads and queues are for long scripts; a question starts faster without.
            is_whole = bulk.restore(self._wire, file, self._abandon)
            self._in_exchange = not is_whole
            return is_whole

    def feed(self, lines: Iterable[bytes]) -> list[Refused]:
        """Sends many lines without waiting for each reply: the quick way for imports and verdicts that are made
        meanwhile. Returns the refusals; each has the number of its line, `position`. If `lines` raises, the lines
        before it have been sent. There must be no watch, and none begins so."""
        with self._lock:
            self._refuse_watches()
            self._begin()
            try:
                from . import bulk
                refused = bulk.feed(self._wire, lines, self._receive_and_drop, self._abandon)
            except TukyamidError:
                raise
            except Exception:
                self._in_exchange = False
                raise
            self._in_exchange = False
            return refused

    def _begin(self) -> None:
        while self._ahead:
            self._take_ahead()
        self._begin_exchange()

    def _begin_exchange(self) -> None:
        if self._has_ended or self._wire.is_closed:
            raise self._end_error()
        if self._in_exchange:
            raise ProtocolError("an exchange was broken off; begin another connection")
        if self._open_listing is not None:
            self._open_listing.read_ahead()
            self._open_listing = None
        self._in_exchange = True

    def _meet_end(self) -> TukyamidError:
        self._has_ended = True
        return self._end_error()

    def _refuse_watches(self) -> None:
        if self._conversation.watches:
            raise ValueError("while watches are there, lines are sent one by one")

    def _drive(self, reader: Reader[None]) -> None:
        drive(reader, self._wire.line)

    def _receive(self, line: bytes, progress: Progress = no_progress) -> Reply | Listing[object]:
        """The reply to a line. After a refusal the next exchange can begin."""
        try:
            reply = drive(self._conversation.reply_to(line, progress), self._wire.line)
        except Refused:
            self._in_exchange = False
            raise
        if not isinstance(reply, ListingHead):
            return reply
        listing: Listing[object] = Listing(reply, self._wire, self._lock)
        self._open_listing = listing
        return listing

    def _receive_and_drop(self) -> None:
        """Reads the reply to some line that begins no watch."""
        reply = self._receive(b"")
        if isinstance(reply, Listing):
            reply.skip()
