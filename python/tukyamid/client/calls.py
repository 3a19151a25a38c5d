"""The calls of the synchronous client: one for each command, and a few that take several."""

from __future__ import annotations

from abc import ABC, abstractmethod

from ..fast_imports import TYPE_CHECKING, TypeVar
from ..protocol import commands
from ..protocol.claims import Claim, Label
from ..protocol.command_base import Command, ListingCommand
from ..protocol.refusals import ProtocolError
from ..protocol.replies import (Accepted, Answer, Binding, Explanation, Gone, Key, Missed, PendingSignature, Reached,
                                Rejected, Reply, Stale, Taken, Watched)
from ..protocol.spelling import UserId
from .listing import Listing
from .reply_matching import no_progress

if TYPE_CHECKING:
    from collections.abc import Iterable, Iterator
    from typing import overload

    from .reply_matching import Progress

R = TypeVar("R", bound=Reply)
T = TypeVar("T")


class Calls(ABC):
    """What an engine or a service can be asked. Each call sends one line and returns its reply; a refusal is raised."""

    @abstractmethod
    def send_line(self, line: bytes, progress: Progress = no_progress) -> Reply | Listing[object] | None:
        """Sends a line as it is, given without its line feed, and returns its reply; None if it has none. `progress` is
        called with what a service says of a line that takes long."""

    @abstractmethod
    def told(self) -> list[Watched | Gone]:
        """The watch lines since the last call, in order. Those of a service also report what other clients' changes
        have made of the amounts."""

    if TYPE_CHECKING:
        @overload
        def do(self, command: Command[R]) -> R: ...

        @overload
        def do(self, command: ListingCommand[T]) -> Listing[T]: ...

    def do(self, command: Command[R] | ListingCommand[T]) -> R | Listing[T]:
        """Sends a command and returns its reply."""
        reply = self.send_line(command.line())
        if isinstance(command, Command):
            return command.take(reply)
        if isinstance(reply, Listing):
            return reply.of(command.item)
        raise ProtocolError(f"a listing was asked for, and {str(reply)[:200]} came")

    def import_certificates(self, octets: bytes) -> Taken:
        """Merges the certificates of these octets into the keyring."""
        return self.do(commands.Import(octets))

    def load(self, name: str) -> Taken:
        """Merges one entry of the certificate directory: a fingerprint, or `trust-root`."""
        return self.do(commands.Load(name))

    def store(self, fpr: str) -> int:
        """Writes a certificate, merged with its entry in that directory, in place of the entry. Returns the size of
        what was written."""
        return self.do(commands.Store(fpr)).size

    def drop(self, fpr: str) -> None:
        """Takes a certificate out of the keyring; verdicts stay."""
        self.do(commands.Drop(fpr))

    def judge_good(self, number: str, fpr: str) -> None:
        """Records that the key of this fingerprint made the signature of this number."""
        self.do(commands.Good(number, fpr))

    def judge_bad(self, number: str) -> None:
        """Records that no key made the signature of this number."""
        self.do(commands.Bad(number))

    def unjudge(self, number: str) -> None:
        """Takes the verdict on a signature away."""
        self.do(commands.Unjudge(number))

    def open_view(self, view: str, time: int) -> None:
        """Opens a view of the keyring at a time, or moves its time."""
        self.do(commands.Time(view, time))

    def set_root(self, view: str, fpr: str, amount: int = 120) -> None:
        """Sets a root's amount; 0 takes the root away."""
        self.do(commands.Root(view, fpr, amount))

    def close_view(self, view: str) -> None:
        """Closes a view and forgets its roots."""
        self.do(commands.Close(view))

    def ask(self, view: str, fpr: str, wanted: int, user_id: UserId) -> Answer:
        """The amount to which the user ID is authenticated for the key, up to the wanted amount, and its paths."""
        return self.do(commands.Ask(view, fpr, wanted, user_id))

    def list(self, view: str, wanted: int) -> Listing[Binding]:
        """The bindings that reach the wanted amount, by fingerprint and user ID."""
        return self.do(commands.List(view, wanted))

    def begin_cursor(self, cursor: str, view: str, wanted: int) -> None:
        """Starts or restarts a cursor over the bindings of `list`."""
        self.do(commands.CursorOver(cursor, view, wanted))

    def next_piece(self, cursor: str, count: int) -> Listing[Binding] | Stale:
        """The next bindings of a cursor, at most `count`; or `Stale`."""
        command = commands.CursorNext(cursor, count)
        reply = self.send_line(command.line())
        if isinstance(reply, Stale):
            return reply
        if isinstance(reply, Listing):
            return reply.of(command.item)
        raise ProtocolError(f"a piece was asked for, and {str(reply)[:200]} came")

    def close_cursor(self, cursor: str) -> None:
        """Takes a cursor away."""
        self.do(commands.CursorClose(cursor))

    def list_in_pieces(self, cursor: str, view: str, wanted: int, count: int = 1000) -> Iterator[Binding | Stale]:
        """The bindings of `list`, in pieces of a cursor: other lines can be sent in between. If the list goes stale, a
        `Stale` comes, and then all bindings again, from the first."""
        self.begin_cursor(cursor, view, wanted)
        while True:
            piece = self.next_piece(cursor, count)
            if isinstance(piece, Stale):
                yield piece
                self.begin_cursor(cursor, view, wanted)
                continue
            yield from piece
            if piece.count < count:
                self.close_cursor(cursor)
                return

    def watch(self, watch: str, view: str, fpr: str, wanted: int, user_id: UserId) -> int:
        """Starts or restarts a watch over the answer of `ask`, and returns its current amount. Whenever that
        changes, `told` has it."""
        return self.do(commands.WatchOn(watch, view, fpr, wanted, user_id)).amount

    def unwatch(self, watch: str) -> None:
        """Takes a watch away."""
        self.do(commands.WatchOff(watch))

    def explain(self, view: str, fpr: str, user_id: UserId) -> Explanation:
        """What a user ID of a key comes to, and each certification on it. Raises RefusedAbsent if the key isn't held,
        or has no such user ID."""
        return self.do(commands.Explain(view, fpr, user_id))

    def absence(self, view: str, fpr: str, wanted: int, user_id: UserId) -> Reached | Missed:
        """Why the answer doesn't reach the wanted amount: `Missed` with a claim, or `Reached`."""
        return self.do(commands.Absence(view, fpr, wanted, user_id))

    def check(self, view: str, fpr: str, paths: Iterable[Claim], table: Iterable[Label],
              user_id: UserId) -> Accepted | Rejected:
        """Whether these paths and this table show that no more is there."""
        return self.do(commands.Check(view, fpr, paths, table, user_id))

    def pending(self) -> Listing[PendingSignature]:
        """The well-formed signatures that have no verdict."""
        return self.do(commands.Pending())

    def keys(self) -> Listing[Key]:
        """The certificates."""
        return self.do(commands.Keys())

    def export(self, fpr: str) -> bytes:
        """One certificate's octets."""
        return self.do(commands.Export(fpr)).octets

    def dump(self) -> Listing[bytes]:
        """The state as a script: lines, without their line feeds."""
        return self.do(commands.Dump())
