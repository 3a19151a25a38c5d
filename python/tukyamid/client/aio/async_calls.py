"""The calls of the asynchronous client. Each has the name, the arguments and the reply of the synchronous one."""

from __future__ import annotations

from abc import ABC, abstractmethod
from collections.abc import AsyncIterator, Iterable
from typing import TYPE_CHECKING, TypeVar, overload

from ...protocol import commands
from ...protocol.claims import Claim, Label
from ...protocol.command_base import Command, ListingCommand
from ...protocol.refusals import ProtocolError
from ...protocol.replies import (Accepted, Answer, Binding, Explanation, Gone, Key, Missed, PendingSignature, Reached,
                                 Rejected, Reply, Stale, Taken, Watched)
from ...protocol.spelling import UserId
from ..reply_matching import no_progress
from .async_listing import Listing

if TYPE_CHECKING:
    from ..reply_matching import Progress

R = TypeVar("R", bound=Reply)
T = TypeVar("T")


class Calls(ABC):
    """What an engine or a service can be asked. Each call sends one line and returns its reply; a refusal is raised."""

    @abstractmethod
    async def send_line(self, line: bytes, progress: Progress = no_progress) -> Reply | Listing[object] | None:
        """Sends a line as it is, given without its line feed, and returns its reply; None if it has none. `progress` is
        called with what a service says of a line that takes long."""

    @abstractmethod
    async def told(self) -> list[Watched | Gone]:
        """The watch lines since the last call, in order. Those of a service also report what other clients' changes
        have made of the amounts."""

    @overload
    async def do(self, command: Command[R]) -> R: ...

    @overload
    async def do(self, command: ListingCommand[T]) -> Listing[T]: ...

    async def do(self, command: Command[R] | ListingCommand[T]) -> R | Listing[T]:
        """Sends a command and returns its reply."""
        reply = await self.send_line(command.line())
        if isinstance(command, Command):
            return command.take(reply)
        if isinstance(reply, Listing):
            return reply.of(command.item)
        raise ProtocolError(f"a listing was asked for, and {str(reply)[:200]} came")

    async def import_certificates(self, octets: bytes) -> Taken:
        """Merges the certificates of these octets into the keyring."""
        return await self.do(commands.Import(octets))

    async def load(self, name: str) -> Taken:
        """Merges one entry of the certificate directory: a fingerprint, or `trust-root`."""
        return await self.do(commands.Load(name))

    async def store(self, fpr: str) -> int:
        """Writes a certificate, merged with its entry in that directory, in place of the entry. Returns the size of
        what was written."""
        return (await self.do(commands.Store(fpr))).size

    async def drop(self, fpr: str) -> None:
        """Takes a certificate out of the keyring; verdicts stay."""
        await self.do(commands.Drop(fpr))

    async def judge_good(self, number: str, fpr: str) -> None:
        """Records that the key of this fingerprint made the signature of this number."""
        await self.do(commands.Good(number, fpr))

    async def judge_bad(self, number: str) -> None:
        """Records that no key made the signature of this number."""
        await self.do(commands.Bad(number))

    async def unjudge(self, number: str) -> None:
        """Takes the verdict on a signature away."""
        await self.do(commands.Unjudge(number))

    async def open_view(self, view: str, time: int) -> None:
        """Opens a view of the keyring at a time, or moves its time."""
        await self.do(commands.Time(view, time))

    async def set_root(self, view: str, fpr: str, amount: int = 120) -> None:
        """Sets a root's amount; 0 takes the root away."""
        await self.do(commands.Root(view, fpr, amount))

    async def close_view(self, view: str) -> None:
        """Closes a view and forgets its roots."""
        await self.do(commands.Close(view))

    async def ask(self, view: str, fpr: str, wanted: int, user_id: UserId) -> Answer:
        """The amount to which the user ID is authenticated for the key, up to the wanted amount, and its paths."""
        return await self.do(commands.Ask(view, fpr, wanted, user_id))

    async def list(self, view: str, wanted: int) -> Listing[Binding]:
        """The bindings that reach the wanted amount, by fingerprint and user ID."""
        return await self.do(commands.List(view, wanted))

    async def begin_cursor(self, cursor: str, view: str, wanted: int) -> None:
        """Starts or restarts a cursor over the bindings of `list`."""
        await self.do(commands.CursorOver(cursor, view, wanted))

    async def next_piece(self, cursor: str, count: int) -> Listing[Binding] | Stale:
        """The next bindings of a cursor, at most `count`; or `Stale`."""
        command = commands.CursorNext(cursor, count)
        reply = await self.send_line(command.line())
        if isinstance(reply, Stale):
            return reply
        if isinstance(reply, Listing):
            return reply.of(command.item)
        raise ProtocolError(f"a piece was asked for, and {str(reply)[:200]} came")

    async def close_cursor(self, cursor: str) -> None:
        """Takes a cursor away."""
        await self.do(commands.CursorClose(cursor))

    async def list_in_pieces(self, cursor: str, view: str, wanted: int,
                             count: int = 1000) -> AsyncIterator[Binding | Stale]:
        """The bindings of `list`, in pieces of a cursor: other lines can be sent in between. If the list goes stale, a
        `Stale` comes, and then all bindings again, from the first."""
        await self.begin_cursor(cursor, view, wanted)
        while True:
            piece = await self.next_piece(cursor, count)
            if isinstance(piece, Stale):
                yield piece
                await self.begin_cursor(cursor, view, wanted)
                continue
            async for binding in piece:
                yield binding
            if piece.count < count:
                await self.close_cursor(cursor)
                return

    async def watch(self, watch: str, view: str, fpr: str, wanted: int, user_id: UserId) -> int:
        """Starts or restarts a watch over the answer of `ask`, and returns its current amount. Whenever that
        changes, `told` has it."""
        return (await self.do(commands.WatchOn(watch, view, fpr, wanted, user_id))).amount

    async def unwatch(self, watch: str) -> None:
        """Takes a watch away."""
        await self.do(commands.WatchOff(watch))

    async def explain(self, view: str, fpr: str, user_id: UserId) -> Explanation:
        """What a user ID of a key comes to, and each certification on it. Raises RefusedAbsent if the key isn't held,
        or has no such user ID."""
        return await self.do(commands.Explain(view, fpr, user_id))

    async def absence(self, view: str, fpr: str, wanted: int, user_id: UserId) -> Reached | Missed:
        """Why the answer doesn't reach the wanted amount: `Missed` with a claim, or `Reached`."""
        return await self.do(commands.Absence(view, fpr, wanted, user_id))

    async def check(self, view: str, fpr: str, paths: Iterable[Claim], table: Iterable[Label],
                    user_id: UserId) -> Accepted | Rejected:
        """Whether these paths and this table show that no more is there."""
        return await self.do(commands.Check(view, fpr, paths, table, user_id))

    async def pending(self) -> Listing[PendingSignature]:
        """The well-formed signatures that have no verdict."""
        return await self.do(commands.Pending())

    async def keys(self) -> Listing[Key]:
        """The certificates."""
        return await self.do(commands.Keys())

    async def export(self, fpr: str) -> bytes:
        """One certificate's octets."""
        return (await self.do(commands.Export(fpr))).octets

    async def dump(self) -> Listing[bytes]:
        """The state as a script: lines, without their line feeds."""
        return await self.do(commands.Dump())
