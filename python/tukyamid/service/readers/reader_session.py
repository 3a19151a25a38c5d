"""One client of a reader: its questions are answered here, and what may change something is relayed to the service."""

from __future__ import annotations

import asyncio
import contextlib
import socket
from collections.abc import Callable
from functools import partial

from ..sessions.client_rights import Rights
from ..sessions.command_kinds import CHANGES, MAY_CHANGE
from ..sessions.outbox import Slot
from ..sessions.own_answers import Answering
from ..sessions.own_changes import OwnChanges
from ..sessions.session import Session
from ..sessions.user_shares import Shares
from ..storage.database import Actor, DatabaseFault
from ..storage.group_commit import FAULT
from ..storage.journal import Done
from .reader_intake import ReaderIntake
from .relay import Relay

# Gives a connection to the service for a client: its number, who it is, and whether it may change something.
Connect = Callable[[int, Actor, bool], socket.socket]
_RELAYED = (b"service status", b"service unverified", b"service keyring")


def is_relayed(line: bytes) -> bool:
    """Whether the service itself answers a line."""
    return line.startswith(_RELAYED) or line.partition(b" ")[0] in MAY_CHANGE


class RelayedChanges(OwnChanges):
    """Lines behind a change begin once it has its reply: then they see it."""

    relay: Relay

    def begin(self, line: bytes, done: Done) -> None:
        self.waiting += 1
        self.relay.send(line, partial(self._replied, done))

    def _replied(self, done: Done, reply: bytes) -> None:
        self.waiting -= 1
        done(reply, 0)
        self._resume()


class ReaderSession(Session):
    def __init__(self, number: int, intake: ReaderIntake, answering: ReaderAnswering, rights: Rights, shares: Shares,
                 made: Callable[[Session], None], connect: Connect) -> None:
        super().__init__(number, intake, answering.answer, rights, shares, made)
        self._line_intake = intake
        self._needed = 0  # The number of the last change that its lines have to see.
        self.relay = Relay(lambda: connect(number, self.actor, rights.may_change), self._give_up)
        self._changes = RelayedChanges(intake, number, self._begin_again, self._give_up)
        self._changes.relay = self.relay

    def buffer_updated(self, nbytes: int) -> None:
        self._needed = self._line_intake.published.number
        super().buffer_updated(nbytes)

    def connection_lost(self, exc: Exception | None) -> None:
        self.relay.close()
        super().connection_lost(exc)

    def _begin_again(self) -> None:
        """After the reply to a change."""
        self.see()
        self._begin_lines()

    def see(self) -> None:
        """Later lines see what is published now."""
        self._needed = self._line_intake.published.number

    def _has_room(self, line: bytes) -> bool:
        return self._line_intake.has(self._needed) and not self._is_early(line) and super()._has_room(line)

    def _begin(self, line: bytes | None) -> None:
        super()._begin(line)
        self._line_intake.has_begun()

    def _is_early(self, line: bytes) -> bool:
        """Whether a change would overtake questions that were sent before it: over slices they may still wait in the
        queue."""
        return self._line_intake.queues_questions and line.partition(b" ")[0] in CHANGES and any(
            not slot.is_answered and slot.word not in CHANGES for slot in self.outbox.slots)


class ReaderAnswering:
    """Lookups are answered from the database, and the rest by the service."""

    def __init__(self, intake: ReaderIntake, answering: Answering) -> None:
        self._intake = intake
        self._answering = answering

    async def answer(self, session: Session, slot: Slot, line: bytes) -> None:
        assert isinstance(session, ReaderSession)
        if is_relayed(line):
            session.outbox.answer(slot, await self._relayed(session, line))
            return
        published = self._intake.published
        needed = published.number
        reply = await self._answering.reply(session, line)
        try:  # What was looked up may be newer than what is published.
            seen = await self._intake.find(lambda finder: finder.log(1))
            number = seen[0].number if seen else 0
            await published.reach(number)
        except DatabaseFault as fault:
            self._intake.report(str(fault))
            number = -1
        session.outbox.answer(slot, reply if number >= needed else FAULT)
        session.see()

    @staticmethod
    async def _relayed(session: ReaderSession, line: bytes) -> bytes:
        answered: asyncio.Future[bytes] = asyncio.get_running_loop().create_future()

        def done(reply: bytes) -> None:
            with contextlib.suppress(asyncio.InvalidStateError):
                answered.set_result(reply)

        session.relay.send(line, done, session.outbox.say)
        reply = await answered
        session.see()
        return reply
