"""The lines that the service answers itself: those of the directory, and those that begin with `service`."""

from __future__ import annotations

import contextlib
import os
import re
from binascii import hexlify
from collections.abc import Callable
from dataclasses import replace

from tukyamid.openpgp.addresses import canonical
from tukyamid.protocol.spelling import read_user_id, write_user_id

from ..engines.certificate_directory import Directory, DirectoryFailed
from ..keyring_files.keyring_contents import is_name
from ..keyring_files.keyring_updates import Keyrings
from ..line_intake import LineIntake
from ..storage.certificate_rows import keys_of
from ..storage.database import Binding, DatabaseFault, Figures, Finder, Source
from ..storage.group_commit import FAULT
from ..storage.last_known import LastKnown
from ..storage.shared_database import Shared
from .change_log import log_reply
from .command_kinds import MAY_CHANGE, QUESTIONS_OF_THE_SERVICE, REFUSED_LINE, REFUSED_READ_ONLY
from .engine_replies import asked
from .excerpts import excerpt_reply
from .outbox import Pieces, Slot
from .session import Session

_KEY = re.compile(rb"[0-9a-fA-F]{16}|[0-9a-fA-F]{40}|[0-9a-fA-F]{64}")
_FPR = re.compile(rb"[0-9a-fA-F]{40}|[0-9a-fA-F]{64}")
_COUNT = re.compile(rb"[1-9][0-9]{0,5}")
_REFUSED_ABSENT, _REFUSED_FULL = b"refused absent\n", b"refused full holders\n"
MOST_FIRST = 100
_MOST_HOLDERS, _MOST_HOLDING_OCTETS = 64, 1 << 23


def _text(octets: bytes) -> str:
    return octets.decode("utf-8", "surrogateescape")


_FOUND_BY: dict[bytes, Callable[[Finder, bytes], list[Binding]]] = {
    b"address": lambda finder, sought: finder.by_address(canonical(_text(sought))),
    b"user-id": lambda finder, sought: finder.by_user_id(sought),
    b"part": lambda finder, sought: finder.by_part(_text(sought)),
    b"first": lambda finder, sought: finder.by_part(_text(sought), MOST_FIRST),
    b"key": lambda finder, sought: finder.by_key(bytes.fromhex(_text(sought))),
}

_SEARCHES = frozenset((b"part", b"first"))  # These read all user IDs.

# Names and values that the service knows of itself.
Status = Callable[[], list[tuple[str, object]]]


def shown(text: str) -> bytes:
    """A text of the system's, as a path, in the spelling of user IDs."""
    return str(write_user_id(os.fsencode(text))).encode()


def listed(head: bytes, lines: list[bytes]) -> bytes:
    return b"".join([b"%s %d\n" % (head, len(lines)), *(line + b"\n" for line in lines)])


class Answering:
    def __init__(self, intake: LineIntake, directory: Directory, keyrings: Keyrings, status: Status) -> None:
        self._intake = intake
        self._directory = directory
        self._keyrings = keyrings
        self._status = status
        self._known = LastKnown(lambda: intake.is_away, lambda: intake.find(lambda finder: finder.figures()))

    async def answer(self, session: Session, slot: Slot, line: bytes) -> None:
        """Answers one line."""
        session.outbox.answer(slot, await self.reply(session, line))

    async def reply(self, session: Session, line: bytes) -> bytes | Pieces | None:
        try:
            if line.partition(b" ")[0] in MAY_CHANGE:
                async with self._directory.lock:
                    return await self._of_directory(session, line)
            reply = FAULT if self._would_be_too_old(line) else await self._of_service(session, line)
            return FAULT if self._would_be_too_old(line) else reply  # By now.
        except DatabaseFault:
            return FAULT
        except DirectoryFailed as failed:
            return failed.reply

    def _would_be_too_old(self, line: bytes) -> bool:
        return self._intake.is_too_old and line.partition(b" ")[2].partition(b" ")[0] in QUESTIONS_OF_THE_SERVICE

    async def _of_directory(self, session: Session, line: bytes) -> bytes | None:
        word, _, rest = line.partition(b" ")
        if word == b"load":
            reply, octets = await self._directory.load(line)
            if octets is None:
                session.line_intake.note(session.number, line)
                return reply
            return await asked(session, b"import " + octets.hex().encode(), is_change=True, noted=line)
        exported = await asked(session, b"export " + rest, is_change=False, noted=line)
        if exported is None or not exported.startswith(b"export "):
            return exported
        return await self._directory.store(line, bytes.fromhex(exported[7:-1].decode()))

    async def _of_service(self, session: Session, line: bytes) -> bytes | Pieces:
        word, _, text = line.partition(b" ")[2].partition(b" ")
        match word:
            case b"status" if line == b"service status":
                return await self._status_reply(session)
            case b"find":
                return await self._find(session, text)
            case b"issuers" if _FPR.fullmatch(text):
                return await self._issuers_reply(session, bytes.fromhex(text.decode()))
            case b"certified" if _FPR.fullmatch(text):
                return await session.line_intake.find(lambda finder: listed(b"service certified", [
                    b"on %d %s" % (depth, hexlify(fpr))
                    for fpr, depth in finder.certified(bytes.fromhex(text.decode()))]))
            case b"holders" if _KEY.fullmatch(text):
                return await self._holders_reply(session, text.decode().lower())
            case b"excerpt":
                return await excerpt_reply(session.line_intake, text)
            case b"log" if _COUNT.fullmatch(text):
                return await log_reply(session.line_intake, int(text))
            case b"unverified" if line == b"service unverified":
                return await self._unverified_reply(session)
            case b"keyring":
                return await self._of_keyring(session, text)
        return REFUSED_LINE

    async def learn(self) -> None:
        """Reads the figures of a shared database, so that they can be reported while it can't be reached."""
        if isinstance(self._intake.database, Shared):
            with contextlib.suppress(DatabaseFault):
                await self._figures()

    async def _figures(self) -> tuple[Figures, int]:
        """The database's figures and its count of watched keyrings; if it can't be read, those of the last time."""
        figures, sources = await self._known.value(), len(await self._keyrings.sources())
        if isinstance(self._intake.database, Shared) and self._intake.count is not None:
            figures = replace(figures, change=self._intake.count)  # It may have what the engines don't have yet.
        return figures, sources

    async def _status_reply(self, session: Session) -> bytes:
        figures, sources = await self._figures()
        count, waits = await self._count_pending(session, figures), True
        with contextlib.suppress(DatabaseFault):  # While it can't be read, nobody knows that all were looked at.
            waits = await self._keyrings.waiting() is not None
        values = [("certificates", figures.certificates), ("user-ids", figures.user_ids),
                  ("verdicts", figures.verdicts), ("pending", count), ("unverified", count if waits else 0),
                  ("change", figures.change), ("size", figures.octets), ("keyrings", sources), *self._status()]
        return listed(b"service status", [f"{name} ".encode() + shown(str(value)) for name, value in values])

    @staticmethod
    async def _count_pending(session: Session, figures: Figures | None = None) -> int:
        """As an engine counts them; of a sliced keyring, as the database does or did the last time."""
        if figures is not None and session.line_intake.is_away and session.line_intake.loaded is not None:
            return figures.pending
        try:
            count = await session.line_intake.pending()
        except DatabaseFault:
            if figures is None:
                raise
            return figures.pending
        if count is None:
            reply = await asked(session, b"pending", is_change=False)
            count = int((reply or b"pending 0\n").split(b"\n", 1)[0].split(b" ")[1])
        return count

    async def _unverified_reply(self, session: Session) -> bytes:
        waiting = await self._keyrings.waiting()
        if waiting is None:
            return listed(b"service unverified", [])
        count = await self._count_pending(session) if waiting[0] is None else waiting[0]
        return listed(b"service unverified", [f"waits {count} ".encode() + shown(waiting[1])])

    async def _find(self, session: Session, text: bytes) -> bytes:
        word, space, sought = text.partition(b" ")
        try:
            octets = read_user_id(sought)
        except ValueError:
            return REFUSED_LINE
        if not space or not octets:
            return REFUSED_LINE
        if word not in _FOUND_BY or word == b"key" and not _KEY.fullmatch(sought):
            return REFUSED_LINE
        def look(finder: Finder) -> bytes:
            return listed(b"service find", [f"bind {one.fpr} {write_user_id(one.user_id)}".encode()
                                            for one in _FOUND_BY[word](finder, octets)])

        return await (session.line_intake.search(look) if word in _SEARCHES else session.line_intake.find(look))

    async def _issuers_reply(self, session: Session, fpr: bytes) -> bytes:
        def look(finder: Finder) -> bytes:
            issuers = finder.issuers(fpr)
            if issuers is None:
                return _REFUSED_ABSENT
            return listed(b"service issuers", [f"by {one.hex()} {issuer.hex()}".encode() for one, issuer in issuers])

        return await session.line_intake.find(look)

    @staticmethod
    async def _holders_reply(session: Session, key: str) -> bytes:
        """The certificates that have this key as their primary key or as a subkey, first those whose primary key it
        is. If there are too many, an attacker may have made them, and none is chosen."""
        key_id = bytes.fromhex(key if len(key) == 16 else key[:16] if len(key) == 64 else key[-16:])
        found = await session.line_intake.find(lambda finder: finder.holders(key_id, _MOST_HOLDERS + 1))
        if len(found) > _MOST_HOLDERS or sum(map(len, found)) > _MOST_HOLDING_OCTETS:
            return _REFUSED_FULL
        holders = [(keys[0], octets) for octets in found
                   if (keys := keys_of(octets)) and (len(key) == 16 or key in keys)]
        return listed(b"service holders", [f"holder {fpr} ".encode() + hexlify(octets) for fpr, octets in holders])

    async def _of_keyring(self, session: Session, text: bytes) -> bytes:
        word, _, spelled = text.partition(b" ")
        try:
            name = os.fsdecode(read_user_id(spelled))
        except ValueError:
            return REFUSED_LINE
        if word == b"list" and text == b"list":
            return listed(b"service keyring", [
                line for one in await self._keyrings.sources() for line in _about_keyring(one)])
        if word not in (b"add", b"remove") or not is_name(name):
            return REFUSED_LINE
        if not session.rights.may_change:
            return REFUSED_READ_ONLY
        if word == b"remove":
            return b"ok\n" if await self._keyrings.remove(name) else _REFUSED_ABSENT
        return await self._keyrings.add(name, session.actor, lambda text: session.outbox.say(
            b"service progress " + shown(text) + b"\n"))


def _about_keyring(source: Source) -> list[bytes]:
    """The lines about a keyring that is watched."""
    lines = [f"keyring {source.certificates} ".encode() + shown(source.name)]
    if source.fault or not source.is_verified:
        lines.append((b"fault " if source.is_verified else b"unverified ") + shown(source.fault))
    return lines
