"""The keyrings that the service keeps: what is new in them is imported and verified, again whenever they change.

A keyring is recorded as unverified before the first of its certificates is imported, and as verified after the last of
its signatures. So whatever ends the service in between, the next one verifies what is left, and until then nobody takes
a signature that nobody looked at for one that doesn't count.
"""

from __future__ import annotations

import asyncio
from collections.abc import Callable, Sequence
from dataclasses import dataclass, replace

from ..line_intake import LineIntake
from ..storage.database import UNVERIFIED, Actor, DatabaseFault, Source
from .fault_texts import fault_of, is_text, line_of, why_of
from .file_changes import FileChanges
from .keyring_contents import Looked, Stamp, look_at, stamp_of
from .keyring_reader import Certificates, read_certificates
from .keyring_records import LEFT_OVER, Records
from .large_keyrings import is_large
from .large_updates import LargeUpdates
from .progress import Progress, Say, make_changes
from .verification import Verification
from .verification_rounds import BEGUN, SEEN, WORTH_A_GO, Rounds, itself
from .verifier_program import NotVerified
from .watched_files import Unreadable


@dataclass(frozen=True)
class Contents:
    """What a keyring has, and the digest of its files."""
    digest: bytes
    read: Certificates


class Keyrings:
    """Reads one keyring at a time. `verifier` returns the words that start the verifier."""

    def __init__(self, intake: LineIntake, verifier: Callable[[], Sequence[str]]) -> None:
        self._intake = intake
        self._verification = Verification(intake, verifier)
        self._lock = asyncio.Lock()
        self._files = FileChanges()
        # What couldn't be read for want of a verifier; and what was read but for a part, which its fault says.
        self._unread: set[str] = set()
        self._partly: set[str] = set()
        self._records = Records(intake)
        self._rounds = Rounds(intake, self._records, self._verification)
        self._large = LargeUpdates(intake, self._records, self._verification, self._lock, self._rounds.set_why)

    @property
    def is_busy(self) -> bool:
        return self._lock.locked() or self._large.is_loading()

    async def sources(self) -> list[Source]:
        """The keyrings that are watched; if the database can't be read, those of the last time."""
        return await self._records.keyrings()

    async def waiting(self) -> tuple[int | None, str] | None:
        """How many signatures have no verdict, if that is known, and why; None if all of them were looked at."""
        unverified = [source for source in await self._records.all() if not source.is_verified]
        return (self._verification.left, self._rounds.why or unverified[0].fault) if unverified else None

    async def add(self, name: str, actor: Actor, say: Say) -> bytes:
        """Reads a keyring, and watches it from now on. The reply counts its certificates and the new verdicts."""
        try:
            if not is_text(name):
                raise Unreadable(f"{name}: its name isn't UTF-8")
            is_loaded = await asyncio.to_thread(is_large, name)
            if is_loaded:
                certificates = await self._load(name, actor, say, is_asked=True)
            async with self._lock:
                if not is_loaded:
                    stamp, looked = await self._look_at(name)
                    contents = await self._read(name, stamp, looked)
                    await self._import(name, contents, actor, say)
                    self._files.note_read(name, stamp)
                    certificates = len(contents.read.octets)
                verdicts, rest = await self._rounds.go(actor, say)
            while rest is not None:
                if rest.verdicts < WORTH_A_GO:
                    raise rest
                async with self._lock:  # Other lines were answered meanwhile.
                    more, rest = await self._rounds.go(actor, say)
                verdicts += more
        except Unreadable as error:
            return b"fault keyring " + line_of(error)
        except (NotVerified, OSError) as error:  # There is no room for what the verifier is to read, say.
            return b"fault keyring " + line_of(why_of(error))
        return b"ok keyring %d %d\n" % (certificates, verdicts)

    async def remove(self, name: str) -> bool:
        """Watches a keyring no longer; what was taken from it stays. False where it isn't watched."""
        async with self._lock:  # A keyring that is being read would be noted again behind its removal.
            self._files.forget(name)
            self._rounds.imported.pop(name, None)
            self._unread.discard(name)
            self._partly.discard(name)
            source = await self._records.of(name)
            if source is None or name == LEFT_OVER:
                return False
            if not source.is_verified:
                await self._records.put(replace(source, name=LEFT_OVER, certificates=0))
            return await self._records.drop(name)

    async def watch(self) -> None:
        """Looks after the keyrings, for ever."""
        reported = ""
        while True:
            try:
                await self._look_around()
                reported = ""
            except Exception as error:  # Whatever it was, the keyrings are looked after again.
                said = str(error) if isinstance(error, (DatabaseFault, OSError)) else repr(error)
                if said != reported:
                    self._intake.report(said)
                reported = said
            await self._files.wait(all(one.is_verified for one in self._records.known))

    async def _look_around(self) -> None:
        """Reads the keyrings whose files have changed, and verifies what waits."""
        sources = await self._records.keyrings()
        faulty = [one.name for one in sources if one.fault and one.name not in self._partly]
        changed = await self._files.changed([one.name for one in sources], faulty)
        unread = self._unread.difference(changed) if self._rounds.attempts.are_due() else ()
        for name in (*changed, *unread):
            await self._look_after(name)
        if not all(one.is_verified for one in await self._records.all()):  # Otherwise it isn't busy.
            async with self._lock:
                await self._rounds.verify_what_waits()

    @staticmethod
    async def _look_at(name: str) -> tuple[Stamp, Looked]:
        """What a keyring's files have, and the stamp that they had before."""
        return await asyncio.to_thread(stamp_of, name), await asyncio.to_thread(look_at, name)

    async def _read(self, name: str, stamp: Stamp, looked: Looked) -> Contents:
        """What a keyring has. Without a verifier it is recorded as one whose signatures all wait."""
        try:
            read = await read_certificates(self._verification.program()[:-2], name, looked.files)
        except (NotVerified, OSError) as error:
            await self._leave_unread(name, stamp, error)
            raise
        self._unread.discard(name)
        return Contents(looked.digest, read)

    async def _leave_unread(self, name: str, stamp: Stamp, error: Exception) -> None:
        self._unread.add(name)
        self._files.note_read(name, stamp)
        source = await self._records.of(name) or Source(name, UNVERIFIED, 0, "")
        self._rounds.set_why(why_of(error))
        self._rounds.attempts.note_failure(error)
        await self._records.put(replace(source, digest=UNVERIFIED, fault=self._rounds.why))

    async def _load(self, name: str, actor: Actor, say: Say, is_asked: bool) -> int:
        """Loads a large keyring as far as it isn't loaded yet; returns how many certificates it has."""
        stamp = await asyncio.to_thread(stamp_of, name)
        self._files.forget(name)  # If this is interrupted, it goes on.
        self._rounds.imported.pop(name, None)
        try:
            source = await self._large.load(name, actor, say, is_asked)
        except (NotVerified, OSError) as error:
            await self._leave_unread(name, stamp, error)
            raise
        self._unread.discard(name)
        self._note_imported(source)
        self._files.note_read(name, stamp)
        return source.certificates

    async def _look_after(self, name: str) -> None:
        """Imports what is new in a keyring that has changed."""
        source = await self._records.of(name)
        if source is None or self._large.is_loading(name):
            return
        try:
            if await asyncio.to_thread(is_large, name):
                is_read = source.is_verified or name in self._rounds.imported
                if not (is_read and await self._large.note_unchanged(name, self._files)):
                    await self._load(name, itself(), lambda text: None, is_asked=False)
                return
            async with self._lock:
                source = await self._records.of(name) or source
                stamp, looked = await self._look_at(name)
                if looked.digest != source.digest or source.fault:
                    await self._import(name, await self._read(name, stamp, looked), itself(), lambda text: None)
                self._files.note_read(name, stamp)
        except NotVerified as error:
            if source.fault != str(error):
                self._intake.report(str(error))
        except Unreadable as error:
            if await self._records.of(name) is None:
                return  # It isn't watched any more.
            self._partly.discard(name)
            await self._files.note_unreadable(name)
            if source.fault != str(error):
                self._intake.report(str(error))
                await self._records.put(replace(source, fault=str(error)))
            if not source.is_verified:
                self._rounds.imported[name] = replace(source, digest=SEEN, fault=str(error))

    async def _import(self, name: str, contents: Contents, actor: Actor, say: Say) -> None:
        """Imports what a keyring has. From before its first certificate on it is recorded as unverified."""
        octets = contents.read.octets
        total = len(octets)
        self._files.forget(name)  # If this is interrupted, it is read again.
        self._rounds.imported.pop(name, None)
        self._rounds.set_why(BEGUN)
        await self._records.put(Source(name, UNVERIFIED, total, BEGUN))
        lines = (b"import " + one.hex().encode() for one in octets)
        refused = await make_changes(self._intake, lines, actor, Progress(say, "certificates", total))
        fault = fault_of(refused, total, contents.read.left_out)
        self._note_imported(Source(name, contents.digest, total, fault))

    def _note_imported(self, source: Source) -> None:
        """A keyring waits to be verified as a whole."""
        (self._partly.add if source.fault else self._partly.discard)(source.name)
        self._rounds.imported[source.name] = source
