"""What changes make of a keyring that is larger than an engine. One engine merges: it is handed what is kept of the
certificates that a line brings, then the line, and is asked for the union. It holds nothing between."""

from __future__ import annotations

import re
from binascii import hexlify
from collections.abc import Awaitable, Callable, Sequence
from functools import partial

from ..engines.attempts import Attempts
from ..engines.conversation import CannotStart, EngineGone, KilledByLine, Talk
from ..storage.journal import Change, Verdicts
from ..storage.partial_reads import Parts
from .partial_engine import REFUSED_BUDGET

_REFUSED_LINE = b"refused line\n"
_REFUSED_ABSENT = b"refused absent\n"
_OK = b"ok\n"
_DROP = re.compile(rb"drop ((?:[0-9a-fA-F]{24})?[0-9a-fA-F]{40})")
_VERDICT = re.compile(rb"verdict ([0-9a-fA-F]{64}) (?:good (?:[0-9a-fA-F]{24})?[0-9a-fA-F]{40}|bad|none)")

Read = Callable[[Callable[[Parts], "Kept"]], Awaitable["Kept"]]


class Kept:
    """What is kept, behind some changes that aren't committed yet: octets of certificates, which certificates are
    there, and which signatures have a verdict."""

    def __init__(self, parts: Parts, changes: Sequence[Change]) -> None:
        self.octets = {fpr: found.octets for change in changes for fpr in change.fprs
                       if (found := parts.part(fpr)) is not None}
        self.certificates = {fpr: parts.has(fpr) for change in changes if (fpr := dropped(change)) is not None}
        self.verdicts = {number: parts.verdict(number) is not None for change in changes
                         if (number := verdict_number(change)) is not None}


def dropped(change: Change) -> bytes | None:
    """The fingerprint that a line drops."""
    match = _DROP.fullmatch(change.line or b"")
    return bytes.fromhex(match[1].decode()) if match else None


def verdict_number(change: Change) -> bytes | None:
    """The number of the signature whose verdict a line sets."""
    match = _VERDICT.fullmatch(change.line or b"")
    return bytes.fromhex(match[1].decode()) if match else None


def touched_by(changes: Sequence[Change], parts: Parts) -> set[bytes]:
    """The certificates that these changes bring or drop, or on whose signatures they set a verdict."""
    touched = {fpr for change in changes for fpr in change.fprs}
    for change in changes:
        if isinstance(change, Verdicts):
            touched.update(change.targets)
            continue
        number = verdict_number(change)
        touched.update(fpr for fpr in (dropped(change), number and parts.certificate_of(number)) if fpr)
    return touched


class Merging:
    """Finds the reply to each change, and what it does to the database."""

    def __init__(self, program: Sequence[str], budget: int, attempts: Attempts, report: Callable[[str], None]) -> None:
        self._budget = budget
        self._attempts = attempts
        self._report = report
        self._talk = Talk(program)

    @property
    def pid(self) -> int | None:
        return self._talk.pid

    async def take(self, changes: Sequence[Change], read: Read) -> None:
        """Of these changes none brings a certificate that an earlier one drops."""
        kept = await read(lambda parts: Kept(parts, changes))
        await self._import([change for change in changes if _word(change) == b"import"], kept)
        for change in changes:
            if change.reply is not None and change.reply.startswith(b"ok"):
                kept.certificates.update((fpr, True) for fpr in change.fprs)
            elif isinstance(change, Verdicts):
                change.reply = _OK
            elif _word(change) == b"drop":
                change.reply = self._drop(change, kept)
            elif _word(change) == b"verdict":
                change.reply = self._set_verdict(change, kept)

    @staticmethod
    def _drop(change: Change, kept: Kept) -> bytes:
        fpr = dropped(change)
        if fpr is None:
            return _REFUSED_LINE
        was_there, kept.certificates[fpr] = kept.certificates[fpr], False
        return _OK if was_there else _REFUSED_ABSENT

    @staticmethod
    def _set_verdict(change: Change, kept: Kept) -> bytes:
        number = verdict_number(change)
        if number is None:
            return _REFUSED_LINE
        is_taken_away = (change.line or b"").endswith(b" none")
        was_there, kept.verdicts[number] = kept.verdicts[number], not is_taken_away
        return _OK if was_there or not is_taken_away else _REFUSED_ABSENT

    async def _import(self, changes: Sequence[Change], kept: Kept) -> None:
        """Imports at once what is kept and what comes; if that fails, one by one."""
        short = [change for change in changes if len(change.fprs) <= self._budget]
        for change in changes:
            if change not in short:
                change.reply = REFUSED_BUDGET
        if not short or len(short) > 1 and await self._is_merged(short, kept):
            return
        for change in short:
            change.reply = await self._attempts.reply(partial(self._merge_alone, change, kept))
            change.is_over = change.reply is None  # Nobody could answer it.
            if change.reply is None or not change.reply.startswith(b"ok"):
                continue  # Nothing may be merged with what an attempt that failed has made of it.
            kept.octets.update((fpr, bytes.fromhex(reply[7:-1].decode())) for fpr, reply in change.exported.items()
                               if reply.startswith(b"export "))

    async def _is_merged(self, changes: Sequence[Change], kept: Kept) -> bool:
        """Whether an engine took these changes at once. Whatever one of them meets, they are taken one by one then."""
        try:
            return await self._merge(changes, kept)
        except Exception as error:
            if not isinstance(error, EngineGone):
                self._report(repr(error))
            return False

    async def _merge_alone(self, change: Change, kept: Kept) -> bytes:
        await self._merge([change], kept)
        assert change.reply is not None
        return change.reply

    async def _merge(self, changes: Sequence[Change], kept: Kept) -> bool:
        """False if an engine has no room for these changes at once."""
        try:
            return await self._is_taken(changes, kept)
        except BaseException:
            self._talk.kill()  # The next one has to hold nothing.
            raise

    async def _is_taken(self, changes: Sequence[Change], kept: Kept) -> bool:
        merged = {fpr for change in changes for fpr in change.fprs}
        front = [b"import " + hexlify(kept.octets[fpr]) for fpr in merged if fpr in kept.octets]
        lines = [line for change in changes
                 for line in (change.line or b"", *(b"export " + hexlify(fpr) for fpr in change.fprs))]
        if not all(reply.startswith(b"ok") for reply in await self._talk.run(front)):
            self._talk.kill()
            if len(changes) == 1:
                changes[0].reply = REFUSED_BUDGET
            return len(changes) == 1
        following = iter(await self._replies_to(lines))
        for change in changes:
            change.reply = next(following)
            change.exported.update(zip(change.fprs, following))
        await self._talk.run([b"drop " + hexlify(fpr) for fpr in merged])
        return True

    async def _replies_to(self, lines: Sequence[bytes]) -> list[bytes]:
        try:
            return await self._talk.run(lines)
        except CannotStart:
            raise
        except EngineGone as gone:
            raise KilledByLine(str(gone)) from None

    async def close(self) -> None:
        await self._talk.close()


def _word(change: Change) -> bytes:
    return (change.line or b"").partition(b" ")[0]
