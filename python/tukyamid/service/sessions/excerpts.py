"""Parts of the keyring for whoever wants to suppose something in an engine of its own: `service excerpt`."""

from __future__ import annotations

import re
from collections.abc import Collection, Sequence
from dataclasses import dataclass

from ..engines.program_run import pieces
from ..line_intake import LineIntake
from ..storage.database import Database
from ..storage.partial_reads import HasParts, Parts, SharedParts
from .command_kinds import REFUSED_LINE
from .outbox import Generated, Pieces
from .thin_parts import ThinParts

REFUSED_EXCERPT = b"refused full excerpt\n"
_WORDS = re.compile(rb"(from|about|key|question|reach|to)((?: (?:[0-9a-fA-F]{40}|[0-9a-fA-F]{64})){1,256})")


@dataclass(frozen=True)
class Wanted:
    """The certificates that are wanted: `key` is these keys alone; `from` also whoever trust signatures lead to from
    them, and `reach` all that those have certified; `about` also the issuers of their signatures, and `to` whoever
    leads to these by trust signatures. `question` is the first key, and whoever trust signatures lead to from the
    others: the first as it is kept, and of the others only what a path to the first can go along."""
    word: bytes
    fprs: tuple[bytes, ...]

    def found(self, parts: Parts, most: int) -> Collection[bytes]:
        """Their fingerprints; of more than `most`, some of them and more than `most`."""
        match self.word:
            case b"key":
                return self.fprs
            case b"about":
                return {*self.fprs, *(one for fpr in self.fprs for one in parts.issuers(fpr, most))}
            case b"to":
                return {*self.fprs, *(one for fpr in self.fprs for one in parts.leading_to(fpr, most))}
            case b"question":
                return {self.fprs[0], *parts.slice_of(self.fprs[1:], most)}
        members = parts.slice_of(self.fprs, most)
        return members if self.word == b"from" else {*members, *parts.certified_by(members)}


async def excerpt_reply(intake: LineIntake, text: bytes) -> bytes | Pieces:
    """The reply to a line that has this text behind `service excerpt`."""
    match = _WORDS.fullmatch(text)
    if match is None:
        return REFUSED_LINE
    of = Wanted(match[1], tuple(bytes.fromhex(fpr.decode()) for fpr in match[2].split()))
    return await intake.search(lambda _: _excerpt(intake.database, of, intake.budget))


def _excerpt(database: Database, of: Wanted, most: int) -> bytes | Pieces:
    """Lines that make these certificates, with the verdicts on their signatures, in an engine. All of it is what was
    committed at one moment."""
    assert isinstance(database, HasParts)
    parts = _frozen(database)
    try:
        fprs = of.found(parts, most)
        if len(fprs) > most:
            parts.close()
            return REFUSED_EXCERPT
        thin = ThinParts(parts, fprs if of.word == b"question" else (), of.fprs[0])
        counts = {fpr: thin.count_lines(fpr) for fpr in sorted(fprs)}
        return _written(parts, thin, [fpr for fpr, count in counts.items() if count], sum(counts.values()))
    except BaseException:
        parts.close()
        raise


def _frozen(database: HasParts) -> Parts:
    """Reads what is committed now, whatever is committed later."""
    parts = database.parts()
    try:
        if isinstance(parts, SharedParts):
            parts.renew()
            return parts
        frozen = parts.frozen()
    except BaseException:
        parts.close()
        raise
    parts.close()
    return frozen


def _written(parts: Parts, thin: ThinParts, fprs: Sequence[bytes], count: int) -> Generated:
    try:
        yield b""
        yield b"service excerpt %d\n" % count
        yield from pieces(line for fpr in fprs for line in thin.lines(fpr))
    finally:
        parts.close()
