"""Has the verifier look at the signatures that have no verdict, some certificates at a time, and makes its verdicts."""

from __future__ import annotations

import os
import shutil
from collections.abc import Callable, Iterator, Sequence
from contextlib import aclosing
from itertools import islice

from tukyamid.keyrings.verifier import VerifierFailed

from ..line_intake import LineIntake
from ..storage.certificate_rows import keys_of
from ..storage.database import Actor
from ..storage.unlooked import Looked, Unlooked
from .progress import Progress, Say, make_changes, one_ahead
from .verifier_program import NotVerified
from .verified_parts import Verified, VerifiedParts

# How many certificates' verdicts are set at once: all other lines wait meanwhile.
_AT_ONCE = 200


class OutOfTime(NotVerified):
    """Some signatures are left for the next go. `verdicts` is how many this one brought."""

    def __init__(self, verdicts: int, left: int) -> None:
        super().__init__(f"the time for one go was up; {left} signatures are left for the next ones")
        self.verdicts = verdicts


class Verification:
    """`verifier` returns the words that start the verifier. `left` is how many signatures wait for it, None if that
    isn't known."""

    def __init__(self, intake: LineIntake, verifier: Callable[[], Sequence[str]]) -> None:
        self._intake = intake
        self._verifier = verifier
        self._parts = VerifiedParts(intake)
        self.left: int | None = None

    def program(self) -> tuple[str, ...]:
        """The words that start the verifier, and the place and time of its file, which another one hasn't. NotVerified
        if there is none."""
        try:
            words = self._verifier()
        except VerifierFailed as error:
            raise NotVerified(str(error)) from None
        found = shutil.which(words[0])
        if found is None:
            raise NotVerified(f"the verifier isn't installed: there is no program {words[0]}")
        about = os.stat(found)
        return *words, str(about.st_ino), str(about.st_mtime_ns)

    async def run(self, actor: Actor, say: Say) -> int:
        """Verifies what waits, with all certificates' keys, for one go. Returns how many verdicts are new."""
        # Also without a verifier, since the number that wait for it is reported.
        self.left = await self._intake.search(lambda finder: finder.count_unlooked())
        return await self._go(self.program()[:-2], actor, Progress(say, "signatures", self.left))

    async def _go(self, words: Sequence[str], actor: Actor, progress: Progress) -> int:
        """While the verdicts on some certificates are made, the verifier looks at the next ones."""
        count = 0
        async with aclosing(one_ahead(self._parts.all(words, progress))) as parts:
            async for verified in parts:
                await self._make(verified, actor)
                count += len(verified.verdicts)
                self.left = max(0, (self.left or 0) - verified.done)
        if self._parts.has_left:
            raise OutOfTime(count, self.left or 0)
        return count

    async def _make(self, verified: Verified, actor: Actor) -> None:
        """Makes verdicts, and notes what was looked at when they are committed."""
        if not self._intake.takes_verdicts:
            lines = (b"verdict %s %s" % (number.hex().encode(), b"good " + issuer.hex().encode() if issuer else b"bad")
                     for number, issuer in verified.verdicts.items())
            await make_changes(self._intake, lines, actor)
            await self._intake.put_looked(_looked(verified, verified.part))
            return
        for some in _in_groups(verified.part):
            verdicts = [(number, verified.verdicts[number]) for one in some for number in one.numbers
                        if number in verified.verdicts]
            await self._intake.set_verdicts(verdicts, _looked(verified, some),
                                         [bytes.fromhex(keys_of(one.octets)[0]) for one in some], actor)


def _looked(verified: Verified, some: Sequence[Unlooked]) -> list[Looked]:
    return [Looked(one.place, one.change, one.named & verified.absent) for one in some
            if one.place not in verified.late]


def _in_groups(part: Sequence[Unlooked]) -> Iterator[list[Unlooked]]:
    rest = iter(part)
    while some := list(islice(rest, _AT_ONCE)):
        yield some
