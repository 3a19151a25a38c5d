"""Goes of the verifier over what was imported, and what is recorded of the keyrings then."""

from __future__ import annotations

import os
from dataclasses import replace

from ..line_intake import LineIntake
from ..storage.database import Actor, Source
from .fault_texts import why_of
from .keyring_records import LEFT_OVER, Records
from .progress import Say
from .verification import OutOfTime, Verification
from .verifier_attempts import Attempts
from .verifier_program import NotVerified

BEGUN = "they are being verified"
SEEN = b"\0"  # The digest of what was verified and can't be read any more.
# A further go follows at once if the last one brought at least this many verdicts.
WORTH_A_GO = 10_000


class Rounds:
    """`imported` is what was imported as a whole and waits to be verified: each keyring as it is recorded then. `why`
    says why it waits."""

    def __init__(self, intake: LineIntake, records: Records, verification: Verification) -> None:
        self._intake = intake
        self._records = records
        self._verification = verification
        self.attempts = Attempts(verification)
        self.imported: dict[str, Source] = {}
        self.why = ""

    def set_why(self, why: str) -> None:
        """How many wait isn't known."""
        self.why, self._verification.left = why, None

    async def go(self, actor: Actor, say: Say) -> tuple[int, OutOfTime | None]:
        """Verifies what waits, for one go: how many verdicts it brought, and what it says if something is left. If a go
        brings little, what is left was made to take long."""
        try:
            return await self._verify(actor, say), None
        except OutOfTime as error:
            return error.verdicts, error

    async def verify_what_waits(self) -> None:
        """Verifies what waits. After a failure it tries again later, and at once with another verifier."""
        waiting = [one.name for one in await self._records.all() if not one.is_verified]
        if not any(name == LEFT_OVER or name in self.imported for name in waiting):
            return
        if not self.attempts.are_due():
            return
        before = self.why
        try:
            await self._verify(itself(), lambda text: None)
        except (NotVerified, OSError) as error:
            if why_of(error) != before:
                self._intake.report(why_of(error))

    async def _verify(self, actor: Actor, say: Say) -> int:
        """Verifies what waits, and records for each keyring that this is done, or why it isn't."""
        self.why = BEGUN
        try:
            count = await self._verification.run(actor, say)
        except (NotVerified, OSError) as error:
            self.why = why_of(error)
            self.attempts.note_failure(error)
            for source in await self._records.all():
                if not source.is_verified and self.imported.get(source.name, source).digest != SEEN:
                    await self._records.put(replace(source, fault=self.why))
            raise
        self.attempts.note_success()
        for source in self.imported.values():
            await self._records.put(source)
        self.imported.clear()
        await self._records.drop(LEFT_OVER)
        return count


def itself() -> Actor:
    """The service, which makes changes for the keyrings that it watches."""
    return Actor(os.getuid(), os.getpid())
