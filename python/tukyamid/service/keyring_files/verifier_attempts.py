"""When the verifier is tried again after it couldn't read or verify: another one at once, the same one later."""

from __future__ import annotations

import asyncio

from .verification import OutOfTime, Verification
from .verifier_program import NotVerified

_AGAIN_SECONDS = 10.0
_MOST_SECONDS = 640.0


class Attempts:
    """The pause doubles with each failure, up to ten minutes."""

    def __init__(self, verification: Verification) -> None:
        self._verification = verification
        self._tried: tuple[str, ...] | None = ()
        self._again, self._pause = 0.0, _AGAIN_SECONDS

    def are_due(self) -> bool:
        """Whether the verifier may do now what it couldn't do before."""
        program = self._program()
        is_early = asyncio.get_running_loop().time() < self._again
        return program != self._tried or program is not None and not is_early

    def note_failure(self, error: Exception) -> None:
        if isinstance(error, OutOfTime) and error.verdicts:
            self._pause = _AGAIN_SECONDS  # It comes on.
        self._tried = self._program()
        self._again = asyncio.get_running_loop().time() + self._pause
        self._pause = min(2 * self._pause, _MOST_SECONDS)

    def note_success(self) -> None:
        self._again, self._pause = 0.0, _AGAIN_SECONDS

    def _program(self) -> tuple[str, ...] | None:
        try:
            return self._verification.program()
        except NotVerified:
            return None
