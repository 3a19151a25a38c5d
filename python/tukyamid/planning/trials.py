"""Certifications that are supposed one after another: each is imported once, and counts only while it is tried."""

from __future__ import annotations

from typing import TYPE_CHECKING

from ..protocol import commands
from ..protocol.replies import Answer

if TYPE_CHECKING:
    from collections.abc import Mapping, Sequence

    from .scratch import ScratchEngine
    from .supposed_signatures import Signature
    from .suppositions import Certifies

VIEW, NO_ROOTS = "plan", "no-roots"


class Trials:
    """An engine from which a plan asks, at a time and from some roots. `tried` counts what was asked."""

    def __init__(self, engine: ScratchEngine, time: int, roots: Mapping[str, int],
                 made: Sequence[Signature] = ()) -> None:
        """`made` are signatures that are supposed all the time."""
        self.engine, self.time, self.tried, self._made = engine, time, 0, made
        self._signatures: dict[Certifies, Signature] = {}
        self._supposed: tuple[Certifies, ...] = ()
        engine.open_view(NO_ROOTS, time)
        engine.open_view(VIEW, time)
        for fpr, amount in roots.items():
            engine.set_root(VIEW, fpr, amount)

    def answer(self, fpr: str, wanted: int, user_id: bytes, supposed: Sequence[Certifies] = ()) -> Answer:
        """The answer if all of this is supposed, and nothing else."""
        self.suppose(supposed)
        self.tried += 1
        return self.engine.ask(VIEW, fpr, wanted, user_id)

    def suppose(self, supposed: Sequence[Certifies]) -> None:
        """Supposes this, and nothing else any more."""
        lines = [commands.Unjudge(self._of(one).number).line() for one in self._supposed if one not in supposed]
        self._supposed, before = (), self._supposed
        for one in supposed:
            if one not in before:
                lines += self._of(one).lines() if one not in self._signatures else [self._good(one)]
        for line in lines:
            self.engine.send_line(line)
        self._supposed = tuple(supposed)

    def _good(self, one: Certifies) -> bytes:
        return commands.Good(self._of(one).number, one.issuer).line()

    def _of(self, one: Certifies) -> Signature:
        if one not in self._signatures:
            self.engine.need("key", [one.issuer, one.target])
            self._signatures[one] = self.engine.signature(one, self.time, self._made)
        return self._signatures[one]
