"""A plan for a meeting, from a keyring and who comes to the steps."""

from __future__ import annotations

from typing import TYPE_CHECKING

from ..patience import ended_after
from .meeting import MOST_COMERS, Meeting, Planner
from .scratch import ScratchEngine, SupposedKeyring
from .trials import Trials

if TYPE_CHECKING:
    from collections.abc import Callable, Mapping, Sequence

    from ..client.engine import Program
    from ..keyrings.keyring import Keyring

PATIENCE = 1800.0
MOST_STEPS = 10_000

__all__ = ["MOST_COMERS", "MOST_STEPS", "meeting_of"]


def meeting_of(keyring: Keyring, comers: Sequence[str], time: int, roots: Mapping[str, int], wanted: int,
               depth: int = 0, most: int = MOST_STEPS, say: Callable[[str], None] = lambda text: None,
               program: Program | None = None) -> Meeting:
    """Which certifications among those who come authenticate the most bindings, at a time and from some roots. `say`
    is called with how far it is. It ends after half an hour."""
    with ScratchEngine(keyring, (), program) as engine, ended_after(PATIENCE, engine.end_at_once):
        there = SupposedKeyring(keyring, engine, (), ())
        trials = Trials(engine, time, roots)
        return Planner(there, engine, trials, roots, wanted, depth, most, say).meeting(comers)
