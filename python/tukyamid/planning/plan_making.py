"""A plan for one binding, from a keyring to the proposals."""

from __future__ import annotations

from typing import TYPE_CHECKING

from ..patience import ended_after
from .plan import Search
from .scratch import ScratchEngine, SupposedKeyring
from .trials import Trials

if TYPE_CHECKING:
    from collections.abc import Mapping, Sequence

    from ..client.engine import Program
    from ..keyrings.keyring import Keyring
    from .plan_types import Plan, Target
    from .suppositions import Supposition

PATIENCE = 600.0
MOST_TOGETHER = 2


def plan_for(keyring: Keyring, target: Target, time: int, roots: Mapping[str, int], most: int = MOST_TOGETHER,
             suppositions: Sequence[Supposition] = (), program: Program | None = None) -> Plan:
    """Which new certifications by these people raise the binding to the amount, at a time and from some roots: the
    fewest, up to `most`. What is supposed already counts as there. The search ends after ten minutes."""
    with ScratchEngine(keyring, suppositions, program) as engine, ended_after(PATIENCE, engine.end_at_once):
        made = engine.suppose(time)
        there = SupposedKeyring(keyring, engine, made, suppositions)
        return Search(there, Trials(engine, time, roots, made), target, keyring.name).plan(most)
