"""What is fragile in a keyring, from some roots."""

from __future__ import annotations

from typing import TYPE_CHECKING

from ..patience import ended_after
from .fragile import Fragile, Look
from .scratch import ScratchEngine, SupposedKeyring
from .trials import Trials

if TYPE_CHECKING:
    from collections.abc import Callable, Mapping

    from ..client.engine import Program
    from ..keyrings.keyring import Keyring

PATIENCE = 1800.0
DAYS, MOST_DAYS = 180, 3650


def fragile_in(keyring: Keyring, time: int, roots: Mapping[str, int], wanted: int, days: int = DAYS,
               say: Callable[[str], None] = lambda text: None, program: Program | None = None) -> Fragile:
    """Which bindings rest on a single key or certification, and what falls when something ends within these days.
    `say` is called with how far it is. It ends after half an hour."""
    with ScratchEngine(keyring, (), program) as engine, ended_after(PATIENCE, engine.end_at_once):
        there = SupposedKeyring(keyring, engine, (), ())
        return Look(there, engine, Trials(engine, time, roots), roots, wanted, say).fragile(days)
