"""Plans as the page shows them."""

from __future__ import annotations

from typing import Any

from ..keyrings.keyring import Keyring
from ..planning.plan_making import plan_for
from ..planning.plan_text import as_object
from ..planning.plan_types import Target
from .names import Names
from .page_requests import Subject

MOST_PROPOSALS = 20


def plan(keyring: Keyring, subject: Subject, by: tuple[str, ...], most: int) -> dict[str, Any]:
    """Which new certifications by these people, or else by the roots, would raise the amount."""
    roots, names = subject.standpoint.roots, Names(keyring)
    for fpr in by:
        if keyring.certificate(fpr) is None:
            raise ValueError(f"the key {fpr} isn't in the keyring, so nobody knows what it could certify")
    signers = by or tuple(fpr for fpr in roots if keyring.certificate(fpr) is not None)
    target = Target(subject.fpr, subject.user_id, subject.wanted, signers)
    found = plan_for(keyring, target, subject.standpoint.time, roots, most, subject.supposed)
    shown = as_object(found, names.of)
    proposals = shown["proposals"]
    waiting = keyring.index.waiting()
    return {**shown, "proposals": proposals[:MOST_PROPOSALS], "more": max(0, len(proposals) - MOST_PROPOSALS),
            "names": names.found, "waiting": None if waiting is None else str(waiting)}
