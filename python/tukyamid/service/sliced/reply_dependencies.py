"""On which certificates the reply to a question rests (docs/SERVICE.md, "Larger than an engine")."""

from __future__ import annotations

import re
from collections.abc import Collection
from dataclasses import dataclass

from ..sessions.views import Value
from ..storage.partial_reads import Parts
from .partial_engine import BudgetExceeded
from .slices import Slices

_FPR = rb"(?:[0-9a-fA-F]{24})?[0-9a-fA-F]{40}"
_TARGET = re.compile(rb"(" + _FPR + rb")(?: .*)?", re.DOTALL)
_NAMED = re.compile(rb"(?<![0-9a-fA-F])" + _FPR + rb"(?![0-9a-fA-F])")
_NOTHING: frozenset[bytes] = frozenset()


@dataclass(frozen=True)
class Rest:
    """The members of a slice, and certificates beside it."""
    base: Collection[bytes]
    beside: frozenset[bytes]


def roots_of(value: Value) -> tuple[bytes, ...]:
    return tuple(bytes.fromhex(fpr.decode()) for fpr, _ in value[1])


def slice_of(value: Value, slices: Slices, parts: Parts) -> Collection[bytes]:
    """The members of the slice of a view; BudgetExceeded if they are too many."""
    found = slices.of(roots_of(value), parts)
    if not found.is_whole:
        raise BudgetExceeded
    return found.members


def target_of(rest: bytes) -> bytes | None:
    """The certificate that a line asks about. `rest` is the line after its view. None if it is malformed."""
    match = _TARGET.fullmatch(rest)
    return bytes.fromhex(match[1].decode()) if match else None


def rest_of(word: bytes, value: Value, rest: bytes, slices: Slices, parts: Parts, most: int) -> Rest:
    """What the reply to a line `ask`, `explain`, `absence` or `check` depends on. `rest` is the line after its view.
    Nothing if it is malformed. BudgetExceeded if that is more than `most`."""
    target = target_of(rest)
    if target is None:
        return Rest(_NOTHING, _NOTHING)
    if word == b"explain":
        return Rest(_NOTHING, frozenset(parts.issuers(target, most) | {target}))
    if word == b"check":
        return Rest(_NOTHING, frozenset(_checked(target, rest, parts, most)))
    if word == b"absence":
        return Rest(_NOTHING, frozenset(parts.leading_to(target, most) | {target}))
    return Rest(slice_of(value, slices, parts), frozenset({target}))


def _checked(target: bytes, rest: bytes, parts: Parts, most: int) -> set[bytes]:
    """A check looks at the steps of the paths, at the certifications of the target, and at those with depth of each
    fingerprint that has a label: who made them has to have a label too."""
    fields = rest.split(b" ", 3)
    if len(fields) < 4:
        return set()
    found = parts.issuers(target, most) | {target}
    found |= {fpr for fpr in _fprs(fields[1]) if parts.has(fpr)}
    for fpr in _fprs(fields[2]):
        if len(found) > most:
            raise BudgetExceeded
        if parts.has(fpr):
            found |= {fpr, *(by for by in parts.introducers(fpr) if parts.has(by))}
    return found


def _fprs(field: bytes) -> list[bytes]:
    return [bytes.fromhex(one.decode()) for one in _NAMED.findall(field)]
