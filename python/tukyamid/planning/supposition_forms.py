"""Suppositions for programs: as JSON objects."""

from __future__ import annotations

from typing import TYPE_CHECKING, Any

from ..protocol.spelling import for_people, write_user_id
from .domain_scopes import domain_of
from .suppositions import Certifies, Revokes, WithoutKey

if TYPE_CHECKING:
    from .suppositions import Name, Supposition


def as_object(one: Supposition, name: Name) -> dict[str, Any]:
    """A supposition, with a sentence about it."""
    said = {"said": one.said(name)}
    if isinstance(one, Certifies | Revokes):
        about: dict[str, Any] = {"kind": "certifies" if isinstance(one, Certifies) else "revokes", "issuer": one.issuer,
                 "target": one.target, "user_id": for_people(one.user_id),
                 "user_id_spelled": write_user_id(one.user_id)}
        if isinstance(one, Certifies):
            about |= {"depth": one.depth, "amount": one.amount,
                      "scopes": [for_people(scope, "\\") for scope in one.scopes],
                      "domains": [domain_of(scope) for scope in one.scopes]}
        return about | said
    if isinstance(one, WithoutKey):
        return {"kind": "without", "key": one.fpr, **said}
    return {"kind": "without", "signature": one.number, **said}
