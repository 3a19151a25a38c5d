"""What would be lost if a key were gone: each binding that has it on a path is asked about again without it."""

from __future__ import annotations

from typing import Any

from ..keyrings.keyring import Keyring
from ..planning.scratch import supposing
from ..planning.suppositions import WithoutKey
from ..protocol.spelling import for_people, write_user_id
from .network import FULL, Network

MOST_ASKED = 100


def gone(keyring: Keyring, network: Network, fpr: str) -> dict[str, Any]:
    """The bindings of others that have the key on a path, with their amounts with it and without. Of many the first
    are asked about."""
    carried = [one for one in network.carried.get(fpr, ()) if one[0] != fpr]
    asked = carried[:MOST_ASKED]
    items: list[dict[str, Any]] = []
    if asked:
        standpoint = network.standpoint
        view = keyring.view(standpoint.time, standpoint.roots, "with")
        with supposing(keyring, (WithoutKey(fpr),), standpoint.time) as other:
            without = other.view(standpoint.time, standpoint.roots, "without")
            for target, user_id in asked:
                items.append({"key": target, "user_id": for_people(user_id), "spelled": write_user_id(user_id),
                              "before": view.ask(target, FULL, user_id).amount,
                              "after": without.ask(target, FULL, user_id).amount})
    items.sort(key=lambda one: (one["before"] < FULL or one["after"] >= FULL, one["after"] - one["before"]))
    return {"count": len(carried), "asked": len(asked), "items": items,
            "lost": sum(one["before"] >= FULL > one["after"] for one in items),
            "changed": sum(one["before"] != one["after"] for one in items)}
