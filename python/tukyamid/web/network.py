"""Who is authenticated from a standpoint, and through whom, gathered while the engine answers one binding after the
other. What is there so far can be drawn at any time."""

from __future__ import annotations

import threading
from collections import Counter
from dataclasses import dataclass, field
from typing import NamedTuple

from ..client import Client
from ..keyrings.keyring import Keyring
from ..keyrings.service_keyring import served_keyring
from ..protocol.replies import Answer, Binding
from ..protocol.spelling import for_people
from .page_requests import Standpoint

FULL, ANY = 120, 1
VIEW = "network"


class Link(NamedTuple):
    """What the certifications of a key by another come to that are on paths: the greatest amount and depth."""
    amount: int
    depth: int


@dataclass
class Reached:
    """A key that is authenticated: the user ID of the greatest amount, with a name rather than an address alone, and
    how many of its user IDs are."""
    amount: int
    user_id: bytes
    count: int = 1


@dataclass
class Network:
    """`keys` are those that are authenticated, `links` who vouches for whom on the paths to them, and
    `carried` the bindings that have a key on a path. `others` are the fingerprints of the rest. `asked` of `total`
    bindings have been asked about."""
    standpoint: Standpoint
    keys: dict[str, Reached] = field(default_factory=dict)
    links: dict[tuple[str, str], Link] = field(default_factory=dict)
    carried: dict[str, list[tuple[str, bytes]]] = field(default_factory=dict)
    names: dict[str, str] = field(default_factory=dict)
    others: list[str] = field(default_factory=list)
    asked: int = 0
    total: int = 0
    is_done: bool = False
    is_given_up: bool = False
    changed: threading.Event = field(default_factory=threading.Event)

    def gather(self, client: Client) -> None:
        """Asks about every binding that is authenticated to any amount."""
        keyring = served_keyring(client)
        view = keyring.view(self.standpoint.time, self.standpoint.roots, VIEW)
        self._name_roots(keyring)
        found = list(view.list(ANY))
        self.total = len(found)
        reached = {one.fpr for one in found}
        self.others = [key.fpr for key in client.keys() if key.fpr not in reached and key.fpr not in self.names]
        for place, one in enumerate(found, 1):
            if self.is_given_up:
                return
            self._take(one, view.ask(one.fpr, FULL, one.user_id))
            self.asked = place
        self.is_done = True
        self.changed.set()

    def _name_roots(self, keyring: Keyring) -> None:
        for fpr in self.standpoint.roots:
            name = keyring.name(fpr)
            self.names[fpr] = "" if name is None else for_people(name)

    def _take(self, binding: Binding, answer: Answer) -> None:
        known = self.keys.get(binding.fpr)
        if known is None:
            self.keys[binding.fpr] = Reached(answer.amount, binding.user_id)
        else:
            known.count += 1
            if (answer.amount, _has_name(binding.user_id)) > (known.amount, _has_name(known.user_id)):
                known.amount, known.user_id = answer.amount, binding.user_id
        for issuer in {step.issuer for path in answer.paths for step in path.steps}:
            self.carried.setdefault(issuer, []).append((binding.fpr, binding.user_id))
        for path in answer.paths:
            for step in path.steps:
                if step.issuer != step.target:
                    before = self.links.get((step.issuer, step.target), Link(0, 0))
                    self.links[step.issuer, step.target] = Link(max(before.amount, step.amount),
                                                                max(before.depth, step.depth))

    def name(self, fpr: str) -> str:
        reached = self.keys.get(fpr)
        return self.names.get(fpr) or ("" if reached is None else for_people(reached.user_id))

    def counts(self) -> dict[str, int]:
        """How many keys are authenticated fully, partly and not at all."""
        amounts = Counter("full" if one.amount >= FULL else "part" for one in list(self.keys.values()))
        return {"full": amounts["full"], "part": amounts["part"], "none": len(self.others)}


def _has_name(user_id: bytes) -> bool:
    """Whether there is more than an address."""
    return not user_id.lstrip().startswith(b"<")
