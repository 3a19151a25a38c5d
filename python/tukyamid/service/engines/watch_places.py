"""The places for watches at the engines, of which no user takes those of all others."""

from __future__ import annotations

from collections import defaultdict
from typing import TYPE_CHECKING

from ..sessions.user_shares import Share
from .shared_views import KEPT_FOR_OTHERS

if TYPE_CHECKING:
    from .supervised_engine import Engine

_WATCHES_OF_AN_ENGINE = 64


class Place:
    """A place at an engine, which a user's watch holds or has held."""
    __slots__ = ("_of_engine", "_share", "_is_held")

    def __init__(self, of_engine: dict[Share, int], share: Share) -> None:
        self._of_engine = of_engine
        self._share = share
        self._is_held = False
        self.hold()

    def hold(self) -> None:
        if not self._is_held:
            self._is_held = True
            self._of_engine[self._share] += 1

    def free(self) -> None:
        if self._is_held:
            self._is_held = False
            self._of_engine[self._share] -= 1
            if not self._of_engine[self._share]:
                del self._of_engine[self._share]


class WatchPlaces:
    def __init__(self) -> None:
        self._taken: dict[Engine, dict[Share, int]] = {}

    def take(self, engine: Engine, share: Share) -> Place | None:
        """A place for a user's watch; None if the user would have more than are left for others."""
        of_engine = self._taken.setdefault(engine, defaultdict(int))
        own, free = of_engine.get(share, 0), _WATCHES_OF_AN_ENGINE - sum(of_engine.values())
        if share.has_others and own >= max(KEPT_FOR_OTHERS, free):
            return None
        return Place(of_engine, share)
