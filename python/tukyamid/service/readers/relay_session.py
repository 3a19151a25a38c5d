"""The other end of a relay: a client of a reader, whose lines the service itself answers."""

from __future__ import annotations

from collections.abc import Callable

from ..line_intake import LineIntake
from ..sessions.client_rights import Rights
from ..sessions.session import Helper, Session
from ..sessions.user_shares import Share, Shares
from ..storage.database import Actor


class _Counted:
    """The shares of users whose connections are counted already."""

    def __init__(self, shares: Shares) -> None:
        self._shares = shares

    def join(self, uid: int) -> Share:
        return self._shares.of(uid)

    def leave(self, share: Share) -> None: ...


class RelaySession(Session):
    def __init__(self, number: int, intake: LineIntake, helper: Helper, may_change: bool, shares: Shares,
                 made: Callable[[Session], None], actor: Actor) -> None:
        super().__init__(number, intake, helper, Rights(may_change), _Counted(shares), made)
        self._given = actor

    def _peer(self) -> Actor:
        return self._given
