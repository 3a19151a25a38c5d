"""The client at the other end of a connection, as the log names it, and what it may do."""

import os
import socket
from dataclasses import dataclass

from tukyamid.client.socket_peers import peer_of

from ..storage.database import Actor

NOBODY = -1


@dataclass(frozen=True)
class Rights:
    """What the clients of a socket may do. `users` are those who may connect; None is whomever the system lets in."""
    may_change: bool = True
    most_views: int = 256
    users: frozenset[int] | None = None

    def admit(self, actor: Actor) -> bool:
        return self.users is None or actor.uid in self.users


def actor_of(connection: int) -> Actor:
    """The user and the process that have connected to this socket, as the kernel reports them."""
    try:
        with socket.socket(fileno=os.dup(connection)) as own:
            peer = peer_of(own)
    except OSError:
        return Actor(NOBODY, NOBODY)
    return Actor(peer.user, peer.process)
