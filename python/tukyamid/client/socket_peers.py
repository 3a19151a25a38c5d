"""Who is at the other end of a Unix socket, and whether a service there may be trusted."""

from __future__ import annotations

import os
import sys

from ..fast_imports import SOL_SOCKET, SO_PEERCRED, TYPE_CHECKING
from ..protocol.refusals import ServiceForeign
from ..records import Value

if TYPE_CHECKING:
    from ..fast_imports import BareSocket

# The sockets of the host's service. Only root can make their directory.
HOST_SOCKETS = ("/run/tukyamid/socket", "/run/tukyamid/questions")
_NUMBER = 4


class Peer(Value):
    """A process and its user, as the kernel reports them."""
    __slots__ = ("process", "user")

    def __init__(self, process: int, user: int) -> None:
        self.process, self.user = process, user


def peer_of(connected: BareSocket) -> Peer:
    """Who connected to a socket, or who has opened the socket that this one is connected to."""
    octets = connected.getsockopt(SOL_SOCKET, SO_PEERCRED, 3 * _NUMBER)  # The third is the group.
    return Peer(*(int.from_bytes(octets[at:at + _NUMBER], sys.byteorder, signed=True) for at in (0, _NUMBER)))


def check_listener(connected: BareSocket, path: str | os.PathLike[str], user: int | None = None) -> None:
    """ServiceForeign if the service at this path isn't the caller's own, the host's, or that of `user`: whoever made
    it could answer whatever they like."""
    path, listener = os.fspath(path), peer_of(connected).user
    if listener not in (os.geteuid(), user) and not _is_of_the_host(path, listener):
        raise ServiceForeign(path, listener)


def _is_of_the_host(path: str, listener: int) -> bool:
    return path in HOST_SOCKETS and listener in (0, os.stat(os.path.dirname(path)).st_uid)
