"""What isn't an answer: refusals, each a type of its own, and the end of the engine or of the service.

A refused line changed nothing, and the connection can be used on.
"""

from __future__ import annotations

import os

from ..fast_imports import TYPE_CHECKING

if TYPE_CHECKING:
    from collections.abc import Sequence


class TukyamidError(Exception):
    """Any of the errors below."""


class EngineMissing(TukyamidError):
    """The engine's program isn't there, or can't be started."""


class EngineEnded(TukyamidError):
    """The program ended. `status` is its exit status: 3 a read failed, 4 a write failed, 5 out of memory,
    6 an input of 2^30 octets; a signal is the negative of its number."""

    def __init__(self, status: int) -> None:
        super().__init__(f"the engine ended with status {status}")
        self.status = status


class ServiceMissing(TukyamidError):
    """No service listens on the socket."""


class ServiceForeign(TukyamidError):
    """Another user's service listens on the socket, whose answers can't be trusted."""

    def __init__(self, path: str, user: int) -> None:
        super().__init__(f"the service at {path} is another user's, of number {user}, so it isn't asked")
        self.user = user


class ServiceEnded(TukyamidError):
    """The service closed the connection."""


class ProtocolError(TukyamidError):
    """What the other side wrote is no reply, or an exchange was broken off in its middle."""


class Refused(TukyamidError):
    """A refusal. `reply` is its line, `words` are the fields after its name. `position` is the number of the refused
    line, counted from 1, if many were sent at once."""

    def __init__(self, reply: str, words: Sequence[str]) -> None:
        super().__init__(reply)
        self.reply = reply
        self.words = list(words)
        self.position: int | None = None


class RefusedLong(Refused):
    """The line has more than 16,777,216 octets, or the directory's entry more than 8,388,608."""


class RefusedLine(Refused):
    """The line spells no command that the other side knows."""


class RefusedView(Refused):
    """The view isn't open."""


class RefusedPacket(Refused):
    """The packet at octet `at` is malformed. `kind`: 1 not a packet, 2 cut within its length, 3 cut within its body,
    4 partial length, 5 indeterminate length."""

    @property
    def kind(self) -> int:
        return int(self.words[0])

    @property
    def at(self) -> int:
        return int(self.words[1])


class RefusedCompressed(Refused):
    """The octets hold compressed data."""


class RefusedSecret(Refused):
    """The octets hold a secret key."""


class RefusedKind(Refused):
    """The packet at octet `at` is of a type, `type`, that has no place in a certificate."""

    @property
    def type(self) -> int:
        return int(self.words[0])

    @property
    def at(self) -> int:
        return int(self.words[1])


class RefusedOrder(Refused):
    """The packet at octet `at` belongs to a certificate, and comes before the first key."""

    @property
    def at(self) -> int:
        return int(self.words[0])


class RefusedEmpty(Refused):
    """The octets hold no key."""


class RefusedMisfiled(Refused):
    """The directory's entry isn't the one certificate of its name."""


class RefusedClash(Refused):
    """Another key is held under the same fingerprint."""


class RefusedAbsent(Refused):
    """The named thing isn't there."""


class RefusedFull(Refused):
    """The change would pass a limit; `limit` is its word."""

    @property
    def limit(self) -> str:
        return self.words[0]


class RefusedCursor(Refused):
    """No such cursor is there."""


class RefusedWatch(Refused):
    """No such watch is there."""


class RefusedReadOnly(Refused):
    """This socket of the service is for reading alone."""


class ShelfFault(Refused):
    """The engine's directory couldn't be read or written."""


class DatabaseFault(Refused):
    """The service's database couldn't be read or written; nothing was changed."""


class UncertainFault(Refused):
    """The service's commit was broken off: the change is made whole or not at all. It may be sent again."""


class EngineFault(Refused):
    """The service can't start an engine; nothing was changed."""


class KeyringFault(Refused):
    """The service can't read a keyring, or can't verify its signatures yet; `why` says why."""

    @property
    def why(self) -> str:
        from .spelling import read_user_id
        return os.fsdecode(read_user_id(" ".join(self.words).encode("ascii")))


_REFUSED: dict[str, tuple[type[Refused], int]] = {
    "long": (RefusedLong, 0), "line": (RefusedLine, 0), "view": (RefusedView, 0), "packet": (RefusedPacket, 2),
    "compressed": (RefusedCompressed, 0), "secret": (RefusedSecret, 0), "kind": (RefusedKind, 2),
    "order": (RefusedOrder, 1), "empty": (RefusedEmpty, 0), "misfiled": (RefusedMisfiled, 0),
    "clash": (RefusedClash, 0), "absent": (RefusedAbsent, 0), "full": (RefusedFull, 1),
    "cursor": (RefusedCursor, 0), "watch": (RefusedWatch, 0), "read-only": (RefusedReadOnly, 0),
}
_FAULTS: dict[str, type[Refused]] = {
    "fault shelf": ShelfFault, "fault database": DatabaseFault, "fault uncertain": UncertainFault,
    "fault engine": EngineFault,
}


def read_refusal(reply: str) -> Refused | None:
    """The refusal that a reply's line spells, or None if it is no refusal."""
    if not reply.startswith(("refused", "fault")):
        return None
    words = reply.split(" ")
    if reply in _FAULTS:
        return _FAULTS[reply](reply, [])
    if words[:2] == ["fault", "keyring"]:
        return KeyringFault(reply, words[2:])
    if words[0] != "refused":
        return None
    found = _REFUSED.get(words[1] if len(words) > 1 else "")
    if found is None or len(words) != 2 + found[1]:
        raise ProtocolError(f"an unknown refusal: {reply[:200]!r}")
    return found[0](reply, words[2:])
