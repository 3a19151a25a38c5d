"""What the service asks of a database that services on several machines share, beside what it asks of any database."""

from dataclasses import dataclass
from typing import Protocol, runtime_checkable

from .database import Database, Snapshot


@dataclass(frozen=True)
class Place:
    """A moment in the order of changes: after the one with this number. `mark` distinguishes it from another one with
    this number in another copy of the database."""
    number: int
    mark: bytes


UNREAD = Place(-1, b"")  # The place of a service that has read nothing yet.


@dataclass(frozen=True)
class News:
    """What other services have committed since this one last looked: the lines of their changes in order, each with
    its number. `lines` is None if they can't be listed. `snapshot` is the keyring behind them, if that was wanted, and
    always if `lines` is None."""
    lines: tuple[tuple[int, bytes], ...] | None = ()
    snapshot: Snapshot | None = None


@dataclass(frozen=True)
class Notified:
    """The place of the last change, as it was known at the time `begun` (`time.monotonic`) at the latest. `standby` is
    the setting that names the synchronous standby, which has confirmed it; empty if there is none."""
    place: Place
    begun: float
    standby: str


class Follower(Protocol):
    """Takes notice of changes. One thread uses it at a time."""

    def wait(self) -> Notified:
        """Waits until something is committed, half a second at most, and until the database confirms that it is still
        the one in which changes are made. DatabaseFault if nothing can be committed at present."""

    def cut(self) -> None:
        """Has another thread that waits meet a DatabaseFault."""

    def close(self) -> None: ...


@runtime_checkable
class Shared(Database, Protocol):
    """A database that other services change too. It remembers how far this service has read, and `apply` is called
    under the lock only."""

    place: Place  # Behind the last change that this service has read, or made itself.

    @property
    def ledger_fault(self) -> str:
        """Why the service can't note what it acknowledges; empty where all is well."""

    def lock_for_news(self) -> News:
        """Waits, up to a bound, until no other service may change anything; what they have changed is to be applied
        before anything else. The lock ends with `apply`, or with `unlock`."""

    def keep_locked(self) -> bool:
        """Keeps the lock, if there is one: it ends if nothing is done under it for two seconds."""

    def unlock(self) -> None:
        """Lets other services lock the database."""

    def news(self, has_snapshot: bool = False) -> News: ...

    def follow(self) -> Follower: ...

    def cut(self) -> None:
        """Has what another thread does with it meet a DatabaseFault."""
