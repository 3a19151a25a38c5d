"""What the service asks of a database, whichever one it is: `sqlite_database` keeps everything in a file, and several
machines share `postgres_database`.

A change is what one line of a client made of certificates or verdicts. The database numbers changes in the order in
which they are applied, and makes each of them whole or not at all.
"""

from collections.abc import Collection, Iterable, Iterator, Sequence
from dataclasses import dataclass
from pathlib import Path
from typing import Protocol

from .loaded_files import Loaded
from .unlooked import Looked, Unlooked

BAD = b""
AFTER_ALL = (1 << 63) - 1  # A number that no change has.


class DatabaseFault(Exception):
    """The database can't be read or written; the text says why."""


class Damaged(DatabaseFault):
    """A file has lost its form: it isn't a database at all, or its pages contradict one another."""


class Uncertain(DatabaseFault):
    """The connection was lost during a commit: the changes are all made, or none of them is."""


@dataclass(frozen=True)
class Actor:
    """Who made a change: the user and the process at the other end of the socket."""
    uid: int
    pid: int


@dataclass(frozen=True)
class PutCertificate:
    """A certificate as the engine holds it now."""
    fpr: bytes
    octets: bytes


@dataclass(frozen=True)
class DropCertificate:
    fpr: bytes


@dataclass(frozen=True)
class SetVerdict:
    """The signature is by `issuer`; it is nobody's where that is `BAD`; None takes the verdict away."""
    number: bytes
    issuer: bytes | None


@dataclass(frozen=True)
class HaveLooked:
    """The verifier has looked at these certificates. That alone is no change."""
    looked: tuple[Looked, ...]


Effect = PutCertificate | DropCertificate | SetVerdict | HaveLooked


@dataclass(frozen=True)
class Change:
    """What one line changed in the keyring, in the words of the log; and the line itself, for the engines of other
    services."""
    what: str
    actor: Actor
    effects: tuple[Effect, ...]
    line: bytes = b""


@dataclass(frozen=True)
class LogEntry:
    number: int
    time: int
    actor: Actor
    what: str


@dataclass(frozen=True)
class Binding:
    fpr: str
    user_id: bytes


@dataclass(frozen=True)
class Figures:
    """What is there, in numbers."""
    certificates: int
    user_ids: int
    verdicts: int
    change: int
    octets: int
    pending: int


UNVERIFIED = b""


@dataclass(frozen=True)
class Source:
    """A keyring that the service watches: a file, a directory, or `gpg`. `digest` is that of what was read and verified
    last, `UNVERIFIED` while signatures wait. `fault` says why it couldn't be read the last time, or why they wait."""
    name: str
    digest: bytes = UNVERIFIED
    certificates: int = 0
    fault: str = ""

    @property
    def is_verified(self) -> bool:
        return self.digest != UNVERIFIED


class Snapshot(Protocol):
    """The keyring at one moment, whatever changes later."""

    @property
    def change(self) -> int:
        """The number of the last change that it has."""

    def count(self) -> int:
        """How many lines it has."""

    def lines(self) -> Iterator[bytes]:
        """The lines that make it, without line feeds: certificates by fingerprint, then verdicts by number."""

    def certificates(self) -> Iterator[bytes]:
        """The octets of each certificate."""

    def close(self) -> None: ...


class Finder(Protocol):
    """Reads what has been committed. One thread uses it at a time."""

    def figures(self) -> Figures: ...

    def by_address(self, address: str) -> list[Binding]: ...

    def by_user_id(self, user_id: bytes) -> list[Binding]: ...

    def by_part(self, part: str, most: int | None = None) -> list[Binding]:
        """Up to `most` bindings whose user ID has this part, of any case, by fingerprint."""

    def by_key(self, key: bytes) -> list[Binding]:
        """The bindings of a fingerprint, or of each key of a key ID."""

    def holders(self, key_id: bytes, most: int) -> list[bytes]:
        """The octets of up to `most` certificates with a key of this ID, first those whose primary key it is."""

    def issuers(self, fpr: bytes) -> list[tuple[bytes, bytes]] | None:
        """The number and the issuer of each good signature of a certificate; None where it isn't there."""

    def certified(self, fpr: bytes) -> list[tuple[bytes, int]]:
        """The other certificates that have a good signature by this key, each with the greatest depth of these."""

    def log(self, count: int, before: int = AFTER_ALL) -> list[LogEntry]:
        """The last changes before the one of this number, the newest first."""

    def sources(self) -> list[Source]: ...

    def loaded(self, name: str) -> list[Loaded]:
        """How far the files of this keyring are loaded."""

    def count_unlooked(self) -> int:
        """How many signatures wait for the verifier's look."""

    def unlooked(self, place: int, most: int, most_octets: int) -> list[Unlooked]:
        """The first certificates after a place that the verifier has to look at, up to bounds, but at least one."""

    def keys_of_ids(self, key_ids: Collection[bytes]) -> list[tuple[bytes, bytes]]:
        """The IDs of kept keys among these, each with the first octets of its certificate."""

    def close(self) -> None: ...


class Database(Protocol):
    """Writes changes, and opens what reads them. One thread uses it at a time."""

    @property
    def name(self) -> str:
        """Where it is, for people."""

    def apply(self, changes: Sequence[Change]) -> list[int]:
        """Commits these changes at once, and returns for each the number of the last change so far. DatabaseFault if
        they can't be committed; then none of them is."""

    def probe(self) -> None:
        """DatabaseFault where nothing can be committed at present."""

    def fill(self, lines: Iterable[bytes], what: str, actor: Actor) -> int:
        """Puts the lines of a dump into the place of everything, as one change, and gives its number."""

    def snapshot(self, before: Snapshot | None = None) -> Snapshot:
        """The keyring as it is now. It takes the place of `before`, which nobody reads any more: so the database
        needn't keep what that one alone has."""

    def finder(self) -> Finder: ...

    def put_source(self, source: Source) -> None: ...

    def put_loaded(self, name: str, loaded: Loaded) -> None:
        """Notes how far a file of a keyring is loaded."""

    def drop_loaded(self, name: str) -> None:
        """Forgets how far the files of a keyring are loaded."""

    def put_looked(self, looked: Sequence[Looked]) -> None:
        """Notes what the verifier has looked at."""

    def log_octets(self) -> int:
        """How large its log is that a slow reader makes larger; 0 if it has none."""

    def drop_source(self, name: str) -> bool:
        """Whether it was there."""

    def check(self) -> list[str]:
        """What is wrong with it: one text each."""

    def backup(self, path: Path) -> None:
        """Writes a copy of it to a new file, while it may be in use."""

    def close(self) -> None: ...
