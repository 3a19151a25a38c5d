"""What the service reads of a keyring that is larger than an engine: the certificates that a question rests on, and
who certified whom. `sqlite_partial_reads` reads it in the SQLite database, `postgres_partial_reads` in a shared one."""

from binascii import hexlify
from collections.abc import Collection, Iterator
from dataclasses import dataclass
from typing import Protocol, runtime_checkable

from .database import Snapshot
from .shared_database import UNREAD, Place, Shared


@dataclass(frozen=True)
class Part:
    """A certificate with the verdicts on its signatures: each number with its issuer, which is empty if it is bad."""
    fpr: bytes
    octets: bytes
    verdicts: tuple[tuple[bytes, bytes], ...]

    def lines(self) -> Iterator[bytes]:
        """The lines that make it in an engine."""
        yield b"import " + hexlify(self.octets)
        for number, issuer in self.verdicts:
            yield b"verdict %s " % hexlify(number) + (b"good " + hexlify(issuer) if issuer else b"bad")


@dataclass(frozen=True)
class Sizes:
    """What an engine that holds the whole keyring would hold, as its limits count it."""
    certificates: int
    octets: int
    signatures: int
    verdicts: int

    def fits(self, most: "Sizes") -> bool:
        return (self.certificates <= most.certificates and self.octets <= most.octets
                and self.signatures <= most.signatures and self.verdicts <= most.verdicts)


# An engine's own limits (docs/PROFILE.md).
MOST = Sizes(certificates=65_536, octets=268_435_456, signatures=1_048_576, verdicts=2_097_152)


class Parts(Protocol):
    """Reads what has been committed, or what was when it was opened. One thread uses it at a time. Who certified whom
    looks at good verdicts and depths alone: times, policy and revocations are the engine's matter."""

    def sizes(self) -> Sizes: ...

    def count(self) -> int:
        """How many certificates there are."""

    def part(self, fpr: bytes) -> Part | None: ...

    def has(self, fpr: bytes) -> bool: ...

    def count_lines(self, fpr: bytes) -> int:
        """How many lines a part has; 0 if the certificate isn't kept."""

    def slice_of(self, roots: Collection[bytes], most: int) -> set[bytes]:
        """These keys, and with each key every certificate that it certified with a depth of at least 1; once there are
        more than `most`, the first of them, one more than that."""

    def introducers(self, fpr: bytes) -> frozenset[bytes]:
        """Who certified this certificate with a depth of at least 1."""

    def issuers(self, fpr: bytes, most: int) -> set[bytes]:
        """The kept certificates of those who made its signatures; of too many, one more than `most`."""

    def leading_to(self, fpr: bytes, most: int) -> set[bytes]:
        """Its issuers, and with each of them its introducers, as far as they are kept; of too many, one more than
        `most`."""

    def certified_by(self, members: Collection[bytes]) -> list[bytes]:
        """The certificates that these keys have certified, by fingerprint."""

    def user_ids(self, fpr: bytes) -> list[bytes]:
        """In the order of their octets."""

    def verdict(self, number: bytes) -> bytes | None:
        """The issuer of a signature that has a verdict; empty if it is bad."""

    def certificate_of(self, number: bytes) -> bytes | None:
        """The kept certificate that carries the signature of this number."""

    def unverified(self) -> Iterator[bytes]:
        """By fingerprint, the certificates that have a signature without a verdict."""

    def pending(self) -> int:
        """How many signatures of kept certificates have no verdict."""

    def keys(self) -> Iterator[tuple[bytes, int, int]]:
        """Each certificate's fingerprint, with how many user IDs and how many signatures it has."""

    def frozen(self) -> "Parts":
        """Reads what this one reads now, whatever is committed later."""

    def close(self) -> None: ...


@runtime_checkable
class HasParts(Protocol):
    """A database that can be read in parts."""

    def parts(self) -> Parts:
        """What has been committed by the time of each call."""


@runtime_checkable
class SharedParts(Parts, Protocol):
    """Parts of a database that other services change too: all that is read is what was committed at one moment."""

    def renew(self, place: Place = UNREAD) -> tuple[Place, tuple[tuple[int, bytes], ...] | None]:
        """Reads what is committed now from now on. Gives its place, and the numbers and lines of the changes that lead
        there from `place`; None if they can't be listed."""

    def snapshot(self) -> Snapshot:
        """A copy of all of it."""


@runtime_checkable
class SharedInParts(Shared, HasParts, Protocol):
    """A shared database that can be read in parts."""

    def lock(self) -> None:
        """Waits, up to a bound, until no other service may change anything. This lock too ends with `apply`, or with
        `unlock`; what others have changed is read by renewing parts."""
