"""The commands that only the service answers, and its replies (docs/SERVICE.md). Paths and other texts of the system
are spelled as user IDs are."""

from __future__ import annotations

import os

from ..fast_imports import TYPE_CHECKING
from ..records import Value
from . import spelling
from .command_base import Command, Line, ListingCommand
from .replies import Done, Reply
from .spelling import UserId

if TYPE_CHECKING:
    from collections.abc import Iterable


EXCERPTS = ("key", "from", "reach", "about", "to", "question")
MOST_OF_AN_EXCERPT = 256


class Figure(Value):
    """A name and a value of the service's status."""
    __slots__ = ("name", "value")

    def __init__(self, name: str, value: str) -> None:
        self.name, self.value = name, value


class Found(Value):
    """A user ID of a key that was sought."""
    __slots__ = ("fpr", "user_id")

    def __init__(self, fpr: str, user_id: bytes) -> None:
        self.fpr, self.user_id = fpr, user_id


class Issued(Value):
    """A signature with a good verdict, and the key that made it."""
    __slots__ = ("number", "issuer")

    def __init__(self, number: str, issuer: str) -> None:
        self.number, self.issuer = number, issuer


class Certified(Value):
    """A certificate that a key has signed, and the greatest depth of its trust signatures there (0 without any)."""
    __slots__ = ("depth", "fpr")

    def __init__(self, depth: int | str, fpr: str) -> None:
        self.depth, self.fpr = int(depth), fpr


class Change(Value):
    """A change of the keyring: its number, when it was made, by which user and process, and what it was."""
    __slots__ = ("number", "time", "user", "process", "what")

    def __init__(self, number: int, time: int, user: int, process: int, what: str) -> None:
        self.number, self.time, self.user, self.process, self.what = number, time, user, process, what


class KeyringLine(Value):
    """A line about a keyring that the service keeps: its name and count of certificates, or the fault of the one
    before: why it couldn't be read, or, unless it `is_verified`, why its signatures wait to be verified."""
    __slots__ = ("name", "certificates", "fault", "is_verified")

    def __init__(self, name: str, certificates: int, fault: str, is_verified: bool = True) -> None:
        self.name, self.certificates, self.fault, self.is_verified = name, certificates, fault, is_verified


def with_faults(lines: Iterable[KeyringLine]) -> list[KeyringLine]:
    """Each keyring once, with its fault."""
    keyrings: list[KeyringLine] = []
    for line in lines:
        if line.fault and keyrings:
            before = keyrings.pop()
            line = KeyringLine(before.name, before.certificates, line.fault, line.is_verified)
        keyrings.append(line)
    return keyrings


class Waiting(Value):
    """Signatures that no verifier has looked at: how many, and why; none if a keyring couldn't even be read. Until they
    are verified, an amount that isn't reached may only be one that isn't known yet."""
    __slots__ = ("count", "why")

    def __init__(self, count: int, why: str) -> None:
        self.count, self.why = count, why

    def __str__(self) -> str:
        what = {0: "a keyring waits", 1: "1 signature waits"}.get(self.count, f"{self.count} signatures wait")
        return f"{what} to be verified: {self.why}"


class KeyringAdded(Reply):
    """Of a keyring that was added: its certificates, and how many verdicts are new."""
    __slots__ = ("certificates", "verdicts")

    def __init__(self, certificates: int, verdicts: int) -> None:
        self.certificates, self.verdicts = certificates, verdicts


class Status(ListingCommand[Figure]):
    """Asks for the service's figures."""
    __slots__ = ()
    form, item = "service status", Figure


class Find(ListingCommand[Found]):
    """Asks for user IDs by an `address`, a whole `user-id`, a `part` of one (`first`: the first hundred of these), or a
    `key` (a fingerprint or key ID)."""
    __slots__ = ("by", "sought")
    form, item = "service find {0.by} {0.text}", Found

    def __init__(self, by: str, sought: UserId) -> None:
        self.by, self.sought = by, spelling.user_id(sought)
        if by not in ("address", "user-id", "part", "first", "key") or not self.sought:
            raise ValueError(f"nothing can be found by {by!r} {self.sought!r}")

    @property
    def text(self) -> str:
        """What is sought, as a line spells it."""
        return spelling.write_user_id(self.sought)


class Issuers(ListingCommand[Issued]):
    """Asks who made the signatures of a certificate."""
    __slots__ = ("fpr",)
    form, item = "service issuers {0.fpr}", Issued

    def __init__(self, fpr: str) -> None:
        self.fpr = spelling.fingerprint(fpr)


class CertifiedBy(ListingCommand[Certified]):
    """Asks which other certificates have a good signature by a key, those with trust signatures first."""
    __slots__ = ("fpr",)
    form, item = "service certified {0.fpr}", Certified

    def __init__(self, fpr: str) -> None:
        self.fpr = spelling.fingerprint(fpr)


class Excerpt(ListingCommand[bytes]):
    """Asks for lines that make a part of the keyring in an engine: a `key` alone; `from` some keys, whoever trust
    signatures lead to, and with `reach` all that those have certified; `about` keys, the issuers of their signatures
    too, and with `to` whoever leads to these. `question` is for asking about the first key from the others as roots."""
    __slots__ = ("word", "fprs")
    form, item = "service excerpt {0.word} {0.text}", bytes

    def __init__(self, word: str, fprs: Iterable[str]) -> None:
        self.word, self.fprs = word, tuple(map(spelling.fingerprint, fprs))
        if word not in EXCERPTS or not 0 < len(self.fprs) <= MOST_OF_AN_EXCERPT:
            raise ValueError(f"no excerpt {word!r} of {len(self.fprs)} keys")

    @property
    def text(self) -> str:
        """The fingerprints as a line has them."""
        return " ".join(self.fprs)


class Log(ListingCommand[Change]):
    """Asks for the last changes, newest first."""
    __slots__ = ("count",)
    form, item = "service log {0.count}", Change

    def __init__(self, count: int) -> None:
        self.count = spelling.decimal(count, 1, 999_999, "count")


class KeyringList(ListingCommand[KeyringLine]):
    """Asks for the keyrings that the service keeps."""
    __slots__ = ()
    form, item = "service keyring list", KeyringLine


class Unverified(ListingCommand[Waiting]):
    """Asks whether signatures wait to be verified. The listing has one item if so, else none."""
    __slots__ = ()
    form, item = "service unverified", Waiting


class _OfKeyring(Line):
    __slots__ = ("name",)

    def __init__(self, name: str | os.PathLike[str]) -> None:
        self.name = os.fspath(name)

    @property
    def text(self) -> str:
        """The name as a line spells it."""
        return spelling.write_user_id(os.fsencode(self.name))


class KeyringAdd(_OfKeyring, Command[KeyringAdded]):
    """Has the service read a keyring, by its absolute path or `gpg`, and again whenever it changes."""
    __slots__ = ()
    form, replies = "service keyring add {0.text}", (KeyringAdded,)


class KeyringRemove(_OfKeyring, Command[Done]):
    """Has the service watch a keyring no longer."""
    __slots__ = ()
    form, replies = "service keyring remove {0.text}", (Done,)
