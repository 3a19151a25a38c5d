"""What may be supposed: that a key certifies a user ID or revokes that, or that a key or a signature isn't there."""

from __future__ import annotations

from ..fast_imports import TYPE_CHECKING
from ..protocol.spelling import for_people
from ..records import Value

if TYPE_CHECKING:
    from collections.abc import Callable

    Name = Callable[[str], str]  # What people call a key.

FULL, MOST_DEPTH = 120, 255
MOST_SCOPE = 1024  # Characters of a regular expression (docs/PROFILE.md).
MOST_SCOPES = 8


class Certifies(Value):
    """The issuer certifies a user ID of the target. A depth of 1 or more makes the target an introducer, for user IDs
    that match one of the scopes if there are any."""
    __slots__ = ("issuer", "target", "user_id", "depth", "amount", "scopes")

    def __init__(self, issuer: str, target: str, user_id: bytes, depth: int = 0, amount: int = FULL,
                 scopes: tuple[bytes, ...] = ()) -> None:
        self.issuer, self.target, self.user_id = issuer, target, user_id
        self.depth, self.amount, self.scopes = depth, amount, scopes

    def said(self, name: Name) -> str:
        """A sentence for people, by what they call keys."""
        what = f"{name(self.issuer)} certifies {for_people(self.user_id)}"
        if name(self.target) != for_people(self.user_id):
            what += f" of {name(self.target)}"
        if self.depth or self.amount != FULL:
            what += f" with depth {self.depth} and amount {self.amount}"
        return what + "".join(f", for {_covered(scope)}" for scope in self.scopes)


class Revokes(Value):
    """The issuer revokes its certifications of a user ID of the target."""
    __slots__ = ("issuer", "target", "user_id")

    def __init__(self, issuer: str, target: str, user_id: bytes) -> None:
        self.issuer, self.target, self.user_id = issuer, target, user_id

    def said(self, name: Name) -> str:
        return f"{name(self.issuer)} revokes its certification of {for_people(self.user_id)}"


class WithoutKey(Value):
    """A key isn't there."""
    __slots__ = ("fpr",)

    def __init__(self, fpr: str) -> None:
        self.fpr = fpr

    def said(self, name: Name) -> str:
        return f"the key of {name(self.fpr)} isn't there"


class WithoutSignature(Value):
    """A signature isn't there."""
    __slots__ = ("number",)

    def __init__(self, number: str) -> None:
        self.number = number

    def said(self, name: Name) -> str:
        return f"the signature {self.number} isn't there"


Supposition = Certifies | Revokes | WithoutKey | WithoutSignature


def _covered(scope: bytes) -> str:
    """Whom a regular expression covers."""
    from .domain_scopes import domain_of  # What it needs takes long to import, and few certifications have a scope.
    domain = domain_of(scope)
    return for_people(scope, "\\") if domain is None else f"addresses at {domain}"
