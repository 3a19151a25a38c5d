"""Whom a signer should be: a user ID, an e-mail address, or a domain."""

from dataclasses import dataclass
from enum import Enum

from ..openpgp.addresses import address_of


class Kind(Enum):
    USER_ID = "user ID"
    ADDRESS = "address"
    DOMAIN = "domain"


@dataclass(frozen=True)
class Whom:
    """One whose signature is wanted. `text` is as it was given.

    >>> domain = Whom.read("@example.org")
    >>> domain.is_named_by(b"Carol <carol@Example.org>"), domain.is_named_by(b"Dan <dan@mail.example.org>")
    (True, False)
    >>> Whom.read("carol@example.org").is_named_by(b"Carol <Carol@example.org>")
    True
    >>> Whom.read("Carol <carol@example.org>").is_named_by(b"Carol <Carol@example.org>")
    False
    """
    text: str
    kind: Kind

    @classmethod
    def read(cls, text: str) -> "Whom":
        """`@example.org` is a domain, `carol@example.org` an address, and any other text is a whole user ID."""
        if text.startswith("@"):
            if address_of(_someone_at(text)) is None:
                raise ValueError(f"{text!r} isn't a domain: write it as @example.org")
            return cls(text, Kind.DOMAIN)
        if address_of(text.encode("utf-8", "surrogateescape")) is not None and "<" not in text:
            return cls(text, Kind.ADDRESS)
        if not text:
            raise ValueError("an empty text names nobody")
        return cls(text, Kind.USER_ID)

    def is_named_by(self, user_id: bytes) -> bool:
        """Whether a user ID is this one, has this address, or an address of this domain. A domain below it is
        another one."""
        own = self.text.encode("utf-8", "surrogateescape")
        if self.kind is Kind.USER_ID:
            return user_id == own
        address = address_of(user_id)
        if address is None:
            return False
        if self.kind is Kind.ADDRESS:
            return address == address_of(own)
        return _domain_of(address) == _domain_of(address_of(_someone_at(self.text)))


def _someone_at(domain: str) -> bytes:
    return b"someone" + domain.encode("utf-8", "surrogateescape")


def _domain_of(address: str | None) -> str:
    return (address or "").rpartition("@")[2]
