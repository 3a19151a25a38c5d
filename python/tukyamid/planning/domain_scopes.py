"""Scopes of introducers as gpg makes them: a domain, for which alone the introducer's certifications count."""

from __future__ import annotations

import re

from ..openpgp.addresses import address

_DOMAIN = re.compile(rb"<\[\^>\]\+\[@\.\]((?:[a-z0-9]|\\[._-])+)>\$")
_ASCII = re.compile(r"[a-z0-9_-]+(?:\.[a-z0-9_-]+)*")


def scope_of(user_id: bytes) -> bytes | None:
    """The regular expression that gpg makes of a user ID's domain: it covers addresses there and below it. None if
    there is none that covers the user ID.

    >>> scope_of(b"Carol <carol@example.org>"), scope_of(b"carol@example.org"), scope_of(b"Carol <Carol@Example.org>")
    (b'<[^>]+[@.]example\\\\.org>$', None, None)
    """
    domain = (address(user_id) or "").rpartition("@")[2]
    if not _ASCII.fullmatch(domain) or not user_id.endswith(f"@{domain}>".encode("ascii")):
        return None
    return b"<[^>]+[@.]" + re.sub(r"([^a-z0-9])", r"\\\1", domain).encode("ascii") + b">$"


def domain_of(scope: bytes) -> str | None:
    """The domain that a regular expression of gpg's is about; None if it is another one.

    >>> domain_of(rb"<[^>]+[@.]example\\.org>$"), domain_of(b"example")
    ('example.org', None)
    """
    found = _DOMAIN.fullmatch(scope)
    return found[1].replace(b"\\", b"").decode("ascii") if found else None
