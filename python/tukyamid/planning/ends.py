"""When keys and certifications end."""

from __future__ import annotations

from collections import defaultdict
from typing import TYPE_CHECKING

from ..openpgp.certificates import CERTIFICATIONS
from ..openpgp.signatures import DIRECT
from ..protocol.spelling import for_people
from ..records import Value

if TYPE_CHECKING:
    from collections.abc import Iterable, Iterator

    from ..keyrings.keyring import Keyring
    from ..openpgp.certificates import Certificate, Signature
    from .suppositions import Name


class Ending(Value):
    """A key, or the issuer's certification of a user ID of it, may end. Other signatures can still make it last: only
    the engine says what it comes to."""
    __slots__ = ("fpr", "issuer", "user_id")

    def __init__(self, fpr: str, issuer: str | None = None, user_id: bytes = b"") -> None:
        self.fpr, self.issuer, self.user_id = fpr, issuer, user_id

    def said(self, name: Name) -> str:
        if self.issuer is None:
            return f"the key of {name(self.fpr)} expires"
        return f"the certification of {for_people(self.user_id)} by {name(self.issuer)} ends"


def endings(keyring: Keyring, fprs: Iterable[str], since: int, until: int) -> dict[int, list[Ending]]:
    """What may end after the one time and by the other, in these certificates."""
    found: defaultdict[int, dict[Ending, None]] = defaultdict(dict)
    for fpr in fprs:
        certificate = keyring.certificate(fpr)
        for time, ending in _of(keyring, certificate, since, until) if certificate is not None else ():
            found[time][ending] = None
    return {time: list(ending) for time, ending in found.items()}


def _of(keyring: Keyring, certificate: Certificate, since: int, until: int) -> Iterator[tuple[int, Ending]]:
    def is_by(signature: Signature, fpr: str | None = None) -> str | None:
        issuer = keyring.index.issuer(certificate.fpr, signature.number)
        return issuer if fpr in (None, issuer) else None
    for user_id, signatures in ((b"", certificate.direct), *certificate.user_ids.items()):
        for one in signatures:
            said = one.said
            if not said.sound:
                continue
            end = certificate.created + said.key_lasts if said.key_lasts else 0
            if since < end <= until and (said.kind == DIRECT or said.kind in CERTIFICATIONS) and is_by(
                    one, certificate.fpr):
                yield end, Ending(certificate.fpr)
            if said.ends is not None and since < said.ends <= until and said.kind in CERTIFICATIONS:
                issuer = is_by(one)
                if issuer is not None:
                    yield said.ends, Ending(certificate.fpr, issuer, user_id)
