"""The moments at which something begins, ends or is revoked that an answer may rest on."""

from collections.abc import Collection, Iterable, Iterator
from typing import Any, NamedTuple

from ..keyrings.excerpt import Certified, Part
from ..keyrings.keyring import Keyring
from ..openpgp.certificates import CERTIFICATIONS, Certificate, Signature
from ..openpgp.signatures import DIRECT, REVOCATION
from ..protocol.spelling import for_people
from .names import Names
from .page_requests import Subject

KEY_REVOCATION = 0x20
MOST_MOMENTS = 2000
MOST_NAMED = 60


class Moment(NamedTuple):
    """`sort` is begins, ends or revoked, and `what` says what, as a sentence."""
    time: int
    sort: str
    what: str


def moments(keyring: Keyring, subject: Subject) -> dict[str, Any]:
    """The moments of a question, the earliest first."""
    part = Part(keyring, subject.fpr, subject.user_id, subject.standpoint.roots)
    found = sorted(set(_all(keyring, part, subject)))
    shown = [{"time": one.time, "sort": one.sort, "what": one.what} for one in found[:MOST_MOMENTS]]
    return {"moments": shown, "count": len(found), "keys": len(part.fprs)}


def life(keyring: Keyring, fpr: str) -> dict[str, Any]:
    """The moments of a key: what begins, ends and is revoked in its certificate, the earliest first. Who certified it
    is called by name unless there are many."""
    certificate = keyring.certificate(fpr)
    if certificate is None:
        return {"moments": [], "count": 0}
    reader = _Reader(keyring, certificate, frozenset(), Names(keyring))
    found = sorted({*reader.lifetime(), *reader.every_certification()})
    shown = [{"time": one.time, "sort": one.sort, "what": one.what} for one in found[:MOST_MOMENTS]]
    return {"moments": shown, "count": len(found)}


def _all(keyring: Keyring, part: Part, subject: Subject) -> Iterator[Moment]:
    names = Names(keyring)
    for fpr in part.fprs:
        certificate = keyring.certificate(fpr)
        if certificate is not None:
            reader = _Reader(keyring, certificate, part.fprs, names)
            yield from reader.lifetime()
            yield from reader.certifications(part.certified(fpr))


class _Reader:
    """What begins and ends in one certificate. `fprs` are the keys whose revocations of certifications matter."""

    def __init__(self, keyring: Keyring, certificate: Certificate, fprs: Collection[str], names: Names) -> None:
        self._keyring, self._certificate, self._fprs, self._names = keyring, certificate, fprs, names
        self._name = names.of(certificate.fpr)
        self._are_named = True

    def _issuer(self, signature: Signature) -> str | None:
        return self._keyring.index.issuer(self._certificate.fpr, signature.number)

    def lifetime(self) -> Iterator[Moment]:
        """The moments of the key itself: created, expired, revoked."""
        certificate = self._certificate
        yield Moment(certificate.created, "begins", f"The key of {self._name} is created")
        own = [certificate.direct, *certificate.user_ids.values()]
        for signature in (one for signatures in own for one in certificate.signatures_by_itself(signatures)):
            said = signature.said
            if not said.sound or self._issuer(signature) != certificate.fpr:
                continue
            if said.kind == KEY_REVOCATION:
                yield Moment(said.made, "revoked", f"The key of {self._name} is revoked")
            elif said.key_lasts and (said.kind == DIRECT or said.kind in CERTIFICATIONS):
                yield Moment(certificate.created + said.key_lasts, "ends", f"The key of {self._name} expires, by a "
                             "signature of its own")

    def every_certification(self) -> Iterator[Moment]:
        """Of all certifications that were verified."""
        found = [Certified(issuer, user_id, one) for user_id, signatures in self._certificate.user_ids.items()
                 for one in signatures if one.said.kind in (*CERTIFICATIONS, REVOCATION)
                 and (issuer := self._issuer(one)) is not None]
        self._fprs = {one.issuer for one in found}
        self._are_named = len(self._fprs) <= MOST_NAMED
        yield from self.certifications([one for one in found if one.signature.said.kind in CERTIFICATIONS])

    def certifications(self, certified: Iterable[Certified]) -> Iterator[Moment]:
        """Of these certifications, and of their revocations."""
        for one in certified:
            said = one.signature.said
            if said.sound:
                what = self._said(one.issuer, one.user_id)
                yield Moment(said.made, "begins", f"{what} begins")
                if said.ends is not None:
                    yield Moment(said.ends, "ends", f"{what} ends")
        for user_id, signatures in self._certificate.user_ids.items():
            for signature in signatures:
                issuer = self._issuer(signature) if signature.said.kind == REVOCATION else None
                if issuer in self._fprs and issuer is not None and signature.said.sound:
                    yield Moment(signature.said.made, "revoked", f"{self._said(issuer, user_id)} is revoked")

    def _said(self, issuer: str, user_id: bytes) -> str:
        if issuer == self._certificate.fpr:
            return f"The self-signature of {for_people(user_id)}"
        by = self._names.of(issuer) if self._are_named else f"the key {issuer}"
        return f"The certification of {for_people(user_id)} by {by}"
