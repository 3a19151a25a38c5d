"""The part of a keyring that is enough for a question, and an engine over it alone.

A path to a binding ends with a certification of that user ID, or with the key's own behind a trust signature on any of
its user IDs. All steps before are trust signatures. So whoever is on a path is found by going back from the target:
along its certifications first, then along trust signatures. Of these only those count that a root leads to. Standing
needs a key's own signatures alone. Hence an engine over these certificates answers as one over the whole keyring does.
"""

from collections.abc import Collection, Iterator
from contextlib import contextmanager
from typing import NamedTuple

from ..client.engine import Engine
from ..openpgp.certificates import CERTIFICATIONS, Certificate, Signature
from ..patience import ended_after
from .keyring import Keyring

PATIENCE = 60.0


class Certified(NamedTuple):
    """A certification by another key, or by the key itself, as it was verified."""
    issuer: str
    user_id: bytes
    signature: Signature


class Part:
    """The certificates that paths from the roots to a binding can go through, and the target."""

    def __init__(self, keyring: Keyring, fpr: str, user_id: bytes, roots: Collection[str]) -> None:
        self._keyring, self._target = keyring, fpr
        self._into: dict[str, list[Certified]] = {}
        self._find(fpr, user_id)
        self.fprs = {fpr, *self._reached(roots)}

    def _find(self, target: str, user_id: bytes) -> None:
        """Goes back from the target, each key once."""
        left = [target]
        while left:
            fpr = left.pop()
            if fpr in self._into:
                continue
            certificate = self._keyring.certificate(fpr)
            self._into[fpr] = [] if certificate is None else [
                one for one in self._certifications(certificate)
                if one.signature.said.depth or (fpr == target and one.user_id == user_id)]
            left += [one.issuer for one in self._into[fpr]]

    def _certifications(self, certificate: Certificate) -> Iterator[Certified]:
        for user_id, signatures in certificate.user_ids.items():
            for signature in signatures:
                if signature.said.kind in CERTIFICATIONS:
                    issuer = self._keyring.index.issuer(certificate.fpr, signature.number)
                    if issuer is not None:
                        yield Certified(issuer, user_id, signature)

    def _reached(self, roots: Collection[str]) -> set[str]:
        """Those that a root leads to, and the roots that lead to the target."""
        after: dict[str, list[str]] = {}
        for fpr, certified in self._into.items():
            for one in certified:
                after.setdefault(one.issuer, []).append(fpr)
        found: set[str] = set()
        left = [fpr for fpr in roots if fpr in self._into]
        while left:
            fpr = left.pop()
            if fpr not in found and self._keyring.certificate(fpr) is not None:
                found.add(fpr)
                left += after.get(fpr, ())
        return found

    def certified(self, fpr: str) -> list[Certified]:
        """The certifications of a key by those of the part that a path can go along."""
        return [one for one in self._into.get(fpr, ()) if one.issuer in self.fprs]

    def verdicts(self, fprs: Collection[str], issuers: Collection[str]) -> Iterator[bytes]:
        """Lines: the verdicts on the signatures of these certificates that are by some of these issuers."""
        for fpr in fprs:
            certificate = self._keyring.certificate(fpr)
            for signature in _signatures(certificate) if certificate is not None else ():
                issuer = self._keyring.index.issuer(fpr, signature.number)
                if issuer in issuers:
                    yield f"verdict {signature.number} good {issuer}".encode("ascii")


def _signatures(certificate: Certificate) -> Iterator[Signature]:
    yield from certificate.direct
    for signatures in certificate.user_ids.values():
        yield from signatures


@contextmanager
def engine_over(keyring: Keyring, part: Part) -> Iterator[Keyring]:
    """A keyring in an engine of its own, which has the part. It is there for one question, and ends after a minute
    whatever happens."""
    with Engine() as engine, ended_after(PATIENCE, engine.end_at_once):
        fprs = sorted(part.fprs)
        for fpr in fprs:
            if keyring.certificate(fpr) is not None:
                engine.import_certificates(keyring.engine.export(fpr))
        engine.feed(part.verdicts(fprs, part.fprs))
        yield Keyring(engine, keyring.index)
