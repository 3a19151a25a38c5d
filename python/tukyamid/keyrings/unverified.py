"""What can be said about a keyring while some of its signatures wait to be verified: an amount that is reached stays
reached if nothing waits on the certificates of its paths. Nothing can be said about an amount that isn't reached."""

from __future__ import annotations

from ..fast_imports import TYPE_CHECKING

if TYPE_CHECKING:
    from collections.abc import Iterable, Iterator, Sequence

    from ..openpgp.signatures import Signature
    from .assessment import Assessment
    from .keyring import Keyring


def is_certain(keyring: Keyring, found: Sequence[Assessment]) -> bool:
    """Whether these answers stay what they are when what waits is verified. A keyring that isn't verified may have
    further ones, so no answers at all aren't certain."""
    return bool(found) and all(one.reached and not one.brief for one in found) and is_looked_at(
        keyring, {fpr for one in found for fpr in _on_paths(one)})


def _on_paths(answer: Assessment) -> Iterator[str]:
    yield answer.fpr
    for path in answer.paths:
        yield path.root
        yield from (step.target for step in path.steps)


def is_looked_at(keyring: Keyring, fprs: Iterable[str]) -> bool:
    """Whether each signature on these certificates that may count has a good verdict, or is by a key that isn't
    there. One that is bad counts as not looked at: a service doesn't say which are."""
    return all(keyring.index.issuer(fpr, one.number) is not None or not _may_wait(keyring, one)
               for fpr in fprs for one in _signatures(keyring, fpr))


def _signatures(keyring: Keyring, fpr: str) -> Iterator[Signature]:
    certificate = keyring.certificate(fpr)
    if certificate is not None:
        yield from certificate.direct
        for signatures in certificate.user_ids.values():
            yield from signatures


def _may_wait(keyring: Keyring, signature: Signature) -> bool:
    """Whether a verifier could say something about it: the key that it names is there, or it names none."""
    said = signature.said
    if not said.sound:
        return False  # It never counts.
    if said.issuer is not None:
        return keyring.certificate(said.issuer) is not None
    return said.key_id is None or bool(keyring.index.by_key_id(said.key_id))
