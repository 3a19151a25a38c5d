"""When gpg and Sequoia treat a key as expired, though the engine doesn't.

By the profile a direct key signature governs a key alone, if there is one (docs/PROFILE.md, "What a key's own
signatures say"). gpg and Sequoia also look at the self-signatures on user IDs. So a direct key signature that names a
revoker and no end hides from the engine that a newer self-signature ends the key. People should know of it, so this
module reads the ends as those programs do:

- gpg takes the end that the newest direct key signature sets. If it sets none, the newest self-signature that sets one
  counts, whichever user ID it is on (g10/getkey.c, merge_selfsigs_main).
- Sequoia takes the end that the newest self-signature on the primary user ID sets, else that of the newest direct key
  signature. The primary user ID is the one marked so by its newest self-signature, then the one with the newest.
"""

from __future__ import annotations

from ..fast_imports import TYPE_CHECKING
from ..records import Value
from .certificates import Certificate
from .signatures import CERTIFICATIONS, DIRECT, REVOCATION, Signature

if TYPE_CHECKING:
    from collections.abc import Callable, Container

    Issuer = Callable[[str], str | None]


class Expired(Value):
    """The programs that treat a key as expired, and since when."""
    __slots__ = ("programs", "since")

    def __init__(self, programs: tuple[str, ...], since: int) -> None:
        self.programs, self.since = programs, since

    @property
    def who(self) -> str:
        return " and ".join(self.programs)


def expired_elsewhere(certificate: Certificate, issuer: Issuer, time: int) -> Expired | None:
    """Which of the two programs treat the key as expired at a time; None if neither does. `issuer(number)` says whose
    signature a number is of, as it was verified."""
    if not _sets_a_passed_end(certificate, time):
        return None  # As of most keys. Whose their signatures are needn't be looked up.
    own = _SelfSignatures(certificate, issuer, time)
    ends = {"gpg": own.end_by_gpg(), "Sequoia": own.end_by_sequoia()}
    passed = {program: end for program, end in ends.items() if end is not None and end <= time}
    return Expired(tuple(passed), min(passed.values())) if passed else None


def _sets_a_passed_end(certificate: Certificate, time: int) -> bool:
    """Whether any signature that names the key itself sets an end that has passed."""
    lists = [certificate.direct, *certificate.user_ids.values()]
    return any(one.said.key_lasts and certificate.created + one.said.key_lasts <= time
               for signatures in lists for one in certificate.signatures_by_itself(signatures))


class _SelfSignatures:
    """A key's newest own signature, verified, live and not revoked: on itself, and on each user ID."""

    def __init__(self, certificate: Certificate, issuer: Issuer, time: int) -> None:
        self._certificate, self._issuer, self._time = certificate, issuer, time
        self._direct = self._governing(certificate.direct, (DIRECT,))
        newest = [self._governing(signatures, CERTIFICATIONS) for signatures in certificate.user_ids.values()]
        self._on_user_ids = [one for one in newest if one is not None]

    def _governing(self, signatures: list[Signature], kinds: Container[int | None]) -> Signature | None:
        live = [one for one in self._certificate.signatures_by_itself(signatures) if one.said.is_live(self._time)
                and self._issuer(one.number) == self._certificate.fpr]
        revoked = max((one.said.made for one in live if one.said.kind == REVOCATION), default=-1)
        kept = [one for one in live if one.said.kind in kinds
                and (one.said.made > revoked or not one.said.revocable)]
        return _newest(kept)

    def _end(self, signature: Signature | None) -> int | None:
        lasts = signature.said.key_lasts if signature is not None else 0
        return self._certificate.created + lasts if lasts else None

    def end_by_gpg(self) -> int | None:
        return self._end(self._direct) or self._end(_newest([one for one in self._on_user_ids if one.said.key_lasts]))

    def end_by_sequoia(self) -> int | None:
        marked = [one for one in self._on_user_ids if one.said.primary]
        return self._end(_newest(marked or self._on_user_ids)) or self._end(self._direct)


def _newest(signatures: list[Signature]) -> Signature | None:
    return max(signatures, key=Signature.newness) if signatures else None
