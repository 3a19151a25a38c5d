"""Whether enough signers of data are those who are wanted, by the engine's answers."""

from collections.abc import Iterable, Iterator, Sequence
from dataclasses import dataclass
from enum import StrEnum

from ..keyrings.keyring import Keyring, View
from ..protocol.reasons import TargetWord
from .data_signatures import DataSignature, Found, Outside, Word
from .expected_signer import Whom


class When(StrEnum):
    """The moments at which the signer has to be one of those who are wanted."""
    BOTH = "both"
    SIGNING = "signing"
    NOW = "now"

    @property
    def is_asked_of_signing(self) -> bool:
        return self is not When.NOW

    @property
    def is_asked_of_now(self) -> bool:
        return self is not When.SIGNING


@dataclass(frozen=True)
class Wanted:
    """What is asked: of whom, how far, by how many signers, and when."""
    whom: tuple[Whom, ...]
    amount: int = 120
    threshold: int = 1
    when: When = When.BOTH


@dataclass(frozen=True)
class Known:
    """How far a signer is one of those who are wanted at a time: the greatest amount of a user ID that names one of
    them, and that user ID; None if the certificate has no such user ID. `fprs` are the keys on its paths, and `why`
    says why there is none."""
    time: int
    amount: int
    user_id: bytes | None
    fprs: frozenset[str] = frozenset()
    why: str = ""


@dataclass(frozen=True)
class CheckedSignature:
    """A signature, and how far its signer is known at the moments that are asked of. Both are None unless the
    signature is good."""
    signature: DataSignature
    at_signing: Known | None
    now: Known | None

    def counts(self, wanted: Wanted) -> bool:
        asked = [self.at_signing] * wanted.when.is_asked_of_signing + [self.now] * wanted.when.is_asked_of_now
        return self.signature.word is Word.GOOD and all(
            known is not None and known.amount >= wanted.amount for known in asked)


@dataclass(frozen=True)
class Outcome:
    """`outside` says where there is unsigned text around what is signed."""
    wanted: Wanted
    checked: tuple[CheckedSignature, ...]
    outside: tuple[Outside, ...] = ()

    @property
    def signers(self) -> tuple[str, ...]:
        """The fingerprints of those whose signatures count, each once. Two keys of one certificate are one signer."""
        counting = [one.signature.certificate for one in self.checked if one.counts(self.wanted)]
        return tuple(dict.fromkeys(fpr for fpr in counting if fpr is not None))

    @property
    def is_verified(self) -> bool:
        return len(self.signers) >= self.wanted.threshold

    @property
    def fprs(self) -> set[str]:
        """The keys that those whose signatures count are known by."""
        return {fpr for one in self.checked if one.counts(self.wanted) for known in (one.at_signing, one.now)
                if known is not None for fpr in known.fprs}


def check_signers(keyring: Keyring, roots: dict[str, int], found: Found, wanted: Wanted, now: int) -> Outcome:
    """Asks the engine for each signer of a good signature."""
    return Outcome(wanted, tuple(_checked(keyring, roots, found.signatures, wanted, now)), found.outside)


def _checked(keyring: Keyring, roots: dict[str, int], signatures: Iterable[DataSignature], wanted: Wanted,
             now: int) -> Iterator[CheckedSignature]:
    for signature in signatures:
        fpr, made = signature.certificate, signature.made
        if signature.word is not Word.GOOD or fpr is None or made is None:
            yield CheckedSignature(signature, None, None)
            continue
        named = _names_of(keyring, fpr, wanted.whom)
        at_signing = _known(keyring, roots, fpr, named, wanted, made) if wanted.when.is_asked_of_signing else None
        at_now = _known(keyring, roots, fpr, named, wanted, now) if wanted.when.is_asked_of_now else None
        yield CheckedSignature(signature, at_signing, at_now)


def _names_of(keyring: Keyring, fpr: str, whom: Sequence[Whom]) -> list[bytes]:
    """The user IDs of a certificate that name one of those who are wanted."""
    certificate = keyring.certificate(fpr)
    user_ids = certificate.user_ids if certificate is not None else ()
    return [user_id for user_id in user_ids if any(one.is_named_by(user_id) for one in whom)]


def _known(keyring: Keyring, roots: dict[str, int], fpr: str, user_ids: Sequence[bytes], wanted: Wanted,
           time: int) -> Known:
    view = keyring.view(time, roots)
    answers = [(view.ask(fpr, wanted.amount, user_id), user_id) for user_id in user_ids]
    if not answers:
        return Known(time, 0, None)
    answer, user_id = max(answers, key=lambda one: one[0].amount)
    steps = [step for path in answer.paths for step in path.steps]
    return Known(time, answer.amount, user_id,
                 frozenset([fpr, *(path.root for path in answer.paths), *(step.target for step in steps)]),
                 "" if answer.amount else _why_none(view, fpr, user_id))


def _why_none(view: View, fpr: str, user_id: bytes) -> str:
    explanation = view.explain(fpr, user_id)
    if explanation is not None and explanation.word is not TargetWord.OK:
        return explanation.word.meaning
    return "no path leads there from a root"
