"""Makes the file of an answer, with the certificates that it rests on inside."""

from collections.abc import Iterable, Iterator
from typing import Any

from ..keyrings.excerpt import Part, engine_over
from ..keyrings.keyring import Keyring
from ..protocol.replies import Answer, Missed
from .proof_file import ABSENCE, ANSWER, Path, Proof, Step, as_object

VIEW = "proof"


def make(keyring: Keyring, fpr: str, user_id: bytes, wanted: int, time: int, roots: dict[str, int]) -> dict[str, Any]:
    """The file as an object: of the answer if it reaches the wanted amount, else of the absence of further paths."""
    if keyring.certificate(fpr) is None:
        raise ValueError("the key isn't in the keyring, so there is nothing to prove")
    answer = keyring.view(time, roots, VIEW).ask(fpr, wanted, user_id)
    if answer.amount >= wanted:
        paths = tuple(Path(path.amount, tuple(Step(step.issuer, step.user_id) for step in path.steps))
                      for path in answer.paths)
        proof = Proof(ANSWER, fpr, user_id, wanted, time, _used(roots, paths), answer.amount, paths, {},
                      _exported(keyring, _on_paths(fpr, answer)))
        return as_object(proof)
    part = Part(keyring, fpr, user_id, roots)
    with engine_over(keyring, part) as copy:
        copy.view(time, roots, VIEW)
        missed = copy.engine.absence(VIEW, fpr, wanted, user_id)
        if not isinstance(missed, Missed):
            raise ValueError("the keyring has changed meanwhile; ask again")
        paths = tuple(Path(claim.amount, tuple(_steps(copy, claim.steps, fpr))) for claim in missed.paths)
    labels = {label.fpr: label.label for label in missed.table}
    return as_object(Proof(ABSENCE, fpr, user_id, wanted, time, roots, missed.amount, paths, labels,
                           _exported(keyring, part.fprs)))


def _used(roots: dict[str, int], paths: Iterable[Path]) -> dict[str, int]:
    """The roots at which a path begins."""
    begins = {path.steps[0].issuer for path in paths}
    return {fpr: amount for fpr, amount in roots.items() if fpr in begins}


def _on_paths(fpr: str, answer: Answer) -> set[str]:
    return {fpr, *(step.issuer for path in answer.paths for step in path.steps)}


def _steps(keyring: Keyring, steps: Iterable[Any], target: str) -> Iterator[Step]:
    """The steps of a claim, with the user IDs at their places."""
    listed = list(steps)
    for step, into in zip(listed, [*(one.issuer for one in listed[1:]), target]):
        certificate = keyring.certificate(into)
        assert certificate is not None
        yield Step(step.issuer, sorted(certificate.user_ids)[step.place])


def _exported(keyring: Keyring, fprs: Iterable[str]) -> tuple[bytes, ...]:
    return tuple(keyring.engine.export(fpr) for fpr in sorted(fprs) if keyring.certificate(fpr) is not None)
