"""Checks the file of an answer: nothing in it is believed. The signatures are verified here, an engine of this machine
takes the certificates, and checks the paths and answers the question."""

import functools
import tempfile
from collections.abc import Iterator, Sequence
from pathlib import Path as FilePath
from typing import NamedTuple

from ..client.engine import Engine
from ..keyrings.verifier import Verifier
from ..openpgp.certificates import read_certificate
from ..protocol.claims import Claim, ClaimedStep, Label
from ..protocol.refusals import RefusedAbsent
from ..protocol.replies import Accepted, Rejected
from .proof_file import ABSENCE, Proof

VIEW = "check"


class Checked(NamedTuple):
    """What was found. `why_not` is empty if the claim holds."""
    keys: int
    signatures: int
    verifier: str
    amount: int
    why_not: str


class NoPlace(Exception):
    """A path names a user ID that the certificates don't have."""


def check(proof: Proof, engine: Sequence[str] | None = None, verifier: Sequence[str] | None = None) -> Checked:
    """Checks a proof with these programs. A TukyamidError if that can't be done."""
    verifying = Verifier(verifier)
    with Engine(engine) as started, tempfile.TemporaryDirectory(prefix="tukyamid-check-") as folder:
        good = 0
        files = list(_written(proof, FilePath(folder)))
        for line in verifying.lines(files) if files else ():
            good += line.startswith(b"verdict ") and b" good " in line
            started.send_line(line.rstrip(b"\n"))
        keys = started.keys().count
        started.open_view(VIEW, proof.time)
        for fpr, amount in proof.roots.items():
            started.set_root(VIEW, fpr, amount)
        answer = started.ask(VIEW, proof.fpr, proof.wanted, proof.user_id)
        why_not = _why_not(proof, started, answer.amount)
    return Checked(keys, good, verifying.version, answer.amount, why_not)


def _written(proof: Proof, folder: FilePath) -> Iterator[str]:
    """The certificates as files, since that is what the verifier reads."""
    for number, octets in enumerate(proof.certificates):
        path = folder / f"{number:08}.pgp"
        path.write_bytes(octets)
        yield str(path)


def _why_not(proof: Proof, engine: Engine, amount: int) -> str:
    """Why a claim doesn't hold; empty if it does."""
    is_absence = proof.claim == ABSENCE
    if is_absence and proof.amount >= proof.wanted or not is_absence and proof.amount < proof.wanted:
        return f"it claims amount {proof.amount} of {proof.wanted}, which is no {proof.claim}"
    if amount != proof.amount:
        return f"it claims amount {proof.amount}, and the engine answers {amount}"
    try:
        claims = list(_claims(proof, engine))
    except NoPlace as missing:
        return str(missing)
    table = [Label(fpr, label) for fpr, label in sorted(proof.labels.items())] if is_absence else []
    reply = engine.check(VIEW, proof.fpr, claims, table, proof.user_id)
    return _refused(proof, reply)


def _refused(proof: Proof, reply: Accepted | Rejected) -> str:
    """What the engine's check of paths and labels says against the claim. Labels count for an absence alone."""
    if isinstance(reply, Rejected) and reply.word == "paths":
        return "one of its paths isn't valid, or has another amount"
    if isinstance(reply, Rejected) and proof.claim == ABSENCE:
        return "its labels don't show that no further path is left"
    claimed = sum(path.amount for path in proof.paths)
    return "" if claimed == proof.amount else f"its paths add up to {claimed}, and it claims {proof.amount}"


def _claims(proof: Proof, engine: Engine) -> Iterator[Claim]:
    """The paths as the engine's command has them: each user ID by its place among those of its key."""
    places = functools.cache(lambda fpr: _places(engine, fpr))
    for path in proof.paths:
        targets = [*(step.issuer for step in path.steps[1:]), proof.fpr]
        steps = []
        for step, into in zip(path.steps, targets):
            place = places(into).get(step.user_id)
            if place is None:
                raise NoPlace(f"a path names a user ID that the key {into} doesn't have")
            steps.append(ClaimedStep(step.issuer, place))
        yield Claim(path.amount, tuple(steps))


def _places(engine: Engine, fpr: str) -> dict[bytes, int]:
    """The place of each user ID of a key; empty if the key isn't there."""
    try:
        certificate = read_certificate(engine.export(fpr))
    except RefusedAbsent:
        return {}
    return {user_id: place for place, user_id in enumerate(sorted(certificate.user_ids))}
