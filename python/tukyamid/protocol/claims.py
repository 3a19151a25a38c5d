"""Claims of absence: paths, and a table of labels after them (docs/PROTOCOL.md), as values and as text.

>>> read_table("-"), read_paths("-")
((), ())
>>> alice, bob = "aa" * 20, "bb" * 20
>>> write_paths((Claim(60, (ClaimedStep(alice, 0), ClaimedStep(bob, 1))),)) == f"60/{alice}.0/{bob}.1"
True
>>> read_table(f"{alice}=2,{bob}=1") == (Label(alice, 2), Label(bob, 1))
True
"""

from __future__ import annotations

from ..fast_imports import TYPE_CHECKING
from ..records import Value
from . import spelling

if TYPE_CHECKING:
    from collections.abc import Iterable

MOST_PLACE = 2**32 - 1
MOST_STEPS = 255


class ClaimedStep(Value):
    """Who certifies, and the place of the user ID among the target's, in the order of their octets. The target is the
    issuer of the next step; the last step's target is that of the claim."""
    __slots__ = ("issuer", "place")

    def __init__(self, issuer: str, place: int) -> None:
        self.issuer, self.place = issuer, place


class Claim(Value):
    """A path as it is claimed: its amount, and its steps from the root on."""
    __slots__ = ("amount", "steps")

    def __init__(self, amount: int, steps: tuple[ClaimedStep, ...]) -> None:
        self.amount, self.steps = amount, steps


class Label(Value):
    """The least number of edges from this key to the target, of those with some amount left."""
    __slots__ = ("fpr", "label")

    def __init__(self, fpr: str, label: int) -> None:
        self.fpr, self.label = fpr, label


def paths(value: Iterable[Claim]) -> tuple[Claim, ...]:
    """Claims whose fields have a spelling; a ValueError if one has none."""
    return tuple(_claim(claim) for claim in value)


def table(value: Iterable[Label]) -> tuple[Label, ...]:
    """Labels in strictly rising order of their fingerprints; a ValueError if they aren't."""
    labels = tuple(_label(label) for label in value)
    if any(one.fpr >= other.fpr for one, other in zip(labels, labels[1:])):
        raise ValueError("the labels aren't in the order of their fingerprints")
    return labels


def _claim(claim: Claim) -> Claim:
    if not 1 <= len(claim.steps) <= MOST_STEPS:
        raise ValueError(f"a path of {len(claim.steps)} steps")
    return Claim(spelling.decimal(claim.amount, 1, 255, "amount"), tuple(_step(step) for step in claim.steps))


def _step(step: ClaimedStep) -> ClaimedStep:
    return ClaimedStep(spelling.fingerprint(step.issuer), spelling.decimal(step.place, 0, MOST_PLACE, "place"))


def _label(label: Label) -> Label:
    return Label(spelling.fingerprint(label.fpr), spelling.decimal(label.label, 1, 255, "label"))


def write_paths(claims: Iterable[Claim]) -> str:
    """Claimed paths as a line has them."""
    return ",".join("/".join([str(claim.amount), *(f"{step.issuer}.{step.place}" for step in claim.steps)])
                    for claim in claims) or "-"


def write_table(labels: Iterable[Label]) -> str:
    """A table as a line has it."""
    return ",".join(f"{label.fpr}={label.label}" for label in labels) or "-"


def read_paths(text: str) -> tuple[Claim, ...]:
    """The claimed paths of a line; ValueError if they are malformed."""
    return () if text == "-" else paths(_read_claim(part) for part in text.split(","))


def read_table(text: str) -> tuple[Label, ...]:
    """The table of a line; ValueError if it is malformed."""
    return () if text == "-" else table(_read_label(part) for part in text.split(","))


def _read_claim(text: str) -> Claim:
    amount, *steps = text.split("/")
    return Claim(int(amount), tuple(_read_step(step) for step in steps))


def _read_step(text: str) -> ClaimedStep:
    issuer, _, place = text.partition(".")
    return ClaimedStep(issuer, int(place))


def _read_label(text: str) -> Label:
    fpr, _, label = text.partition("=")
    return Label(fpr, int(label))
