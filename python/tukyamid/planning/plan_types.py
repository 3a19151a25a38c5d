"""What a plan for one binding is made of."""

from __future__ import annotations

from typing import TYPE_CHECKING

from ..records import Value

if TYPE_CHECKING:
    from collections.abc import Sequence

    from ..protocol.replies import Explanation
    from .suppositions import Certifies

    Certifications = tuple[Certifies, ...]


class Target(Value):
    """The binding that a plan is for, the amount that is wanted, and who may certify."""
    __slots__ = ("fpr", "user_id", "wanted", "by")

    def __init__(self, fpr: str, user_id: bytes, wanted: int, by: tuple[str, ...]) -> None:
        self.fpr, self.user_id, self.wanted, self.by = fpr, user_id, wanted, by


class Proposal(Value):
    """Certifications, the amount to which they raise the binding by the engine's answer, what each gives alone, and
    which of them would take the place of an older one."""
    __slots__ = ("certifications", "amount", "alone", "older")

    def __init__(self, certifications: Certifications, amount: int, alone: tuple[int, ...],
                 older: tuple[bool, ...]) -> None:
        self.certifications, self.amount, self.alone, self.older = certifications, amount, alone, older

    @property
    def cost(self) -> tuple[object, ...]:
        """Fewer are cheaper, then those with less depth together, then with smaller amounts."""
        return cost(self.certifications)


def cost(ones: Sequence[Certifies]) -> tuple[object, ...]:
    return (len(ones), sum(one.depth for one in ones), sum(one.amount for one in ones),
            [(one.issuer, one.target, one.user_id) for one in ones])


class Absence(Value):
    """The amount that all possible certifications by these people give together, by the engine's proof of absence, and
    whether the engine's check accepts that proof."""
    __slots__ = ("certifications", "amount", "is_checked")

    def __init__(self, certifications: int, amount: int, is_checked: bool) -> None:
        self.certifications, self.amount, self.is_checked = certifications, amount, is_checked


class Plan(Value):
    """What a search came to. It is `complete` if every certification that could be enough alone was tried. `useless`
    are those of the people whose certifications can't count from these roots."""
    __slots__ = ("target", "amount", "explanation", "proposals", "complete", "tried", "useless", "absence")

    def __init__(self, target: Target, amount: int, explanation: Explanation | None,
                 proposals: tuple[Proposal, ...] = (), complete: bool = True, tried: int = 0,
                 useless: tuple[str, ...] = (), absence: Absence | None = None) -> None:
        self.target, self.amount, self.explanation, self.proposals = target, amount, explanation, proposals
        self.complete, self.tried, self.useless, self.absence = complete, tried, useless, absence

    @property
    def reached(self) -> bool:
        return self.amount >= self.target.wanted
