"""A chain of certificates to a user ID of the last one: what each step's certifications come to, and which step breaks
the path and why. The chain is asked about in an engine that has it alone: the only way through goes along it."""

from __future__ import annotations

from ..fast_imports import TYPE_CHECKING
from ..openpgp.signatures import CERTIFICATIONS
from ..protocol.reasons import ReasonWord
from ..protocol.spelling import for_people
from ..records import Value

if TYPE_CHECKING:
    from collections.abc import Iterator, Sequence

    from ..openpgp.certificates import Signature
    from ..protocol.replies import Reason
    from .keyring import Keyring, View


class Link(Value):
    """A certification by a step's issuer on a user ID of its target, and what it comes to."""
    __slots__ = ("user_id", "signature", "reason")

    def __init__(self, user_id: bytes, signature: Signature, reason: Reason) -> None:
        self.user_id, self.signature, self.reason = user_id, signature, reason

    def said(self) -> str:
        return f"{for_people(self.user_id)}: {self._counts()}"

    def _counts(self) -> str:
        if self.reason.word is not ReasonWord.EDGE:
            return f"{self.reason.word}: {self.reason.word.meaning}"
        scope = "".join(f", for {pattern}" for pattern in self.patterns())
        return f"counts with amount {self.reason.amount}, depth {self.reason.depth}{scope}"

    def patterns(self) -> list[str]:
        return [for_people(pattern, "\\") for pattern in self.signature.said.patterns]


class Broken(Value):
    """Why a step breaks a path: a word for programs, and a text for people."""
    __slots__ = ("word", "text")

    def __init__(self, word: str, text: str) -> None:
        self.word, self.text = word, text


class ChainStep(Value):
    """A step: its certifications, and why it breaks the path, or None."""
    __slots__ = ("issuer", "target", "links", "broken")

    def __init__(self, issuer: str, target: str, links: Sequence[Link], broken: Broken | None) -> None:
        self.issuer, self.target, self.links, self.broken = issuer, target, tuple(links), broken


class Chain:
    """The steps along certificates to a user ID of the last one."""

    def __init__(self, view: View, along: Keyring, fprs: list[str], user_id: bytes) -> None:
        self._view, self._along, self._fprs, self._user_id = view, along, fprs, user_id

    def steps(self) -> Iterator[ChainStep]:
        """Each step: what its certifications come to, and why it breaks the path if it does."""
        steps = list(zip(self._fprs, self._fprs[1:]))
        amounts = [self._amount_from(issuer) for issuer, _ in steps] + [1]
        for place, (issuer, target) in enumerate(steps, 1):
            links, behind = self._links(issuer, target), len(steps) - place
            yield ChainStep(issuer, target, links, self._broken(links, behind, target, amounts[place - 1:place + 1]))

    def _amount_from(self, fpr: str) -> int:
        """What the rest of the path from this certificate is worth."""
        return self._along.view(self._view.time, {fpr: 120}, "rest").ask(self._fprs[-1], 1, self._user_id).amount

    def _links(self, issuer: str, target: str) -> list[Link]:
        certificate = self._view.keyring.certificate(target)
        if certificate is None:
            return []
        links = []
        for user_id, signatures in certificate.user_ids.items():
            theirs = {one.number: one for one in signatures if one.said.kind in CERTIFICATIONS
                      and self._view.keyring.index.issuer(target, one.number) == issuer}
            explanation = self._view.explain(target, user_id) if theirs else None
            for reason in explanation.reasons if explanation is not None else ():
                if reason.number in theirs:
                    links.append(Link(user_id, theirs[reason.number], reason))
        return links

    def _broken(self, links: list[Link], behind: int, target: str, amounts: list[int]) -> Broken | None:
        """Why no path takes this step; None if one may. `behind` are the steps behind it, `amounts` what the path is
        worth from this step on, and from the next."""
        if self._view.keyring.certificate(target) is None:
            return Broken("absent", "the certified key isn't in the keyring")
        here = links if behind else [link for link in links if link.user_id == self._user_id]
        edges = [link for link in here if link.reason.word is ReasonWord.EDGE]
        if not edges:
            return self._no_edge(links, here)
        if all((link.reason.depth or 0) < behind for link in edges):
            deepest = max(link.reason.depth or 0 for link in edges)
            return Broken("depth", f"its depth is {deepest}, and it would need {behind}, since as many certifications "
                          "follow")
        if not any(link.reason.amount for link in edges):
            return Broken("amount", "its amount is 0")
        patterns = [pattern for link in edges for pattern in link.patterns()]
        if amounts[0] == 0 and amounts[1] > 0 and behind and patterns:
            return Broken("scope",
                          f"its scope, {' or '.join(patterns)}, doesn't include {for_people(self._user_id)}")
        return None

    def _no_edge(self, links: list[Link], here: list[Link]) -> Broken:
        if here:
            return Broken("uncounted", "none of its certifications counts")
        return Broken("other", f"none of its certifications is on {for_people(self._user_id)}") if links else Broken(
            "none", "no certification")
