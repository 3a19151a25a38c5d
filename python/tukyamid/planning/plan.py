"""Plans: which new certifications raise a binding to an amount.

The engine says from which keys the binding can be reached (its labels), so only certifications of these can matter, or
of another key that may certify. Each is tried by asking the engine with it supposed. What an answer doesn't use can't
change it, so of the depths of a certification those alone are tried at which the answer changes.
"""

from __future__ import annotations

from typing import TYPE_CHECKING

from ..protocol.reasons import TargetWord
from ..protocol.replies import Accepted, Missed
from .domain_scopes import scope_of
from .plan_types import Absence, Plan, Proposal, cost
from .suppositions import FULL, MOST_DEPTH, Certifies
from .trials import NO_ROOTS, VIEW

if TYPE_CHECKING:
    from collections.abc import Callable, Iterator, Sequence

    from ..keyrings.keyring import Keyring
    from ..protocol.replies import Answer, Explanation, Step
    from .plan_types import Certifications, Target
    from .trials import Trials

PARTIAL = 60
AMOUNTS = PARTIAL, FULL  # Those that gpg offers for a trust signature.
MOST_TRIED = 50_000
BEAM = 8


class Search:
    """Looks for plans. `name` gives the user ID by which a key is known."""

    def __init__(self, keyring: Keyring, trials: Trials, target: Target, name: Callable[[str], bytes | None]) -> None:
        self._keyring, self._trials, self._target, self._name = keyring, trials, target, name
        self._user_ids: dict[tuple[str, str], list[bytes]] = {}
        self._is_bounded = False

    def plan(self, most: int) -> Plan:
        """The cheapest plans of the fewest certifications, of `most` at most."""
        target = self._target
        explanation = self._explain()
        now = self._ask(()).amount
        if now >= target.wanted or explanation is None or explanation.word is not TargetWord.OK:
            return Plan(target, now, explanation, tried=self._trials.tried)
        found, useless = self._found(most)
        absence = None if found else self._absence()
        return Plan(target, now, explanation, found, not self._is_bounded, self._trials.tried, useless, absence)

    def _explain(self) -> Explanation | None:
        from ..keyrings.keyring import View
        return View(self._keyring, VIEW, self._trials.time, {}).explain(self._target.fpr, self._target.user_id)

    def _labels(self, base: Certifications) -> dict[str, int]:
        """The keys from which the binding can be reached if this is supposed, and by how many certifications at
        least: the table of the engine's proof that nothing is reached from no roots."""
        engine, target = self._trials.engine, self._target
        self._trials.suppose(base)
        engine.need("to", {one.issuer for one in base})
        missed = engine.absence(NO_ROOTS, target.fpr, 1, target.user_id)
        assert isinstance(missed, Missed)
        return {one.fpr: one.label for one in missed.table}

    def _ask(self, ones: Sequence[Certifies]) -> Answer:
        return self._trials.answer(self._target.fpr, self._target.wanted, self._target.user_id, ones)

    def _found(self, most: int) -> tuple[tuple[Proposal, ...], tuple[str, ...]]:
        """Proposals of as few certifications as are enough, and whose certifications can't count."""
        bases: list[Certifications] = [()]
        useless: tuple[str, ...] = ()
        for _ in range(most):
            tried = [(ones, answer) for base in bases for ones, answer in self._one_more(base)]
            if bases == [()]:
                useless = self._useless(tried)
            enough = [ones for ones, answer in tried if answer.amount >= self._target.wanted]
            if enough:
                return self._proposals(enough), useless
            bases = self._best(tried)
        return (), useless

    def _useless(self, tried: list[tuple[Certifications, Answer]]) -> tuple[str, ...]:
        used = {one.issuer for ones, answer in tried for one in ones if _is_used(answer, one)}
        return tuple(fpr for fpr in self._target.by if fpr not in used)

    def _best(self, tried: list[tuple[Certifications, Answer]]) -> list[Certifications]:
        """With what to go on: the greatest amounts, others who may certify made introducers, and certifications of the
        binding itself, to which others may lead."""
        ranked = sorted(tried, key=lambda pair: (-pair[1].amount, cost(pair[0])))
        best: dict[tuple[object, ...], Certifications] = {}
        for ones, _ in ranked:
            best.setdefault(tuple((one.issuer, one.target) for one in ones), ones)
        introduce = [ones for ones in best.values() if ones[-1].depth and ones[-1].target in self._target.by]
        direct = [ones for ones in best.values() if ones[-1].target == self._target.fpr]
        return list(dict.fromkeys([*list(best.values())[:BEAM], *introduce[:BEAM], *direct[:BEAM]]))

    def _one_more(self, base: Certifications) -> Iterator[tuple[Certifications, Answer]]:
        """All of the base with one more certification, and the engine's answers."""
        labels = self._labels(base)
        self._trials.engine.need("key", [*self._target.by, *labels])
        for issuer in self._target.by:
            direct = Certifies(issuer, self._target.fpr, self._target.user_id)
            if _combine(base, direct):
                answer = self._ask((*base, direct))
                yield (*base, direct), answer
                if not _is_used(answer, direct):
                    continue  # Every other path through the issuer is longer, so none is taken either.
            for target in self._introduced(issuer, labels):
                for user_id in self._on(issuer, target):
                    for amount in AMOUNTS:
                        yield from self._depths(base, Certifies(issuer, target, user_id, MOST_DEPTH, amount))

    def _introduced(self, issuer: str, labels: dict[str, int]) -> list[str]:
        """Whom to make an introducer: those from whom the binding can be reached, and others who may certify."""
        others = dict.fromkeys([*sorted(labels, key=lambda fpr: (labels[fpr], fpr)), *self._target.by])
        return [fpr for fpr in others if fpr != issuer]

    def _depths(self, base: Certifications, deepest: Certifies) -> Iterator[tuple[Certifications, Answer]]:
        """A certification at each depth at which the answer is another one, the greatest first."""
        depth = MOST_DEPTH
        while depth >= 1 and _combine(base, deepest) and self._may_go_on():
            answer = self._ask((*base, deepest.but(depth=depth)))
            yield (*base, deepest.but(depth=depth)), answer
            depth = _behind(answer, deepest) - 1  # At all depths between, the answer is this one.

    def _may_go_on(self) -> bool:
        self._is_bounded |= self._trials.tried >= MOST_TRIED
        return not self._is_bounded

    def _on(self, issuer: str, target: str) -> list[bytes]:
        """On which user IDs of a key a certification is tried: one that the issuer hasn't certified, and each that a
        new certification would take from an older one. It doesn't matter which user ID of an introducer is certified
        else."""
        if (issuer, target) not in self._user_ids:
            self._user_ids[issuer, target] = list(self._found_on(issuer, target))
        return self._user_ids[issuer, target]

    def _found_on(self, issuer: str, target: str) -> Iterator[bytes]:
        certificate = self._keyring.certificate(target)
        user_ids = list(certificate.user_ids) if certificate is not None else []
        known = self._name(target)
        free = None
        for user_id in sorted(user_ids, key=lambda one: (one != known, one)):
            if self._is_target(target, user_id):
                yield user_id  # A smaller amount may leave more to other paths.
            elif self._has_edge(issuer, target, user_id):
                yield user_id
            elif free is None:
                free = user_id
                yield user_id

    def _has_edge(self, issuer: str, target: str, user_id: bytes, depth: int = 0) -> bool:
        """Whether the issuer has signed this user ID, with at least this depth."""
        certificate = self._keyring.certificate(target)
        assert certificate is not None
        return any(one.said.depth >= depth and one.said.issuer in (issuer, None)
                   and self._keyring.index.issuer(target, one.number) == issuer
                   for one in certificate.user_ids[user_id])

    def _proposals(self, enough: list[Certifications]) -> tuple[Proposal, ...]:
        """The cheapest proposal for each choice of who certifies whom, each as the engine answers with it supposed."""
        cheapest: dict[tuple[object, ...], Certifications] = {}
        for ones in sorted(enough, key=cost):
            cheapest.setdefault(tuple(sorted((one.issuer, one.target) for one in ones)), ones)
        made = []
        for ones in cheapest.values():
            answer = self._ask(ones)
            needed = self._scoped(tuple(one.but(depth=max(1, _behind(answer, one))) if one.depth else one
                                        for one in ones))
            alone = tuple(self._ask((one,)).amount for one in needed)
            older = tuple(self._has_edge(one.issuer, one.target, one.user_id) for one in needed)
            made.append(Proposal(needed, self._ask(needed).amount, alone, older))
        return tuple(sorted(made, key=lambda one: one.cost))

    def _scoped(self, ones: Certifications) -> Certifications:
        """With introducers for the domain of the user ID alone, if that is enough. Somebody whom the same signer has
        made an introducer before stays one for all, since the new certification takes the place of the older one."""
        scope = scope_of(self._target.user_id)
        for place, one in enumerate(ones):
            if scope is not None and one.depth and not self._has_edge(one.issuer, one.target, one.user_id, 1):
                scoped = (*ones[:place], one.but(scopes=(scope,)), *ones[place + 1:])
                if self._ask(scoped).amount >= self._target.wanted:
                    ones = scoped
        return ones

    def _absence(self) -> Absence | None:
        """All that these people could certify at once: what the engine proves then."""
        labels = self._labels(())
        every = [one for issuer in self._target.by for one in self._all_by(issuer, labels)]
        self._trials.suppose(every)
        engine, target = self._trials.engine, self._target
        missed = engine.absence(VIEW, target.fpr, target.wanted, target.user_id)
        if not isinstance(missed, Missed):
            return Absence(len(every), missed.amount, False)
        checked = engine.check(VIEW, target.fpr, missed.paths, missed.table, target.user_id)
        self._trials.suppose(())
        return Absence(len(every), missed.amount, isinstance(checked, Accepted) and checked.amount == missed.amount)

    def _all_by(self, issuer: str, labels: dict[str, int]) -> Iterator[Certifies]:
        yield Certifies(issuer, self._target.fpr, self._target.user_id)
        for target in self._introduced(issuer, labels):
            user_ids = [one for one in self._on(issuer, target) if not self._is_target(target, one)]
            yield from (Certifies(issuer, target, user_id, MOST_DEPTH) for user_id in user_ids[:1])

    def _is_target(self, fpr: str, user_id: bytes) -> bool:
        return (fpr, user_id) == (self._target.fpr, self._target.user_id)


def _combine(base: Certifications, one: Certifies) -> bool:
    """Whether one more can be supposed beside these: of two on one user ID by one issuer the newer alone counts."""
    return all((one.issuer, one.target, one.user_id) != (other.issuer, other.target, other.user_id) for other in base)


def _behind(answer: Answer, one: Certifies) -> int:
    """How many certifications follow this one on the answer's paths, at most; 0 if it is on none."""
    return max((len(path.steps) - place for path in answer.paths for place, step in enumerate(path.steps, 1)
                if _is_step(step, one)), default=0)


def _is_used(answer: Answer, one: Certifies) -> bool:
    return any(_is_step(step, one) for path in answer.paths for step in path.steps)


def _is_step(step: Step, one: Certifies) -> bool:
    return (step.issuer, step.target, step.user_id) == (one.issuer, one.target, one.user_id)
