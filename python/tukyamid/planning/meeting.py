"""Plans for a meeting: which certifications among those who come authenticate the most bindings that aren't yet.

A certification of depth 0 matters to the bindings of the certified key alone, so each person is looked at by
themselves. With more depth it makes them an introducer, and all bindings are counted. Either way the search is greedy:
it takes the certification that gains the most, until none gains anything.
"""

from __future__ import annotations

from typing import TYPE_CHECKING

from ..openpgp.certificates import key_fingerprint
from ..openpgp.packets import packets
from ..records import Value
from .suppositions import Certifies
from .trials import VIEW, Trials

if TYPE_CHECKING:
    from collections.abc import Callable, Iterable, Mapping, Sequence

    from .scratch import ScratchEngine, SupposedKeyring

    Binding = tuple[str, bytes]
    Say = Callable[[str], None]
    Score = tuple[int, int]

MOST_COMERS = 200


class Step(Value):
    """Somebody certifies all user IDs of somebody else. `gained` are the bindings that then reach the amount and didn't
    before, after the steps so far."""
    __slots__ = ("issuer", "target", "certifications", "gained")

    def __init__(self, issuer: str, target: str, certifications: tuple[Certifies, ...],
                 gained: tuple[Binding, ...] = ()) -> None:
        self.issuer, self.target, self.certifications, self.gained = issuer, target, certifications, gained


class Meeting(Value):
    """A plan for those who come. `before` and `after` count the bindings that reach the amount: of those who come, or
    with some depth of all. Those who are `missing` aren't in the keyring."""
    __slots__ = ("comers", "missing", "wanted", "depth", "before", "after", "steps")

    def __init__(self, comers: tuple[str, ...], missing: tuple[str, ...], wanted: int, depth: int, before: int,
                 after: int, steps: tuple[Step, ...]) -> None:
        self.comers, self.missing, self.wanted = comers, missing, wanted
        self.depth, self.before, self.after, self.steps = depth, before, after, steps


class Planner:
    """Looks for the steps. `most` bounds how many there are."""

    def __init__(self, keyring: SupposedKeyring, engine: ScratchEngine, trials: Trials, roots: Mapping[str, int],
                 wanted: int, depth: int, most: int, say: Say) -> None:
        self._keyring, self._engine, self._trials, self._roots = keyring, engine, trials, roots
        self._wanted, self._depth, self._most, self._say = wanted, depth, most, say

    def meeting(self, comers: Sequence[str]) -> Meeting:
        there = tuple(fpr for fpr in dict.fromkeys(comers) if self._keyring.certificate(fpr) is not None)
        missing = tuple(fpr for fpr in dict.fromkeys(comers) if fpr not in there)
        self._engine.need("from", self._roots)
        self._engine.need("key", there)
        introducers = self._introducers()
        useful = tuple(fpr for fpr in there if fpr in introducers)
        before, steps = self._with_depth(there, useful) if self._depth else self._without_depth(there, useful)
        after = before + sum(len(one.gained) for one in steps)
        return Meeting(there, missing, self._wanted, self._depth, before, after, tuple(steps))

    def _introducers(self) -> set[str]:
        """The roots, and whoever trust signatures lead to from them."""
        lines = self._keyring.index.excerpt("from", sorted(self._roots))
        return {key_fingerprint(next(packets(bytes.fromhex(line[7:].decode("ascii"))))[1])
                for line in lines if line.startswith(b"import ")}

    def _step(self, issuer: str, target: str) -> Step:
        certificate = self._keyring.certificate(target)
        user_ids = certificate.user_ids if certificate is not None else ()
        return Step(issuer, target, tuple(Certifies(issuer, target, user_id, self._depth) for user_id in user_ids))

    def _without_depth(self, comers: Sequence[str], useful: Sequence[str]) -> tuple[int, list[Step]]:
        """Each person by themselves; those of whom a step gains the most come first."""
        before, groups = 0, []
        for place, target in enumerate(comers, 1):
            self._say(f"person {place} of {len(comers)}")
            reached, steps = self._of_person(target, [fpr for fpr in useful if fpr != target])
            before += len(reached)
            groups += [steps] if steps else []
        groups.sort(key=lambda steps: (-sum(len(one.gained) for one in steps) / len(steps), steps[0].target))
        return before, [step for steps in groups for step in steps][:self._most]

    def _of_person(self, target: str, signers: Sequence[str]) -> tuple[set[Binding], list[Step]]:
        """The bindings of a person that are reached, and the steps that reach more of them."""
        bindings = [(target, one.user_id) for one in self._step(target, target).certifications]
        first, score = self._reached(bindings, ())
        taken: list[Step] = []
        candidates = [self._step(fpr, target) for fpr in signers] if len(first) < len(bindings) else []
        while candidates:
            scores = {one: self._reached(bindings, [*taken, one])[1] for one in candidates}
            best = max(candidates, key=lambda one: scores[one])
            if scores[best] <= score:
                break
            taken.append(best)
            score = scores[best]
            candidates.remove(best)
        return first, self._needed(bindings, taken, first)

    def _needed(self, bindings: Sequence[Binding], taken: list[Step], first: set[Binding]) -> list[Step]:
        """The steps without those that in the end nothing rests on, each with what it gains."""
        whole = self._reached(bindings, taken)[0]
        for one in list(taken):
            rest = [other for other in taken if other is not one]
            if self._reached(bindings, rest)[0] == whole:
                taken = rest
        steps, before = [], first
        for place, one in enumerate(taken, 1):
            after = self._reached(bindings, taken[:place])[0]
            steps.append(one.but(gained=tuple(sorted(after - before))))
            before = after
        return steps

    def _reached(self, bindings: Iterable[Binding], steps: Sequence[Step]) -> tuple[set[Binding], Score]:
        """Which of these bindings reach the amount with these steps, and how good that is: how many, and then how much
        of the amount all of them have."""
        supposed = [one for step in steps for one in step.certifications]
        amounts = {one: self._trials.answer(one[0], self._wanted, one[1], supposed).amount for one in bindings}
        reached = {one for one, amount in amounts.items() if amount >= self._wanted}
        return reached, (len(reached), sum(min(amount, self._wanted) for amount in amounts.values()))

    def _listed(self, steps: Sequence[Step]) -> set[Binding]:
        self._trials.suppose([one for step in steps for one in step.certifications])
        return {(one.fpr, one.user_id) for one in self._engine.list(VIEW, self._wanted)}

    def _with_depth(self, comers: Sequence[str], useful: Sequence[str]) -> tuple[int, list[Step]]:
        """With all bindings counted: one certification after another, each the one that gains the most. What a
        certification gained the last time is taken for the most that it may gain."""
        self._engine.need("reach", [*self._roots, *comers])
        reached = self._listed(())
        before = len(reached)
        steps: list[Step] = []
        bounds = {(issuer, target): len(reached) + 10**6 for issuer in useful for target in comers if issuer != target}
        while bounds and len(steps) < self._most:
            self._say(f"step {len(steps) + 1}, with {len(reached)} bindings so far")
            best = self._best(bounds, steps, reached)
            if best is None:
                break
            steps.append(best)
            reached |= set(best.gained)
            del bounds[best.issuer, best.target]
            for target in comers:  # Whoever is an introducer now may certify the others.
                if target != best.target and (best.target, target) not in bounds:
                    bounds[best.target, target] = 10**6
        return before, steps

    def _best(self, bounds: dict[tuple[str, str], int], steps: list[Step], reached: set[Binding]) -> Step | None:
        best: Step | None = None
        for issuer, target in sorted(bounds, key=lambda pair: (-bounds[pair], pair)):
            if bounds[issuer, target] <= (len(best.gained) if best is not None else 0):
                break
            step = self._step(issuer, target)
            gained = self._listed([*steps, step]) - reached
            bounds[issuer, target] = len(gained)
            if gained and (best is None or len(gained) > len(best.gained)):
                best = step.but(gained=tuple(sorted(gained)))
        return best
