"""What is fragile: bindings that rest on a single key or certification, and what falls when something ends.

Whether a binding would fall is asked of the engine, without the key or the certification. Only those on its paths need
be tried: what an answer doesn't use can't change it.
"""

from __future__ import annotations

from collections import defaultdict
from typing import TYPE_CHECKING

from ..protocol.reasons import ReasonWord
from ..records import Value
from .ends import Ending, endings
from .suppositions import Certifies
from .trials import VIEW, Trials

if TYPE_CHECKING:
    from collections.abc import Callable, Iterable, Mapping

    from .scratch import ScratchEngine, SupposedKeyring

    Binding = tuple[str, bytes]
    Edge = tuple[str, str, bytes]
    Say = Callable[[str], None]

MOST_INTRODUCED, MOST_MOMENTS = 5, 200


class Safer(Value):
    """A certification by a root with which `count` of the bindings would no longer rest on the one carrier, the
    `first` one among them."""
    __slots__ = ("certification", "count", "first")

    def __init__(self, certification: Certifies, count: int, first: Binding) -> None:
        self.certification, self.count, self.first = certification, count, first


class Carrier(Value):
    """A key, or a certification `edge` of it, without which these bindings would fall below the amount. `numbers` are
    those of the signatures that make the edge."""
    __slots__ = ("fpr", "edge", "bindings", "numbers", "safer")

    def __init__(self, fpr: str, edge: Edge | None, bindings: tuple[Binding, ...], numbers: tuple[str, ...] = (),
                 safer: Safer | None = None) -> None:
        self.fpr, self.edge, self.bindings, self.numbers, self.safer = fpr, edge, bindings, numbers, safer


class Fall(Value):
    """What ends at a moment, and the bindings that fall with it."""
    __slots__ = ("time", "ending", "bindings")

    def __init__(self, time: int, ending: tuple[Ending, ...], bindings: tuple[Binding, ...]) -> None:
        self.time, self.ending, self.bindings = time, ending, bindings


class Fragile(Value):
    """What a look over the keyring came to. `own` are bindings that rest on a root's own certification of them."""
    __slots__ = ("wanted", "days", "reached", "own", "keys", "certifications", "falls")

    def __init__(self, wanted: int, days: int, reached: int, own: int, keys: tuple[Carrier, ...],
                 certifications: tuple[Carrier, ...], falls: tuple[Fall, ...]) -> None:
        self.wanted, self.days, self.reached, self.own = wanted, days, reached, own
        self.keys, self.certifications, self.falls = keys, certifications, falls


class Look:
    """Looks for what is fragile, from some roots, at the time of the trials."""

    def __init__(self, keyring: SupposedKeyring, engine: ScratchEngine, trials: Trials, roots: Mapping[str, int],
                 wanted: int, say: Say) -> None:
        self._keyring, self._engine, self._trials, self._roots = keyring, engine, trials, roots
        self._wanted, self._say = wanted, say
        self._root = max(roots, key=lambda fpr: roots[fpr])
        self._by_key: defaultdict[str, set[Binding]] = defaultdict(set)
        self._by_edge: defaultdict[Edge, set[Binding]] = defaultdict(set)

    def fragile(self, days: int) -> Fragile:
        self._say("listing the bindings")
        reached = self._reached()
        self._say(f"following the paths of {len(reached)} bindings")
        for fpr, user_id in reached:
            self._note_paths(fpr, user_id)
        certifications = [self._without_edge(edge, using) for edge, using in sorted(self._by_edge.items())]
        carried = [one for one in certifications if one.bindings]
        own = {one.bindings[0] for one in carried if self._is_own(one)}
        keys = [self._without_key(fpr, using) for fpr, using in sorted(self._by_key.items())]
        return Fragile(self._wanted, days, len(reached), len(own), self._ranked(keys),
                       self._ranked(one for one in carried if not self._is_own(one)), tuple(self._falls(days, reached)))

    def _reached(self) -> list[Binding]:
        return [(one.fpr, one.user_id) for one in self._engine.list(VIEW, self._wanted)]

    def _note_paths(self, fpr: str, user_id: bytes) -> None:
        for path in self._trials.answer(fpr, self._wanted, user_id).paths:
            for step in path.steps:
                if step.issuer != fpr:
                    self._by_edge[step.issuer, step.target, step.user_id].add((fpr, user_id))
                    if step.issuer not in self._roots:
                        self._by_key[step.issuer].add((fpr, user_id))

    def _is_own(self, one: Carrier) -> bool:
        """Whether it is a root's own certification of the one binding that rests on it."""
        return (one.edge is not None and one.edge[0] in self._roots and one.edge[1:] == one.bindings[0]
                and len(one.bindings) == 1)

    def _fallen(self, bindings: Iterable[Binding]) -> tuple[Binding, ...]:
        return tuple((fpr, user_id) for fpr, user_id in sorted(bindings)
                     if self._trials.answer(fpr, self._wanted, user_id).amount < self._wanted)

    def _without_edge(self, edge: Edge, bindings: set[Binding]) -> Carrier:
        issuer, target, user_id = edge
        explanation = self._engine.explain(VIEW, target, user_id)
        numbers = [one.number for one in explanation.reasons if one.word is ReasonWord.EDGE and one.issuer == issuer]
        for number in numbers:
            self._engine.unjudge(number)
        try:
            return self._safer(Carrier(issuer, edge, self._fallen(bindings), tuple(numbers)))
        finally:
            for number in numbers:
                self._engine.judge_good(number, issuer)

    def _without_key(self, fpr: str, bindings: set[Binding]) -> Carrier:
        octets = self._engine.export(fpr)
        self._engine.drop(fpr)
        try:
            return self._safer(Carrier(fpr, None, self._fallen(one for one in bindings if one[0] != fpr)))
        finally:
            self._engine.import_certificates(octets)

    @staticmethod
    def _ranked(carriers: Iterable[Carrier]) -> tuple[Carrier, ...]:
        return tuple(sorted((one for one in carriers if one.bindings), key=lambda one: -len(one.bindings)))

    def _safer(self, carrier: Carrier) -> Carrier:
        """The carrier, with the one certification by a root that would make the most of its bindings safe: of an
        introducer who has certified many of them. The carrier isn't there while this is looked for."""
        replaced = carrier.edge[1:2] if carrier.edge is not None else ()
        certified: defaultdict[str, int] = defaultdict(int)
        for fpr, user_id in carrier.bindings[:200]:
            for one in self._engine.explain(VIEW, fpr, user_id).reasons:
                if one.word is ReasonWord.EDGE and one.issuer not in (None, fpr, carrier.fpr, *self._roots, *replaced):
                    certified[one.issuer or ""] += 1
        best: Safer | None = None
        if len(carrier.bindings) == 1 and carrier.fpr not in self._roots:
            direct = Certifies(self._root, *carrier.bindings[0])
            best = self._saved(direct, carrier.bindings)
        for fpr, count in sorted(certified.items(), key=lambda pair: (-pair[1], pair[0]))[:MOST_INTRODUCED]:
            name = self._keyring.name(fpr)
            if name is None or best is not None and count <= best.count:
                continue
            made = Certifies(self._root, fpr, name, 1)
            saved = self._saved(made, carrier.bindings)
            best = saved if saved and (best is None or saved.count > best.count) else best
        return carrier.but(safer=best)

    def _saved(self, one: Certifies, bindings: tuple[Binding, ...]) -> Safer | None:
        """What the certification would make safe; None if nothing."""
        saved = [(fpr, user_id) for fpr, user_id in bindings
                 if self._trials.answer(fpr, self._wanted, user_id, (one,)).amount >= self._wanted]
        self._trials.suppose(())
        return Safer(one, len(saved), saved[0]) if saved else None

    def _falls(self, days: int, reached: list[Binding]) -> Iterable[Fall]:
        """The bindings that fall at each moment at which something ends."""
        before = set(reached)
        members = {fpr for fpr, _ in reached} | set(self._by_key) | set(self._roots)
        ending = endings(self._keyring, sorted(members), self._trials.time, self._trials.time + days * 86400)
        moments = sorted(ending)[:MOST_MOMENTS]
        for place, time in enumerate(moments, 1):
            self._say(f"what ends: moment {place} of {len(moments)}")
            self._engine.open_view(VIEW, time)
            after = set(self._reached())
            if before - after:
                yield Fall(time, tuple(ending[time]), tuple(sorted(before - after)))
            before &= after
        self._engine.open_view(VIEW, self._trials.time)
